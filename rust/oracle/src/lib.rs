//! Bicycle stress levels and least-stress routes once more, simple and slow.
//!
//! Written from "document 01" and Notes 1 to 7 of "document 02" alone, it shares
//! no code with any other implementation, and nothing here was made to be fast:
//! bytes are parsed into plain fields, the levels are looked up in tables, every
//! movement is listed in advance, and lengths are relaxed over that list until
//! nothing changes. Its answers are what tests store, and what the others are
//! held to.
//!
//! [`read`] is Read, [`refused_line`] the line that it refuses, [`Net`] a network
//! with its judgements, [`Ways`] Route, Least stress, Reach map and Nearest,
//! [`move_up`] and [`move_back`] are a network in another edition; [`levels`],
//! [`refused`], [`routes`] and [`route`] are what programs must print. Refusals
//! are the paper's numbers.

#![forbid(unsafe_code)]
#![deny(missing_docs)]
#![allow(clippy::manual_is_multiple_of)] // a run's direction is its parity

mod frame;
mod moves;
mod net;
mod printed;
mod read;
mod street;
mod ways;

pub use moves::{move_back, move_up};
pub use net::Net;
pub use printed::{MOST_INPUT, levels, refused, route, routes};
pub use read::{read, refused_line};
pub use ways::Ways;
