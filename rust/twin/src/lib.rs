//! Bicycle stress levels and least-stress routes on a street network.
//!
//! An implementation of "document 01" and of Notes 1 to 7 of "document 02",
//! written from those papers alone, to be compared with another one. The calls
//! are [`read`], [`refused_line`], [`judge_segment`], [`judge_movement`],
//! [`route`], [`least_stress`], [`reach_map`], [`nearest`], [`move_up`] and
//! [`move_back`]; [`is_network`] is the paper's test 8. Refusals are the papers'
//! numbers.
//!
//! | number | meaning |
//! |-------:|---------|
//! | 1 | a line is not whole pairs of uppercase digits ended by 0A, or is empty |
//! | 2 | check |
//! | 3 | wrong kind or frame length for its position |
//! | 4 | a field against the ranges or rules |
//! | 5 | a segment beyond S, or too few segments |
//! | 6 | a leg taken already |
//! | 7 | output too short |
//! | 8 | the bytes are no network that `read` could keep |
//! | 9 | a node not below N |
//! | 10 | tolerance not 1 to 4 |
//! | 11 | scratch or buffer too short |
//! | 12 | a segment not below S, or a run not below 2S or not open |
//! | 13 | no movement |
//! | 14 | `read` would accept the text: no line is refused |
//! | 15 | a list or marks with fewer entries than there are nodes |
//! | 16 | a network of an edition that has no move that way |
//! | 17 | a count or length above the limits of the edition moved to |
//! | 18 | output shorter than the moved network |

#![forbid(unsafe_code)]
#![deny(missing_docs)]
#![allow(clippy::manual_is_multiple_of)] // a run's direction is its parity

mod edition;
mod frame;
mod level;
mod moves;
mod network;
mod reach;
mod read;
mod search;

pub use edition::{MAX_LIST, MAX_NETWORK, MAX_NODES, MAX_RUNS, MAX_SEGMENTS};
pub use edition::{TOWN_LIST, TOWN_NODES, TOWN_RUNS, TOWN_SEGMENTS};
pub use moves::{move_back, move_up};
pub use network::{is_network, judge_movement, judge_segment};
pub use reach::{nearest, reach_map};
pub use read::{read, refused_line};
pub use search::{Found, least_stress, route};
