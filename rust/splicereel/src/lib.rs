//! Bicycle stress levels and least-stress routes on a street network.
//!
//! A safe interface to the proved archive `libsplicereel_c.a`, which
//! `make lib` writes. There are two forms of each call:
//!
//! - The comfortable one owns what it needs: [`Network::read`] and the methods
//!   of [`Network`].
//! - The lending one takes the caller's slices and allocates nothing:
//!   [`read`], [`refused_line`], [`judge_segment`], [`judge_movement`],
//!   [`route`] and [`least_stress`], with [`Lent`] for what a search borrows,
//!   [`reach_map`] and [`nearest`], with [`Scratch`], [`move_up`] and
//!   [`move_back`].
//!
//! Networks of editions 01, 02 and 03 are read, and judged by the rules of the
//! edition that their head names ([`Network::edition`]). Edition 03 has the
//! rules of 02, and is for counties: up to [`MAX_NODES`] nodes and
//! [`MAX_SEGMENTS`] segments, each of up to 264,000 feet. A network of edition
//! 02 is moved up to 03 by [`Network::to_county`], and back by
//! [`Network::to_town`].
//!
//! Every call ends with an answer or a [`Refusal`] on every input; none
//! panics, and a refusal leaves every lent slice as it was. The crate needs
//! `alloc` and no operating system.
//!
//! ```
//! use splicereel::{Level, Network};
//!
//! // Block town: three nodes in a row, a path round the block at the middle
//! // one, and a wide street to cross on riding straight on there.
//! let text = b"\
//! 010100030003F8
//! 02000000000104012C03030000000002061E0000000000000000000000A0
//! 020001020001060384030300000000000000000000000000000000000067
//! 02000100000204012C0303000000000000000000000000000000000000C4
//! ";
//! let network = Network::read(text)?;
//! assert_eq!((network.nodes(), network.segments()), (3, 3));
//!
//! // Within tolerance 3 the way leads round the block, 1,500 feet.
//! let route = network.route(0, 2, Level::Three)?.expect("a way round the block");
//! assert_eq!((route.feet(), route.level()), (1_500, Level::One));
//! // Tolerance 4 crosses the wide street, 600 feet.
//! let route = network.route(0, 2, Level::Four)?.expect("a way across");
//! assert_eq!((route.feet(), route.level()), (600, Level::Four));
//! # Ok::<(), Box<dyn std::error::Error>>(())
//! ```

#![no_std]
#![deny(missing_docs)]
#![deny(unsafe_code)]

extern crate alloc;

mod answer;
pub mod ffi;
mod lending;
mod network;
mod reach;
mod refusal;

pub use answer::{Direction, Entry, Found, Judged, Level, Measure, Run};
pub use ffi::{Lent, Scratch};
pub use lending::{judge_movement, judge_segment, least_stress, move_back, move_up};
pub use lending::{nearest, reach_map, read, refused_line, route};
pub use network::{Network, Route};
pub use reach::{Entries, ReachMap};
pub use refusal::{ReadRefusal, Refusal, RefusedLine};

/// The most nodes of every network that [`read`] can keep; that is the largest
/// of edition 03.
pub const MAX_NODES: usize = 8_000;
/// The most segments of every network that [`read`] can keep.
pub const MAX_SEGMENTS: usize = 8_000;
/// The bytes of the longest text that [`read`] accepts: 15 for the head's line,
/// and 65 for each segment's.
pub const MAX_TEXT: usize = 15 + 65 * MAX_SEGMENTS;
/// Feet that no length which a call tells is above: [`MAX_RUNS`] runs of
/// 264,000 feet.
pub const MAX_FEET: u32 = 264_000 * MAX_RUNS as u32;
/// The most runs of every network: two for each segment.
///
/// Scratch slices and a buffer so long serve every network.
pub const MAX_RUNS: usize = 2 * MAX_SEGMENTS;
/// The numbers of the largest reach map, two for each node.
///
/// A list so long serves every network, and so do marks for [`MAX_NODES`].
pub const MAX_LIST: usize = 2 * MAX_NODES;
/// The bytes of the largest network, 7 and 32 for each segment: an output so
/// long serves every network.
pub const MAX_NETWORK: usize = 7 + 32 * MAX_SEGMENTS;

/// The most nodes of a town.
///
/// A network of at most so many nodes and [`TOWN_SEGMENTS`] segments is a town,
/// a larger one a county: its counts decide that, not its edition. Every network
/// of editions 01 and 02 is a town, and so is a small one of edition 03.
pub const TOWN_NODES: usize = 1_000;
/// The most segments of a town.
pub const TOWN_SEGMENTS: usize = 1_000;
/// The most runs of a town: two for each segment.
///
/// Scratch slices and a buffer so long serve every town.
pub const TOWN_RUNS: usize = 2 * TOWN_SEGMENTS;
/// The numbers of a town's largest reach map, two for each node.
///
/// A list so long serves every town.
pub const TOWN_LIST: usize = 2 * TOWN_NODES;

/// A call about a town takes less than so many bytes of stack, 64 KiB.
pub const TOWN_STACK: usize = 64 * 1024;
/// A call about a county takes less than so many bytes of stack, 448 KiB.
pub const COUNTY_STACK: usize = 448 * 1024;
