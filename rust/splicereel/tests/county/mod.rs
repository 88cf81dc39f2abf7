//! A network of edition 03 whose answers arithmetic tells: every segment has
//! 264,000 feet, and the one quiet way from the start to the end rides nearly all
//! of them out, turns at a loop, and rides them back.
//!
//! ```text
//!              end
//!               ^            (all paths; the two at the left are one-way)
//!               |
//!               1 ---- 2 ---- 3 ---- .. ---- last, with a loop
//!               ^
//!               |
//!             start
//! ```
//!
//! Straight on from the start to the end, twelve lanes are crossed at 85 mph,
//! which is level 4.

#![allow(dead_code)] // each test uses a part

/// Feet of every segment.
pub const FEET: u32 = 264_000;

/// The network with so many segments, which has as many nodes.
#[derive(Clone, Copy, Debug)]
pub struct OutAndBack {
    pub segments: u16,
}

impl OutAndBack {
    /// The largest network that there is.
    pub const LARGEST: OutAndBack = OutAndBack { segments: 8_000 };

    /// The end is the last node, and the start node 0. Node n of the row is n
    /// segments from the start.
    pub fn end(self) -> usize {
        usize::from(self.segments) - 1
    }

    /// The last node of the row, where the loop is.
    pub fn last(self) -> usize {
        self.end() - 1
    }

    /// The runs from the start to the end within tolerance 3, but for the loop
    /// between them: each segment of the row out, and back.
    pub fn halves(self) -> [Vec<usize>; 2] {
        let row = 1..self.last();
        let out = [0].into_iter().chain(row.clone().map(|s| 2 * s));
        let back = row.rev().map(|s| 2 * s + 1).chain([2 * self.end()]);
        [out.collect(), back.collect()]
    }

    /// Their number, the loop's run counted.
    pub fn runs(self) -> usize {
        2 * self.last() + 1
    }

    /// The network text.
    pub fn text(self) -> Vec<u8> {
        let (end, last) = (self.segments - 1, self.segments - 2);
        let head = [[1, 3], two_bytes(self.segments), two_bytes(self.segments)].concat();
        let start = frame((0, 0), (1, 4), 1, [2, 12, 85]);
        let row = (1..last).map(|node| frame((node, 2), (node + 1, 6), 3, [0; 3]));
        let loops = frame((last, 0), (last, 4), 3, [0; 3]);
        let leaving = frame((1, 0), (end, 4), 1, [0; 3]);
        let frames = [head, start].into_iter().chain(row);
        let frames = frames.chain([loops, leaving]);
        frames.flat_map(|frame| line(&frame)).collect()
    }
}

fn two_bytes(number: u16) -> [u8; 2] {
    number.to_be_bytes()
}

/// A path between two ends, node and leg, without its check; `crossed` is what
/// is crossed on riding in at B: control, lanes, speed.
fn frame(a: (u16, u8), b: (u16, u8), ways: u8, crossed: [u8; 3]) -> Vec<u8> {
    let mut frame = vec![2];
    for (node, leg) in [a, b] {
        frame.extend(two_bytes(node));
        frame.push(leg);
    }
    frame.extend(FEET.to_be_bytes());
    frame.extend([3, ways, 0, 0, 0, 0]);
    frame.extend(crossed);
    frame.resize(31, 0);
    frame
}

/// The frame's line: its bytes, and the check that makes them sum to 0.
pub fn line(frame: &[u8]) -> Vec<u8> {
    let check = frame.iter().fold(0u8, |sum, byte| sum.wrapping_sub(*byte));
    let digits = frame
        .iter()
        .chain([&check])
        .map(|byte| format!("{byte:02X}"));
    let line: String = digits.chain(["\n".into()]).collect();
    line.into_bytes()
}
