//! A part of a town as a network of its own, for the archive to judge.
//!
//! Document 01 tells the level of a segment by its own fields, and that of a
//! movement by the approach where the first run arrives and by the legs that are
//! used at that node. So the archive is asked about the segments that matter: it
//! tests all of a network before it answers, and a county has 8,000 segments,
//! which would be tested once more for each row of a page.

use crate::edition::Edition;
use crate::segment::{A_NODE, B_NODE, Head, Segment};
use crate::town::Town;

/// Segments of a town, with the nodes at their ends.
#[derive(Clone, Debug)]
pub struct Part {
    edition: Edition,
    nodes: Vec<u32>,
    pub segments: Vec<Segment>,
}

impl Part {
    /// The part of these segments, numbered in this order. Nodes are numbered
    /// as they come; legs stay.
    pub fn of(town: &Town, numbers: &[usize]) -> Part {
        let mut part = Part {
            edition: town.edition,
            nodes: Vec::new(),
            segments: Vec::with_capacity(numbers.len()),
        };
        for &number in numbers {
            let mut segment = town.segment(number);
            for end in [A_NODE, B_NODE] {
                let node = part.node(segment.get(end));
                segment.set(end, node);
            }
            part.segments.push(segment);
        }
        part
    }

    /// The number in the part of a node of the town.
    fn node(&mut self, node: u32) -> u32 {
        let known = self.nodes.iter().position(|other| *other == node);
        let number = known.unwrap_or_else(|| {
            self.nodes.push(node);
            self.nodes.len() - 1
        });
        number as u32
    }

    /// The kept bytes.
    pub fn bytes(&self) -> Vec<u8> {
        let head = Head {
            edition: self.edition,
            nodes: self.nodes.len() as u32,
            segments: self.segments.len() as u32,
        };
        let frames = self.segments.iter();
        let frames = frames.flat_map(|segment| segment.frame(self.edition));
        head.frame().into_iter().chain(frames).collect()
    }
}
