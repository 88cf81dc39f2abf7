//! Building networks field by field, and writing them as texts.
//!
//! Nothing is tested here: a builder may also make bytes that are no network.

use crate::sizes::{length_bytes, most_feet, most_nodes, segment_bytes};

/// Kind byte of a head.
const HEAD_KIND: u8 = 1;
/// Kind byte of a segment frame.
pub(crate) const SEGMENT_KIND: u8 = 2;
/// The byte of a head that names edition 01, of which a town is if nothing else
/// is said.
pub const OLDER: u8 = 1;
/// The byte of a head that names edition 02.
pub const NEWER: u8 = 2;
/// The byte of a head that names edition 03, whose frames have longer lengths.
pub const COUNTY: u8 = 3;

/// A segment's end: a node and one of its legs.
#[derive(Clone, Copy, Debug, Default, PartialEq, Eq)]
pub struct End {
    /// The node.
    pub node: u16,
    /// The leg, 0 to 7, numbered clockwise.
    pub leg: u8,
}

/// Shorthand for an [`End`].
pub fn end(node: u16, leg: u8) -> End {
    End { node, leg }
}

/// What is met on riding in at an end. The default crosses nothing and has
/// no turn lane.
#[derive(Clone, Copy, Debug, Default, PartialEq, Eq)]
pub struct Approach {
    /// 0 nothing crossed, 1 signal, 2 no island, 3 island, 4 one-way street,
    /// 5 signal with a bicycle left-turn improvement.
    pub control: u8,
    /// Lanes crossed.
    pub lanes: u8,
    /// Their speed in mph.
    pub speed: u8,
    /// Turn-lane kind, 0 to 3.
    pub turn: u8,
    /// Turn-lane length in feet.
    pub turn_length: u16,
    /// Turning speed in mph.
    pub turn_speed: u8,
}

impl Approach {
    /// An approach to a signal; with a bicycle left-turn improvement it is none
    /// of edition 01.
    pub fn signal(improved: bool) -> Approach {
        Approach::crossing(if improved { IMPROVED_SIGNAL } else { SIGNAL }, 0, 0)
    }

    /// An approach that crosses lanes and has no turn lane.
    pub fn crossing(control: u8, lanes: u8, speed: u8) -> Approach {
        Approach {
            control,
            lanes,
            speed,
            ..Approach::default()
        }
    }

    /// The same approach with a turn lane.
    pub fn turning(self, turn: u8, turn_length: u16, turn_speed: u8) -> Approach {
        Approach {
            turn,
            turn_length,
            turn_speed,
            ..self
        }
    }

    fn put(self, out: &mut Vec<u8>) {
        out.extend([self.control, self.lanes, self.speed, self.turn]);
        out.extend(self.turn_length.to_be_bytes());
        out.push(self.turn_speed);
    }
}

/// Control: signal.
pub const SIGNAL: u8 = 1;
/// Control: signal with a bicycle left-turn improvement, from edition 02 on.
pub const IMPROVED_SIGNAL: u8 = 5;

/// Marks: centreline marked.
pub const CENTRELINE: u8 = 1;
/// Marks: residential.
pub const RESIDENTIAL: u8 = 2;
/// Marks: raised median.
pub const MEDIAN: u8 = 4;
/// Marks: bike lane often blocked.
pub const BLOCKED: u8 = 8;
/// Marks: central two-way turn lane, from edition 02 on.
pub const TURN_LANE: u8 = 16;

/// A segment, with all fields of its frame between kind and check.
#[derive(Clone, Copy, Debug, PartialEq, Eq)]
pub struct Segment {
    /// The A end.
    pub a: End,
    /// The B end.
    pub b: End,
    /// Feet.
    pub length: u32,
    /// 0 mixed traffic, 1 bike lane beside parking, 2 without, 3 path.
    pub form: u8,
    /// 1 open from A to B, 2 from B to A, 3 both.
    pub ways: u8,
    /// Lanes.
    pub lanes: u8,
    /// Speed in mph.
    pub speed: u8,
    /// Reach in half feet.
    pub reach: u8,
    /// A sum of marks.
    pub marks: u8,
    /// The approach at B.
    pub at_b: Approach,
    /// The approach at A.
    pub at_a: Approach,
}

impl Segment {
    /// A separate path open both ways, nothing met at its ends.
    pub fn path(a: End, b: End, length: u32) -> Segment {
        Segment {
            a,
            b,
            length,
            form: 3,
            ways: 3,
            lanes: 0,
            speed: 0,
            reach: 0,
            marks: 0,
            at_b: Approach::default(),
            at_a: Approach::default(),
        }
    }

    /// The same segment with another form and that form's fields.
    pub fn street(self, form: u8, lanes: u8, speed: u8, reach: u8, marks: u8) -> Segment {
        Segment {
            form,
            lanes,
            speed,
            reach,
            marks,
            ..self
        }
    }

    /// The same segment with other ways.
    pub fn ways(self, ways: u8) -> Segment {
        Segment { ways, ..self }
    }

    /// The same segment with another approach at B.
    pub fn at_b(self, at_b: Approach) -> Segment {
        Segment { at_b, ..self }
    }

    /// The same segment with another approach at A.
    pub fn at_a(self, at_a: Approach) -> Segment {
        Segment { at_a, ..self }
    }

    /// The frame of edition 01 or 02, check computed.
    pub fn frame(&self) -> Vec<u8> {
        self.frame_of(OLDER)
    }

    /// The same of an edition. What the length has above its bytes there is cut.
    pub fn frame_of(&self, edition: u8) -> Vec<u8> {
        let mut out = Vec::with_capacity(segment_bytes(edition));
        out.push(SEGMENT_KIND);
        for e in [self.a, self.b] {
            out.extend(e.node.to_be_bytes());
            out.push(e.leg);
        }
        let length = self.length.to_be_bytes();
        out.extend(&length[length.len() - length_bytes(edition)..]);
        out.extend([
            self.form, self.ways, self.lanes, self.speed, self.reach, self.marks,
        ]);
        self.at_b.put(&mut out);
        self.at_a.put(&mut out);
        out.push(check(&out));
        out
    }
}

/// A network under construction.
#[derive(Clone, Debug, PartialEq, Eq)]
pub struct Town {
    /// The edition's byte.
    pub edition: u8,
    /// N.
    pub nodes: u16,
    /// The segments, numbered from 0.
    pub segments: Vec<Segment>,
}

impl Town {
    /// A town of edition 01 with so many nodes, without segments.
    pub fn new(nodes: u16) -> Town {
        Town {
            edition: OLDER,
            nodes,
            segments: Vec::new(),
        }
    }

    /// The same town in another edition.
    pub fn edition(self, edition: u8) -> Town {
        Town { edition, ..self }
    }

    /// The same town, where no street is longer than an edition allows.
    pub fn shortened(mut self, edition: u8) -> Town {
        for street in &mut self.segments {
            street.length = street.length.min(most_feet(edition));
        }
        self
    }

    /// The same town with one more segment.
    pub fn with(mut self, segment: Segment) -> Town {
        self.segments.push(segment);
        self
    }

    /// The head frame, check computed.
    pub fn head(&self) -> Vec<u8> {
        head_of(
            self.edition,
            self.nodes,
            u16::try_from(self.segments.len()).unwrap_or(u16::MAX),
        )
    }

    /// The head frame, then each segment's.
    pub fn frames(&self) -> Vec<Vec<u8>> {
        let mut frames = vec![self.head()];
        let of_edition = |segment: &Segment| segment.frame_of(self.edition);
        frames.extend(self.segments.iter().map(of_edition));
        frames
    }

    /// The frames' bytes joined.
    pub fn bytes(&self) -> Vec<u8> {
        self.frames().concat()
    }

    /// The network text.
    pub fn text(&self) -> Vec<u8> {
        text_of(&self.frames())
    }
}

/// A head frame of edition 01 with these numbers, check computed.
pub fn head(nodes: u16, segments: u16) -> Vec<u8> {
    head_of(OLDER, nodes, segments)
}

/// The same of an edition.
pub fn head_of(edition: u8, nodes: u16, segments: u16) -> Vec<u8> {
    let mut out = vec![HEAD_KIND, edition];
    out.extend(nodes.to_be_bytes());
    out.extend(segments.to_be_bytes());
    out.push(check(&out));
    out
}

/// The check byte of a frame that lacks it.
pub fn check(body: &[u8]) -> u8 {
    body.iter().fold(0u8, |sum, &byte| sum.wrapping_sub(byte))
}

/// One line: the bytes as uppercase digits, ended by 0A.
pub fn line(frame: &[u8]) -> Vec<u8> {
    let digit = |value: u8| b"0123456789ABCDEF"[usize::from(value & 15)];
    let mut out: Vec<u8> = frame
        .iter()
        .flat_map(|&b| [digit(b >> 4), digit(b)])
        .collect();
    out.push(0x0A);
    out
}

/// A text with a line for each frame.
pub fn text_of(frames: &[Vec<u8>]) -> Vec<u8> {
    frames.iter().flat_map(|frame| line(frame)).collect()
}

/// All nodes of an edition in a row, each joined to the next by a path as long
/// as the edition allows.
pub fn longest_chain(edition: u8) -> Town {
    let mut town = Town::new(most_nodes(edition) as u16).edition(edition);
    let paths = (1..town.nodes)
        .map(|node| Segment::path(end(node - 1, 0), end(node, 4), most_feet(edition)));
    town.segments.extend(paths);
    town
}

/// Block town, the paper's last starred example.
pub fn block_town() -> Town {
    Town::new(3)
        .with(Segment::path(end(0, 0), end(1, 4), 300).at_b(Approach::crossing(2, 6, 30)))
        .with(Segment::path(end(1, 2), end(1, 6), 900))
        .with(Segment::path(end(1, 0), end(2, 4), 300))
}

/// Linden, the town of `towns/linden.md`: a residential street and a slow one,
/// both beside narrow parking lanes, and a third that is neither.
pub fn linden() -> Town {
    Town::new(6)
        .with(Segment::path(end(0, 2), end(1, 6), 200))
        .with(Segment::path(end(1, 2), end(2, 6), 600).street(1, 1, 25, 27, RESIDENTIAL))
        .with(Segment::path(end(1, 1), end(3, 5), 500))
        .with(Segment::path(end(3, 3), end(2, 7), 500))
        .with(Segment::path(end(2, 2), end(4, 6), 300).street(1, 1, 20, 26, 0))
        .with(Segment::path(end(2, 4), end(5, 0), 350).street(1, 1, 25, 27, CENTRELINE))
}

/// Westerby, the town of `towns/westerby.md`: streets that are lower in their
/// traffic than in their bike lanes, and a corner with a signal. It has nothing
/// that edition 01 refuses.
pub fn westerby() -> Town {
    let quiet = |a, b, feet| Segment::path(a, b, feet).street(0, 2, 25, 0, RESIDENTIAL);
    let lane = |a, b, feet| Segment::path(a, b, feet).street(2, 2, 25, 12, RESIDENTIAL);
    let high = |a, b| Segment::path(a, b, 400).street(2, 1, 30, 12, CENTRELINE);
    Town::new(10)
        .edition(NEWER)
        .with(Segment::path(end(0, 2), end(1, 6), 200))
        .with(Segment::path(end(1, 2), end(2, 6), 600).street(1, 1, 30, 30, BLOCKED))
        .with(Segment::path(end(1, 1), end(3, 5), 500))
        .with(Segment::path(end(3, 3), end(2, 7), 500))
        .with(lane(end(2, 0), end(4, 4), 300).ways(1))
        .with(lane(end(2, 2), end(9, 6), 350))
        .with(quiet(end(2, 4), end(6, 0), 300).at_b(Approach::signal(false)))
        .with(quiet(end(6, 4), end(5, 0), 350).at_a(Approach::signal(false)))
        .with(high(end(7, 2), end(6, 6)))
        .with(high(end(6, 2), end(8, 6)))
}
