//! The two frames: where their fields lie and when those are in order.

use crate::edition::{Edition, LONG, SHORT};

/// Bytes of a head.
pub(crate) const HEAD: usize = 7;
/// Kind byte of a head.
pub(crate) const HEAD_KIND: u8 = 0x01;
/// Kind byte of a segment frame.
pub(crate) const SEGMENT_KIND: u8 = 0x02;
/// The longest turn lane, in feet.
const MOST_TURN_FEET: u16 = 2_000;

// Places in a segment frame. An end has its node in two bytes, then its leg.
const A: usize = 1;
const B: usize = 4;
const LENGTH: usize = 7;

/// Bytes of an approach.
const APPROACH: usize = 7;

/// Places in a segment frame of `L` bytes after the length, which move with the
/// length's width; the last is the check's.
struct Place<const L: usize>;

impl<const L: usize> Place<L> {
    const AT_A: usize = L - 1 - APPROACH;
    const AT_B: usize = Self::AT_A - APPROACH;
    const MARKS: usize = Self::AT_B - 1;
    const REACH: usize = Self::AT_B - 2;
    const SPEED: usize = Self::AT_B - 3;
    const LANES: usize = Self::AT_B - 4;
    const WAYS: usize = Self::AT_B - 5;
    const FORM: usize = Self::AT_B - 6;
}

// The length stands between the ends and the form.
const _: () = assert!(Place::<SHORT>::FORM == LENGTH + Edition::Two.length_bytes());
const _: () = assert!(Place::<LONG>::FORM == LENGTH + Edition::Three.length_bytes());

/// Whether all bytes sum to 0 modulo 256.
#[inline]
pub(crate) fn checks(bytes: &[u8]) -> bool {
    bytes.iter().fold(0u8, |sum, &b| sum.wrapping_add(b)) == 0
}

/// What a head says.
#[derive(Clone, Copy)]
pub(crate) struct Head {
    pub edition: Edition,
    pub nodes: usize,
    pub segments: usize,
}

impl Head {
    /// Takes the fields between kind and check, if they are in order.
    pub fn decode(frame: &[u8; HEAD]) -> Option<Head> {
        let [_, edition, n1, n0, s1, s0, _] = *frame;
        let edition = Edition::named(edition)?;
        let nodes = usize::from(u16::from_be_bytes([n1, n0]));
        let segments = usize::from(u16::from_be_bytes([s1, s0]));
        let head = Head {
            edition,
            nodes,
            segments,
        };
        head.in_order().then_some(head)
    }

    /// Whether the counts are those of a network of the edition.
    #[inline]
    pub fn in_order(self) -> bool {
        let Head {
            edition,
            nodes,
            segments,
        } = self;
        (1..=edition.most_nodes()).contains(&nodes) && segments <= edition.most_segments()
    }

    /// The frame, check computed.
    pub fn encode(self) -> [u8; HEAD] {
        // No edition counts more than two bytes hold.
        let count = |count: usize| (count as u16).to_be_bytes();
        let ([n1, n0], [s1, s0]) = (count(self.nodes), count(self.segments));
        let mut frame = [HEAD_KIND, self.edition.byte(), n1, n0, s1, s0, 0];
        let check = frame.iter().fold(0u8, |check, &b| check.wrapping_sub(b));
        frame[HEAD - 1] = check;
        frame
    }

    /// The same numbers in an edition.
    #[inline]
    pub fn of(self, edition: Edition) -> Head {
        Head { edition, ..self }
    }

    /// Bytes of the kept network.
    pub fn size(self) -> usize {
        HEAD + self.edition.frame_bytes() * self.segments
    }
}

/// One end of a segment.
#[derive(Clone, Copy, PartialEq, Eq)]
pub(crate) struct End {
    pub node: usize,
    pub leg: usize,
}

/// A segment frame of `L` bytes, fields read where they lie.
#[derive(Clone, Copy)]
#[repr(transparent)]
pub(crate) struct Segment<'a, const L: usize>(pub &'a [u8; L]);

impl<const L: usize> Segment<'_, L> {
    #[inline]
    fn end(self, at: usize) -> End {
        let f = self.0;
        End {
            node: usize::from(u16::from_be_bytes([f[at], f[at + 1]])),
            leg: usize::from(f[at + 2]),
        }
    }

    #[inline]
    pub fn a(self) -> End {
        self.end(A)
    }

    #[inline]
    pub fn b(self) -> End {
        self.end(B)
    }

    #[inline]
    pub fn length(self) -> u32 {
        let longer = |feet, &byte: &u8| feet << 8 | u32::from(byte);
        self.0[LENGTH..Place::<L>::FORM].iter().fold(0, longer)
    }

    /// Writes the segment as a frame of `M` bytes, whose length must hold its feet.
    ///
    /// The check stays: what the lengths' bytes sum to does not change, for the
    /// bytes that one has more are 0.
    #[inline]
    pub fn write<const M: usize>(self, frame: &mut [u8; M]) {
        let (ends, rest) = frame.split_at_mut(LENGTH);
        let (length, street) = rest.split_at_mut(Place::<M>::FORM - LENGTH);
        let feet = self.length().to_be_bytes();
        ends.copy_from_slice(&self.0[..LENGTH]);
        length.copy_from_slice(&feet[feet.len() - length.len()..]);
        street.copy_from_slice(&self.0[Place::<L>::FORM..]);
    }

    #[inline]
    pub fn form(self) -> u8 {
        self.0[Place::<L>::FORM]
    }

    #[inline]
    pub fn ways(self) -> u8 {
        self.0[Place::<L>::WAYS]
    }

    #[inline]
    pub fn lanes(self) -> u8 {
        self.0[Place::<L>::LANES]
    }

    #[inline]
    pub fn speed(self) -> u8 {
        self.0[Place::<L>::SPEED]
    }

    #[inline]
    pub fn reach(self) -> u8 {
        self.0[Place::<L>::REACH]
    }

    #[inline]
    pub fn marks(self) -> u8 {
        self.0[Place::<L>::MARKS]
    }

    #[inline]
    fn approach(self, at: usize) -> Approach {
        let f = self.0;
        Approach([
            f[at],
            f[at + 1],
            f[at + 2],
            f[at + 3],
            f[at + 4],
            f[at + 5],
            f[at + 6],
        ])
    }

    #[inline]
    pub fn at_b(self) -> Approach {
        self.approach(Place::<L>::AT_B)
    }

    #[inline]
    pub fn at_a(self) -> Approach {
        self.approach(Place::<L>::AT_A)
    }

    /// Whether the fields between kind and check obey the ranges and rules,
    /// in a network with this head.
    #[inline(always)]
    pub fn in_order(self, head: Head) -> bool {
        let Head { nodes, .. } = head;
        let edition = head.edition.of_width::<L>();
        let (a, b) = (self.a(), self.b());
        let lanes = self.lanes();
        let speed = self.speed();
        let reach = self.reach();
        let marks = self.marks();
        let moving =
            (1..=12).contains(&lanes) && (5..=85).contains(&speed) && marks & !edition.marks() == 0;
        a.node < nodes
            && b.node < nodes
            && (a.leg | b.leg) < 8
            && (1..=edition.most_feet()).contains(&self.length())
            && (1..=3).contains(&self.ways())
            && match self.form() {
                0 => moving && reach == 0,
                1 | 2 => moving && reach <= 60,
                3 => lanes | speed | reach | marks == 0,
                _ => false,
            }
            && self.at_b().in_order(edition)
            && self.at_a().in_order(edition)
    }
}

/// What is met on riding in at an end.
#[derive(Clone, Copy)]
pub(crate) struct Approach([u8; APPROACH]);

impl Approach {
    #[inline]
    pub fn control(self) -> u8 {
        self.0[0]
    }

    #[inline]
    pub fn lanes(self) -> u8 {
        self.0[1]
    }

    #[inline]
    pub fn speed(self) -> u8 {
        self.0[2]
    }

    #[inline]
    pub fn turn(self) -> u8 {
        self.0[3]
    }

    #[inline]
    pub fn turn_length(self) -> u16 {
        u16::from_be_bytes([self.0[4], self.0[5]])
    }

    #[inline]
    pub fn turn_speed(self) -> u8 {
        self.0[6]
    }

    #[inline(always)]
    fn in_order(self, edition: Edition) -> bool {
        if self.0 == [0; APPROACH] {
            return true;
        }
        let crossing = match self.control() {
            control if edition.crosses_nothing(control) => self.lanes() | self.speed() == 0,
            2..=4 => (1..=12).contains(&self.lanes()) && (5..=85).contains(&self.speed()),
            _ => false,
        };
        let turning = match self.turn() {
            0 => self.turn_length() == 0 && self.turn_speed() == 0,
            1..=3 => {
                (1..=MOST_TURN_FEET).contains(&self.turn_length())
                    && (5..=85).contains(&self.turn_speed())
            }
            _ => false,
        };
        crossing && turning
    }
}
