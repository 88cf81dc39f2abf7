//! What head and segment frames have in common: sizes, fields in their ranges,
//! the check.

/// Bytes of a head.
pub(crate) const HEAD: usize = 7;
/// Bytes of a segment frame, by edition - 1: Note 6 of document 02 makes the
/// length of edition 03 two bytes longer.
const SEGMENT: [usize; 3] = [30, 30, 32];
/// The most nodes, and the most segments, of a network, by edition - 1.
const MOST: [u32; 3] = [1_000, 1_000, 8_000];

/// Bytes taken one after another.
pub(crate) struct Taker<'a>(pub std::slice::Iter<'a, u8>);

impl Taker<'_> {
    pub fn one(&mut self) -> Option<u32> {
        self.0.next().map(|&b| u32::from(b))
    }

    pub fn two(&mut self) -> Option<u32> {
        let high = self.one()?;
        Some(256 * high + self.one()?)
    }

    pub fn four(&mut self) -> Option<u32> {
        let high = self.two()?;
        Some(65_536 * high + self.two()?)
    }
}

/// A number if it lies in a range.
pub(crate) fn within(number: u32, low: u32, high: u32) -> Option<u32> {
    if low <= number && number <= high {
        Some(number)
    } else {
        None
    }
}

/// Whether a frame's bytes sum to 0 modulo 256.
pub(crate) fn sum_is_zero(bytes: &[u8]) -> bool {
    bytes.iter().map(|&b| u64::from(b)).sum::<u64>() % 256 == 0
}

/// The bytes of a frame's fields, and a check by which all sum to 0 modulo 256.
pub(crate) fn with_check(fields: &[&[u8]]) -> Vec<u8> {
    let mut frame = fields.concat();
    let sum = frame.iter().map(|&b| u64::from(b)).sum::<u64>() % 256;
    frame.push(((256 - sum) % 256) as u8);
    frame
}

/// What a head says.
#[derive(Clone, Copy, Debug)]
pub(crate) struct Head {
    /// 1, 2 or 3.
    pub edition: u32,
    pub nodes: u32,
    pub segments: usize,
}

impl Head {
    /// The fields after the kind, if they are in order.
    pub fn parse(head: &[u8]) -> Option<Head> {
        let mut t = Taker(head.iter());
        let _kind = t.one()?;
        let edition = within(t.one()?, 1, 3)?;
        let nodes = t.two()?;
        let segments = t.two()? as usize;
        let head = Head {
            edition,
            nodes,
            segments,
        };
        head.in_limits().then_some(head)
    }

    /// Whether a network of its edition may have so many nodes and segments.
    pub fn in_limits(self) -> bool {
        let most = MOST[self.edition as usize - 1];
        let segments = self.segments as u32;
        within(self.nodes, 1, most).is_some() && within(segments, 0, most).is_some()
    }

    /// Bytes of a segment frame of this edition.
    pub fn segment_size(self) -> usize {
        SEGMENT[self.edition as usize - 1]
    }
}
