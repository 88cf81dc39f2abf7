//! What is lent to a call, kept between guards: afterwards it shows what was
//! written.

use crate::draw::Rng;
use std::fmt::Debug;

/// Numbers that garbage can be made of.
pub trait Garbage: Copy + PartialEq + Debug {
    /// A number out of random bits.
    fn from_bits(bits: u64) -> Self;
}

impl Garbage for u8 {
    fn from_bits(bits: u64) -> u8 {
        bits as u8
    }
}

impl Garbage for u16 {
    fn from_bits(bits: u64) -> u16 {
        bits as u16
    }
}

impl Garbage for u32 {
    fn from_bits(bits: u64) -> u32 {
        bits as u32
    }
}

impl Garbage for usize {
    fn from_bits(bits: u64) -> usize {
        bits as usize
    }
}

/// Numbers to lend, with guard numbers before and after them, and a copy of
/// what all of them held.
#[derive(Clone, Debug)]
pub struct Guarded<T> {
    all: Vec<T>,
    copy: Vec<T>,
    front: usize,
    length: usize,
}

/// Appends so many numbers of garbage, eight of each draw.
fn litter<T: Garbage>(rng: &mut Rng, count: usize, numbers: &mut Vec<T>) {
    let length = numbers.len() + count;
    numbers.reserve(count.next_multiple_of(8));
    while numbers.len() < length {
        let bits = rng.bits();
        let eight = [0, 8, 16, 24, 32, 40, 48, 56];
        numbers.extend(eight.map(|turn| T::from_bits(bits.rotate_right(turn))));
    }
    numbers.truncate(length);
}

impl<T: Garbage> Guarded<T> {
    /// So many numbers of garbage.
    pub fn garbage(rng: &mut Rng, length: usize) -> Guarded<T> {
        Guarded::between_guards(rng, length, |rng, all| litter(rng, length, all))
    }

    /// These numbers, between guards.
    pub fn holding(rng: &mut Rng, numbers: &[T]) -> Guarded<T> {
        Guarded::between_guards(rng, numbers.len(), |_, all| all.extend(numbers))
    }

    /// Guards of garbage round what `put` appends.
    fn between_guards(
        rng: &mut Rng,
        length: usize,
        put: impl Fn(&mut Rng, &mut Vec<T>),
    ) -> Guarded<T> {
        // Guards of different lengths put bytes at every alignment.
        let (front, back) = (rng.range(1, 9), rng.range(1, 9));
        let mut all = Vec::with_capacity(front + length + back);
        litter(rng, front, &mut all);
        put(rng, &mut all);
        litter(rng, back, &mut all);
        Guarded {
            copy: all.clone(),
            all,
            front,
            length,
        }
    }

    /// The numbers between the guards, to lend.
    pub fn lend(&mut self) -> &mut [T] {
        &mut self.all[self.front..self.front + self.length]
    }

    /// The numbers between the guards, as they are.
    pub fn now(&self) -> &[T] {
        &self.all[self.front..self.front + self.length]
    }

    /// The numbers between the guards, as they were.
    pub fn before(&self) -> &[T] {
        &self.copy[self.front..self.front + self.length]
    }

    /// Whether nothing was written, guards included.
    pub fn untouched(&self) -> bool {
        self.all == self.copy
    }

    /// Whether nothing was written but so many numbers from a place on; the
    /// guards never may be.
    pub fn untouched_but(&self, place: usize, count: usize) -> bool {
        let from = self.length.min(place);
        let to = self.length.min(place.saturating_add(count));
        let (from, to) = (self.front + from, self.front + to);
        self.all[..from] == self.copy[..from] && self.all[to..] == self.copy[to..]
    }

    /// Whether the guards are as they were.
    pub fn guards_hold(&self) -> bool {
        self.untouched_but(0, self.length)
    }
}

/// How much is lent to a search.
#[derive(Clone, Copy, Debug, PartialEq, Eq)]
pub struct Lengths {
    /// Of the first scratch slice.
    pub best: usize,
    /// Of the second.
    pub previous: usize,
    /// Of the route buffer.
    pub buffer: usize,
    /// The place in the buffer.
    pub place: usize,
}

impl Lengths {
    /// Just enough for so many runs, the place at the start.
    pub fn exact(runs: usize) -> Lengths {
        Lengths {
            best: runs,
            previous: runs,
            buffer: runs,
            place: 0,
        }
    }
}

/// Garbage lent to a search, and the place in its buffer.
#[derive(Clone, Debug)]
pub struct Lent {
    /// The first scratch slice.
    pub best: Guarded<u32>,
    /// The second.
    pub previous: Guarded<u32>,
    /// The route buffer.
    pub buffer: Guarded<u16>,
    /// The place in it.
    pub place: usize,
}

impl Lent {
    /// So much garbage.
    pub fn garbage(rng: &mut Rng, lengths: Lengths) -> Lent {
        Lent {
            best: Guarded::garbage(rng, lengths.best),
            previous: Guarded::garbage(rng, lengths.previous),
            buffer: Guarded::garbage(rng, lengths.buffer),
            place: lengths.place,
        }
    }

    /// Just enough for a network of so many runs.
    pub fn exact(runs: usize) -> Lent {
        Lent::garbage(&mut Rng::new(runs as u64), Lengths::exact(runs))
    }

    /// So many runs from the place on, or as many as there are.
    pub fn runs(&self, count: usize) -> &[u16] {
        let rest = self.buffer.now().get(self.place..).unwrap_or(&[]);
        &rest[..count.min(rest.len())]
    }

    /// Whether nothing at all was written.
    pub fn untouched(&self) -> bool {
        self.best.untouched() && self.previous.untouched() && self.buffer.untouched()
    }

    /// Whether the scratch's guards hold, and nothing of the buffer was
    /// written but so many runs from the place on.
    pub fn written(&self, count: usize) -> bool {
        self.best.guards_hold()
            && self.previous.guards_hold()
            && self.buffer.untouched_but(self.place, count)
    }
}
