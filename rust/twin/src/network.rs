//! Kept bytes under test 8, the used legs of their nodes, the runs that leave
//! by them, and the two judgements.

use crate::edition::{Edition, LONG, MAX_RUNS, Memory, SHORT, in_memory};
use crate::frame::{End, HEAD, HEAD_KIND, Head, SEGMENT_KIND, Segment, checks};
use crate::level::{self, Arrival};
use std::ops::Deref;

// Every run fits 16 bits.
const _: () = assert!(MAX_RUNS <= 1 << 16);

/// The used legs of each of `N` nodes as eight bits: bit `k` is set exactly when
/// leg `k` is used.
pub(crate) struct Legs<const N: usize>([u8; N]);

impl<const N: usize> Legs<N> {
    pub fn new() -> Legs<N> {
        Legs([0; N])
    }

    /// Takes the leg of an end; whether it was free.
    #[inline]
    pub fn claim(&mut self, end: End) -> bool {
        let legs = &mut self.0[end.node];
        let bit = 1 << end.leg;
        let free = *legs & bit == 0;
        *legs |= bit;
        free
    }

    /// The used legs of a node.
    #[inline]
    fn at(&self, node: usize) -> impl Iterator<Item = usize> + use<N> {
        falling(self.0[node])
    }

    /// The used legs of a node but the one of an arrival there, stepping down
    /// from it and round: the right-hand exit first.
    #[inline]
    fn exits(&self, at: End) -> impl Iterator<Item = usize> + use<N> {
        // Turned so that the leg of arrival is bit 0 and the next below bit 7.
        let turned = self.0[at.node].rotate_right(at.leg as u32);
        falling(turned & !1).map(move |bit| (at.leg + bit) % 8)
    }
}

/// The places of the bits that are set, the highest first.
#[inline]
fn falling(mut bits: u8) -> impl Iterator<Item = usize> {
    std::iter::from_fn(move || {
        let top = bits.checked_ilog2()?;
        bits ^= 1 << top;
        Some(top as usize)
    })
}

/// For each used leg of each of `N` nodes the run that leaves there.
///
/// The A end of segment `s` is left by run `2s`, its B end by run `2s + 1`,
/// so the run arriving at a corner is the leaving one with its last bit
/// turned.
pub(crate) struct Corners<const N: usize>([[u16; 8]; N]);

impl<const N: usize> Corners<N> {
    pub fn new() -> Corners<N> {
        Corners([[0; 8]; N])
    }
}

/// Bytes that passed test 8, with the used legs of their nodes: segment frames
/// of `L` bytes, and at most `N` nodes.
#[derive(Clone, Copy)]
pub(crate) struct Network<'n, 'a, const L: usize, const N: usize> {
    nodes: usize,
    /// Whether the newer rules tell its levels.
    newer: bool,
    frames: &'n [[u8; L]],
    legs: &'a Legs<N>,
}

/// A network with the runs that leave its nodes, which a search needs.
#[derive(Clone, Copy)]
pub(crate) struct Indexed<'n, 'a, const L: usize, const N: usize> {
    network: Network<'n, 'a, L, N>,
    corners: &'a Corners<N>,
}

impl<'n, 'a, const L: usize, const N: usize> Deref for Indexed<'n, 'a, L, N> {
    type Target = Network<'n, 'a, L, N>;

    #[inline]
    fn deref(&self) -> &Network<'n, 'a, L, N> {
        &self.network
    }
}

impl<'n, 'a, const L: usize, const N: usize> Indexed<'n, 'a, L, N> {
    /// Tests the bytes, gathering used legs and runs on the way.
    pub fn test(
        net: &'n [u8],
        legs: &'a mut Legs<N>,
        corners: &'a mut Corners<N>,
    ) -> Option<Indexed<'n, 'a, L, N>> {
        let network = Network::test_noting(net, legs, |end, run| {
            corners.0[end.node][end.leg] = run as u16; // every run fits
        })?;
        Some(Indexed { network, corners })
    }

    /// The runs that leave a node.
    #[inline]
    pub fn leaving(&self, node: usize) -> impl Iterator<Item = usize> + use<'a, L, N> {
        let corner = &self.corners.0[node];
        self.legs.at(node).map(|leg| usize::from(corner[leg]))
    }

    /// The runs that leave a node by another leg than that of an arrival there,
    /// the one by the right-hand exit first.
    #[inline]
    pub fn exits(&self, at: End) -> impl Iterator<Item = usize> + use<'a, L, N> {
        let corner = &self.corners.0[at.node];
        self.legs.exits(at).map(|leg| usize::from(corner[leg]))
    }
}

impl<'n, 'a, const L: usize, const N: usize> Network<'n, 'a, L, N> {
    /// Tests the bytes, gathering used legs on the way.
    pub fn test(net: &'n [u8], legs: &'a mut Legs<N>) -> Option<Network<'n, 'a, L, N>> {
        Network::test_noting(net, legs, |_, _| ())
    }

    /// The same; told of each end, with the run that leaves there.
    #[inline]
    fn test_noting(
        net: &'n [u8],
        legs: &'a mut Legs<N>,
        note: impl FnMut(End, usize),
    ) -> Option<Network<'n, 'a, L, N>> {
        let (head, body) = net.split_first_chunk::<HEAD>()?;
        if head[0] != HEAD_KIND || !checks(head) {
            return None;
        }
        let head = Head::decode(head)?;
        if net.len() != head.size() {
            return None;
        }
        let (frames, _) = body.as_chunks::<L>();
        // A loop for each edition: what one adds costs the others nothing.
        let sound = match head.edition {
            Edition::One if L == SHORT => all_sound(frames, head.of(Edition::One), legs, note),
            Edition::Two if L == SHORT => all_sound(frames, head.of(Edition::Two), legs, note),
            Edition::Three if L == LONG => all_sound(frames, head.of(Edition::Three), legs, note),
            _ => false, // never: the width was chosen by the edition
        };
        sound.then_some(Network {
            nodes: head.nodes,
            newer: head.edition.newer_rules(),
            frames,
            legs,
        })
    }

    #[inline]
    pub fn nodes(&self) -> usize {
        self.nodes
    }

    #[inline]
    pub fn segments(&self) -> usize {
        self.frames.len()
    }

    #[inline]
    pub fn runs(&self) -> usize {
        2 * self.frames.len()
    }

    /// The segment that a run rides.
    #[inline]
    pub fn segment(&self, run: usize) -> Segment<'n, L> {
        Segment(&self.frames[run / 2])
    }

    /// Where a run arrives.
    #[inline]
    pub fn arrives(&self, run: usize) -> End {
        if run % 2 == 0 {
            self.segment(run).b()
        } else {
            self.segment(run).a()
        }
    }

    /// Where a run leaves.
    #[inline]
    pub fn leaves(&self, run: usize) -> End {
        self.arrives(run ^ 1)
    }

    /// The levels met where a run arrives.
    #[inline]
    pub fn arrival(&self, run: usize) -> Arrival {
        let segment = self.segment(run);
        let approach = if run % 2 == 0 {
            segment.at_b()
        } else {
            segment.at_a()
        };
        Arrival::of(approach, self.newer)
    }

    /// Whether the ways allow a run.
    #[inline]
    pub fn open(&self, run: usize) -> bool {
        (self.segment(run).ways() >> (run % 2)) & 1 != 0
    }

    /// The level of a run's segment.
    #[inline]
    pub fn level(&self, run: usize) -> u8 {
        level::segment(self.segment(run), self.newer).0
    }

    /// The level of the movement from run `p` onto run `q`, which leaves the
    /// node where `p` arrives by another leg.
    pub fn movement(&self, p: usize, q: usize) -> u8 {
        let arrival = self.arrival(p);
        let right_hand = self.legs.exits(self.arrives(p)).next();
        if right_hand == Some(self.leaves(q).leg) {
            arrival.right
        } else {
            arrival.other
        }
    }
}

/// Whether the segment frames of a network are in order, gathering used legs on
/// the way and telling of each end.
#[inline(always)]
fn all_sound<const L: usize, const N: usize>(
    frames: &[[u8; L]],
    head: Head,
    legs: &mut Legs<N>,
    mut note: impl FnMut(End, usize),
) -> bool {
    for (s, frame) in frames.iter().enumerate() {
        let segment = Segment(frame);
        let good = frame[0] == SEGMENT_KIND
            && checks(frame)
            && segment.in_order(head)
            && legs.claim(segment.a())
            && legs.claim(segment.b());
        if !good {
            return false;
        }
        note(segment.a(), 2 * s);
        note(segment.b(), 2 * s + 1);
    }
    true
}

/// Whether the bytes are a network that [`read`](crate::read()) could keep.
pub fn is_network(net: &[u8]) -> bool {
    in_memory!(Memory::of_kept(net), is_sound, (net))
}

#[inline(never)]
fn is_sound<const L: usize, const N: usize>(net: &[u8]) -> bool {
    Network::<L, N>::test(net, &mut Legs::new()).is_some()
}

/// Level and governing measure of segment `s`.
///
/// Refusals: 8, then 12.
pub fn judge_segment(net: &[u8], s: usize) -> Result<(u8, u8), u8> {
    in_memory!(Memory::of_kept(net), segment_level, (net, s))
}

#[inline(never)]
fn segment_level<const L: usize, const N: usize>(net: &[u8], s: usize) -> Result<(u8, u8), u8> {
    let mut legs = Legs::new();
    let town = Network::<L, N>::test(net, &mut legs).ok_or(8)?;
    if s >= town.segments() {
        return Err(12);
    }
    Ok(level::segment(town.segment(2 * s), town.newer))
}

/// Level of the movement from run `p` onto run `q`.
///
/// Refusals: 8, then 12 for either run, then 13.
pub fn judge_movement(net: &[u8], p: usize, q: usize) -> Result<u8, u8> {
    in_memory!(Memory::of_kept(net), movement_level, (net, p, q))
}

#[inline(never)]
fn movement_level<const L: usize, const N: usize>(
    net: &[u8],
    p: usize,
    q: usize,
) -> Result<u8, u8> {
    let mut legs = Legs::new();
    let town = Network::<L, N>::test(net, &mut legs).ok_or(8)?;
    let rideable = |run: usize| run < town.runs() && town.open(run);
    if !rideable(p) || !rideable(q) {
        return Err(12);
    }
    let (arrival, exit) = (town.arrives(p), town.leaves(q));
    if arrival.node != exit.node || arrival.leg == exit.leg {
        return Err(13);
    }
    Ok(town.movement(p, q))
}
