//! Route and Least stress.
//!
//! Both search over runs, not nodes: what a movement costs depends on the leg
//! by which the node was reached, and a node may come twice.

use crate::edition::{MAX_FEET, MAX_RUNS, Memory, in_memory};
use crate::frame::End;
use crate::level::Arrival;
use crate::network::{Corners, Indexed, Legs};
use std::cmp::Reverse;
use std::collections::BinaryHeap;
use std::ops::ControlFlow;

/// What is told of a route, besides its runs.
#[derive(Clone, Copy, Debug, PartialEq, Eq)]
pub struct Found {
    /// Number of runs.
    pub count: usize,
    /// Feet.
    pub length: u32,
    /// The greatest level among its runs and movements.
    pub level: u8,
}

const EMPTY: Found = Found {
    count: 0,
    length: 0,
    level: 1,
};

/// Best length of a run that no route has reached yet; no route is so long.
pub(crate) const FAR: u32 = u32::MAX;
/// Best length of a run that no route may use.
const BARRED: u32 = 0;
/// Previous run of a route's first.
const START: u32 = u32::MAX;

// A run comes once in a route at most, so that every length is below FAR.
const _: () = assert!(MAX_RUNS as u64 * (MAX_FEET as u64) < FAR as u64);

/// A shortest route from `from` to `to` within `tolerance`.
///
/// The route's runs are written into `buffer` from `place`; every other
/// number of it stays, and all of them if there is no route.
/// `best` and `previous` hold anything afterwards.
///
/// Refusals: 8, 9, 10, 11 in that order; they write nothing.
#[allow(clippy::too_many_arguments)]
pub fn route(
    net: &[u8],
    from: usize,
    to: usize,
    tolerance: u8,
    best: &mut [u32],
    previous: &mut [u32],
    buffer: &mut [u16],
    place: usize,
) -> Result<Option<Found>, u8> {
    let lent = Lent {
        best,
        previous,
        buffer,
        place,
    };
    in_memory!(
        Memory::of_kept(net),
        route_in,
        (net, from, to, tolerance, lent)
    )
}

#[inline(never)]
fn route_in<const L: usize, const N: usize>(
    net: &[u8],
    from: usize,
    to: usize,
    tolerance: u8,
    lent: Lent<'_>,
) -> Result<Option<Found>, u8> {
    let (mut legs, mut corners) = (Legs::new(), Corners::new());
    let town = Indexed::<L, N>::test(net, &mut legs, &mut corners).ok_or(8)?;
    if from >= town.nodes() || to >= town.nodes() {
        return Err(9);
    }
    if !(1..=4).contains(&tolerance) {
        return Err(10);
    }
    let lent = lent.cut(town.runs()).ok_or(11)?;
    if from == to {
        return Ok(Some(EMPTY));
    }
    Ok(shortest(&town, from, to, tolerance, lent))
}

/// A shortest route within the smallest tolerance that has any, and that
/// tolerance; otherwise as [`route`].
///
/// Refusals: 8, 9, 11 in that order; they write nothing.
pub fn least_stress(
    net: &[u8],
    from: usize,
    to: usize,
    best: &mut [u32],
    previous: &mut [u32],
    buffer: &mut [u16],
    place: usize,
) -> Result<Option<(Found, u8)>, u8> {
    let lent = Lent {
        best,
        previous,
        buffer,
        place,
    };
    in_memory!(Memory::of_kept(net), least_stress_in, (net, from, to, lent))
}

#[inline(never)]
fn least_stress_in<const L: usize, const N: usize>(
    net: &[u8],
    from: usize,
    to: usize,
    lent: Lent<'_>,
) -> Result<Option<(Found, u8)>, u8> {
    let (mut legs, mut corners) = (Legs::new(), Corners::new());
    let town = Indexed::<L, N>::test(net, &mut legs, &mut corners).ok_or(8)?;
    if from >= town.nodes() || to >= town.nodes() {
        return Err(9);
    }
    let lent = lent.cut(town.runs()).ok_or(11)?;
    if from == to {
        return Ok(Some((EMPTY, 1)));
    }
    let Some(tolerance) = least_tolerance(&town, from, to, lent.best) else {
        return Ok(None);
    };
    Ok(shortest(&town, from, to, tolerance, lent).map(|found| (found, tolerance)))
}

/// The lent slices, and the place in the buffer.
struct Lent<'l> {
    best: &'l mut [u32],
    previous: &'l mut [u32],
    buffer: &'l mut [u16],
    place: usize,
}

impl<'l> Lent<'l> {
    /// Cut to what a search over so many runs uses.
    fn cut(self, runs: usize) -> Option<Cut<'l>> {
        Some(Cut {
            best: self.best.get_mut(..runs)?,
            previous: self.previous.get_mut(..runs)?,
            tail: self.buffer.get_mut(self.place..)?.get_mut(..runs)?,
        })
    }
}

/// What a search uses of the lent slices.
struct Cut<'l> {
    /// A number for each run.
    best: &'l mut [u32],
    /// A number for each run.
    previous: &'l mut [u32],
    /// Room for every run.
    tail: &'l mut [u16],
}

/// The runs that a movement takes an arrived run onto, with the movement's
/// level: the right-hand exit first.
#[inline]
fn movements<'a, const L: usize, const N: usize>(
    town: &Indexed<'_, 'a, L, N>,
    at: End,
    arrival: Arrival,
) -> impl Iterator<Item = (usize, u8)> + use<'a, L, N> {
    let mut level = arrival.right;
    town.exits(at)
        .map(move |next| (next, std::mem::replace(&mut level, arrival.other)))
}

/// Nodes with nothing left to find.
///
/// The first run to arrive at a node from which every movement is within the
/// tolerance gives its best to all exits but the leg it came by, and the next
/// such run, which came by another, to that one. Later runs are not better
/// anywhere.
struct Served<const N: usize>([u8; N]);

impl<const N: usize> Served<N> {
    fn new() -> Served<N> {
        Served([0; N])
    }

    #[inline]
    fn count(&mut self, node: usize, arrival: Arrival, tolerance: u8) {
        if arrival.other <= tolerance {
            self.0[node] += 1;
        }
    }

    #[inline]
    fn fully(&self, node: usize) -> bool {
        self.0[node] >= 2
    }
}

/// Dijkstra's search with one label for each run: the best length of a route
/// from `from` that ends in it.
pub(crate) struct Search<'s, const L: usize, const N: usize> {
    town: &'s Indexed<'s, 's, L, N>,
    tolerance: u8,
    /// Routes of more feet are of no use.
    greatest: u32,
    best: &'s mut [u32],
    previous: &'s mut [u32],
    queue: Queue,
    served: Served<N>,
}

impl<'s, const L: usize, const N: usize> Search<'s, L, N> {
    /// A search that uses a number of `best` and of `previous` for each run.
    pub fn over(
        town: &'s Indexed<'s, 's, L, N>,
        tolerance: u8,
        greatest: u32,
        best: &'s mut [u32],
        previous: &'s mut [u32],
    ) -> Search<'s, L, N> {
        Search {
            town,
            tolerance,
            greatest,
            best,
            previous,
            queue: Queue(BinaryHeap::with_capacity(128)),
            served: Served::new(),
        }
    }

    /// Offers `run` a route whose runs before it end in `before` and measure
    /// `ridden` feet.
    ///
    /// The runs that come before it are taken from the queue in order of
    /// length, and what it adds is the same after each: its first offer is
    /// its best, and no run is queued twice.
    #[inline]
    fn offer(&mut self, run: usize, before: u32, ridden: u32) {
        let best = &mut self.best[run];
        if *best != FAR || self.served.fully(self.town.arrives(run).node) {
            return;
        }
        if !(self.town.open(run) && self.town.level(run) <= self.tolerance) {
            *best = BARRED;
            return;
        }
        let length = ridden + self.town.segment(run).length();
        if length > self.greatest {
            *best = BARRED;
            return;
        }
        *best = length;
        self.previous[run] = before;
        self.queue.push(length, run);
    }

    /// Rides from `from`, shortest routes first, until `arrive` has what it
    /// wants or no route is left. It is told the last run of each, the node
    /// where that arrives and the route's length; the first route to a node is
    /// a shortest, and some later ones are left out.
    pub fn ride<T>(
        &mut self,
        from: usize,
        mut arrive: impl FnMut(usize, usize, u32) -> ControlFlow<T>,
    ) -> Option<T> {
        self.best.fill(FAR);
        for run in self.town.leaving(from) {
            self.offer(run, START, 0);
        }
        while let Some((length, run)) = self.queue.pop() {
            let at = self.town.arrives(run);
            if let ControlFlow::Break(wanted) = arrive(run, at.node, length) {
                return Some(wanted);
            }
            if self.served.fully(at.node) {
                continue;
            }
            let arrival = self.town.arrival(run);
            self.served.count(at.node, arrival, self.tolerance);
            for (next, level) in movements(self.town, at, arrival) {
                if level <= self.tolerance {
                    self.offer(next, run as u32, length);
                }
            }
        }
        None
    }
}

fn shortest<const L: usize, const N: usize>(
    town: &Indexed<'_, '_, L, N>,
    from: usize,
    to: usize,
    tolerance: u8,
    lent: Cut<'_>,
) -> Option<Found> {
    let Cut {
        best,
        previous,
        tail,
    } = lent;
    let mut search = Search::over(town, tolerance, FAR, best, previous);
    let (last, length) = search.ride(from, |run, node, length| {
        if node == to {
            return ControlFlow::Break((run, length));
        }
        ControlFlow::Continue(())
    })?;
    Some(write(town, last, length, search.previous, tail))
}

/// Shortest length first; a key is the length above the run.
struct Queue(BinaryHeap<Reverse<u64>>);

impl Queue {
    #[inline]
    fn push(&mut self, length: u32, run: usize) {
        self.0.push(Reverse(u64::from(length) << 16 | run as u64));
    }

    #[inline]
    fn pop(&mut self) -> Option<(u32, usize)> {
        self.0
            .pop()
            .map(|Reverse(key)| ((key >> 16) as u32, (key & 0xFFFF) as usize))
    }
}

/// Writes the route that ends in `last`; a run comes once in it at most, so
/// the tail has room.
fn write<const L: usize, const N: usize>(
    town: &Indexed<'_, '_, L, N>,
    last: usize,
    length: u32,
    previous: &[u32],
    tail: &mut [u16],
) -> Found {
    let back = || {
        std::iter::successors(Some(last), |&run| match previous[run] {
            START => None,
            before => Some(before as usize),
        })
    };
    let count = back().count();
    let mut level = 1;
    let mut after = None;
    for (place, run) in tail[..count].iter_mut().rev().zip(back()) {
        *place = run as u16; // every run fits
        level = level.max(town.level(run));
        if let Some(next) = after.replace(run) {
            level = level.max(town.movement(run, next));
        }
    }
    Found {
        count,
        length,
        level,
    }
}

/// Runs reached so far, by the level of the way to them.
struct Levels<'s, const L: usize, const N: usize> {
    town: &'s Indexed<'s, 's, L, N>,
    /// The least level known for each run.
    least: &'s mut [u32],
    /// Runs that wait to be gone on from, a stack for each level.
    waiting: [Vec<u16>; 4],
}

impl<const L: usize, const N: usize> Levels<'_, L, N> {
    /// Puts a run, to which a way of level `so_far` leads, in its stack if its
    /// level is the least yet; gives that level.
    #[inline(always)]
    fn reach(&mut self, run: usize, so_far: u8) -> Option<u8> {
        if u32::from(so_far) >= self.least[run] || !self.town.open(run) {
            return None;
        }
        let level = so_far.max(self.town.level(run));
        if u32::from(level) >= self.least[run] {
            return None;
        }
        self.least[run] = u32::from(level);
        self.waiting[usize::from(level) - 1].push(run as u16); // every run fits
        Some(level)
    }
}

/// The smallest tolerance at which a route exists.
///
/// The stacks of waiting runs are emptied from the lowest level, so a run is
/// first taken at its least. `least` is scratch.
fn least_tolerance<const L: usize, const N: usize>(
    town: &Indexed<'_, '_, L, N>,
    from: usize,
    to: usize,
    least: &mut [u32],
) -> Option<u8> {
    const NEVER: u32 = 5;
    least.fill(NEVER);
    let waiting = Default::default();
    let mut levels = Levels {
        town,
        least,
        waiting,
    };
    let mut served = Served::<N>::new();
    for run in town.leaving(from) {
        levels.reach(run, 1);
    }
    for tolerance in 1..=4 {
        while let Some(run) = levels.waiting[usize::from(tolerance) - 1].pop() {
            let run = usize::from(run);
            let at = town.arrives(run);
            if levels.least[run] < u32::from(tolerance) || served.fully(at.node) {
                continue; // taken at a lower level, or of no use
            }
            if at.node == to {
                return Some(tolerance);
            }
            let arrival = town.arrival(run);
            served.count(at.node, arrival, tolerance);
            for (next, level) in movements(town, at, arrival) {
                let reached = levels.reach(next, level.max(tolerance));
                if reached == Some(tolerance) && town.arrives(next).node == to {
                    return Some(tolerance);
                }
            }
        }
    }
    None
}
