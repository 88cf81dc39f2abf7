//! Reach map and Nearest: one search for all nodes.
//!
//! Routes come in order of length, so that the first to a node tells its least.

use crate::edition::{Memory, in_memory};
use crate::network::{Corners, Indexed, Legs};
use crate::search::{FAR, Search};
use std::ops::ControlFlow;

/// Every node that has a route from `from` within `tolerance` and of at most
/// `greatest` feet, with its least length.
///
/// The list gets two numbers for each, node and length, in rising node number;
/// later numbers of it stay. Gives how many nodes there are. `best` and
/// `previous` hold anything afterwards.
///
/// Refusals: 8, 9, 10, 11, 15 in that order; they write nothing.
pub fn reach_map(
    net: &[u8],
    from: usize,
    tolerance: u8,
    greatest: usize,
    best: &mut [u32],
    previous: &mut [u32],
    list: &mut [u32],
) -> Result<usize, u8> {
    let scratch = [best, previous];
    in_memory!(
        Memory::of_kept(net),
        map_in,
        (net, from, tolerance, greatest, scratch, list)
    )
}

#[inline(never)]
fn map_in<const L: usize, const N: usize>(
    net: &[u8],
    from: usize,
    tolerance: u8,
    greatest: usize,
    scratch: [&mut [u32]; 2],
    list: &mut [u32],
) -> Result<usize, u8> {
    let (mut legs, mut corners) = (Legs::new(), Corners::new());
    let town = Indexed::<L, N>::test(net, &mut legs, &mut corners).ok_or(8)?;
    let [best, previous] = admit(&town, from, tolerance, scratch)?;
    let list = list.get_mut(..2 * town.nodes()).ok_or(15)?;

    // Every length is below the greatest number that a list holds.
    let greatest = u32::try_from(greatest).unwrap_or(FAR);
    let mut least = [FAR; N];
    least[from] = 0;
    let mut missing = town.nodes() - 1;
    Search::over(&town, tolerance, greatest, best, previous).ride(from, |_, node, length| {
        if least[node] == FAR {
            least[node] = length;
            missing -= 1;
        }
        if missing == 0 {
            return ControlFlow::Break(());
        }
        ControlFlow::Continue(())
    });
    Ok(write(&least[..town.nodes()], list))
}

/// Writes an entry for each node that has a length; gives how many there are.
fn write(least: &[u32], list: &mut [u32]) -> usize {
    let (entries, _) = list.as_chunks_mut();
    let reached = (0..).zip(least).filter(|&(_, &length)| length != FAR);
    let mut count = 0;
    for (entry, (node, &length)) in entries.iter_mut().zip(reached) {
        *entry = [node, length];
        count += 1;
    }
    count
}

/// The nearest of the nodes whose mark is not 0, and its least length within
/// `tolerance`; of several as near the one with the lowest number.
///
/// None where no marked node has a route within the tolerance. `best` and
/// `previous` hold anything afterwards.
///
/// Refusals: 8, 9, 10, 11, 15 in that order; they write nothing.
pub fn nearest(
    net: &[u8],
    from: usize,
    tolerance: u8,
    marks: &[u8],
    best: &mut [u32],
    previous: &mut [u32],
) -> Result<Option<(usize, u32)>, u8> {
    let scratch = [best, previous];
    in_memory!(
        Memory::of_kept(net),
        nearest_in,
        (net, from, tolerance, marks, scratch)
    )
}

#[inline(never)]
fn nearest_in<const L: usize, const N: usize>(
    net: &[u8],
    from: usize,
    tolerance: u8,
    marks: &[u8],
    scratch: [&mut [u32]; 2],
) -> Result<Option<(usize, u32)>, u8> {
    let (mut legs, mut corners) = (Legs::new(), Corners::new());
    let town = Indexed::<L, N>::test(net, &mut legs, &mut corners).ok_or(8)?;
    let [best, previous] = admit(&town, from, tolerance, scratch)?;
    let marks = marks.get(..town.nodes()).ok_or(15)?;

    if marks[from] != 0 {
        return Ok(Some((from, 0)));
    }
    let mut found: Option<(u32, usize)> = None;
    Search::over(&town, tolerance, FAR, best, previous).ride(from, |_, node, length| {
        // Others as near may have a lower number.
        if found.is_some_and(|(least, _)| length > least) {
            return ControlFlow::Break(());
        }
        if marks[node] != 0 {
            found = Some(found.unwrap_or((FAR, node)).min((length, node)));
        }
        ControlFlow::Continue(())
    });
    Ok(found.map(|(length, node)| (node, length)))
}

/// The lent slices, cut to what a search uses; or 9, 10 or 11.
fn admit<'l, const L: usize, const N: usize>(
    town: &Indexed<'_, '_, L, N>,
    from: usize,
    tolerance: u8,
    [best, previous]: [&'l mut [u32]; 2],
) -> Result<[&'l mut [u32]; 2], u8> {
    if from >= town.nodes() {
        return Err(9);
    }
    if !(1..=4).contains(&tolerance) {
        return Err(10);
    }
    let best = best.get_mut(..town.runs()).ok_or(11)?;
    let previous = previous.get_mut(..town.runs()).ok_or(11)?;
    Ok([best, previous])
}
