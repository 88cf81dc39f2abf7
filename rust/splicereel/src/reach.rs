//! The nodes in reach: in a lent list, and in a map that owns them.

use crate::answer::Entry;
use alloc::vec;
use alloc::vec::Vec;
use core::iter::FusedIterator;
use core::slice;

/// The entries of a reach map that stands in a lent list, in rising node
/// number.
#[derive(Clone, Debug)]
pub struct Entries<'l> {
    pairs: slice::Iter<'l, [u32; 2]>,
}

impl<'l> Entries<'l> {
    /// So many entries from the start of a list, as far as it reaches.
    pub(crate) fn of(list: &'l [u32], count: u32) -> Entries<'l> {
        let (pairs, _) = list.as_chunks();
        let (written, _) = pairs.split_at(pairs.len().min(count as usize));
        Entries {
            pairs: written.iter(),
        }
    }
}

/// The entry that two numbers of a list stand for.
fn entry(&[node, feet]: &[u32; 2]) -> Entry {
    Entry {
        node: node as usize,
        feet,
    }
}

impl Iterator for Entries<'_> {
    type Item = Entry;

    fn next(&mut self) -> Option<Entry> {
        self.pairs.next().map(entry)
    }

    fn size_hint(&self) -> (usize, Option<usize>) {
        self.pairs.size_hint()
    }
}

impl DoubleEndedIterator for Entries<'_> {
    fn next_back(&mut self) -> Option<Entry> {
        self.pairs.next_back().map(entry)
    }
}

impl ExactSizeIterator for Entries<'_> {}

impl FusedIterator for Entries<'_> {}

/// A reach map: every node that has a route within a tolerance and a greatest
/// length, with its least length.
///
/// The start is one of them, with length 0. A node that is not in the map has
/// no route within both.
///
/// ```
/// use splicereel::{Level, Network};
/// # let text = include_bytes!(concat!(env!("CARGO_MANIFEST_DIR"), "/../../towns/block-town.txt"));
/// let network = Network::read(text)?;
/// let map = network.reach_map(0, Level::Four, 600)?;
/// let nodes: Vec<usize> = map.iter().map(|entry| entry.node).collect();
/// assert_eq!(nodes, [0, 1, 2]);
/// assert_eq!(map.feet_to(2), Some(600));
///
/// let map = network.reach_map(0, Level::Four, 599)?;
/// assert_eq!(map.entries().len(), 2);
/// assert_eq!(map.feet_to(2), None);
///
/// // Within 0 feet there is the start itself.
/// let map = network.reach_map(0, Level::Four, 0)?;
/// for entry in &map {
///     assert_eq!((entry.node, entry.feet), (0, 0));
/// }
/// # Ok::<(), Box<dyn std::error::Error>>(())
/// ```
#[derive(Clone, Debug, PartialEq, Eq, Hash)]
pub struct ReachMap {
    entries: Vec<Entry>,
}

impl ReachMap {
    /// The map of the entries in a list.
    pub(crate) fn of(entries: Entries<'_>) -> ReachMap {
        ReachMap {
            entries: entries.collect(),
        }
    }

    /// The entries, in rising node number.
    pub fn entries(&self) -> &[Entry] {
        &self.entries
    }

    /// The entries one by one, in rising node number.
    pub fn iter(&self) -> slice::Iter<'_, Entry> {
        self.entries.iter()
    }

    /// The least length in feet to a node, or none for a node that is not in
    /// the map.
    pub fn feet_to(&self, node: usize) -> Option<u32> {
        let place = self.entries.binary_search_by_key(&node, |entry| entry.node);
        let entry = self.entries.get(place.ok()?)?;
        Some(entry.feet)
    }
}

impl<'m> IntoIterator for &'m ReachMap {
    type Item = &'m Entry;
    type IntoIter = slice::Iter<'m, Entry>;

    fn into_iter(self) -> slice::Iter<'m, Entry> {
        self.iter()
    }
}

impl IntoIterator for ReachMap {
    type Item = Entry;
    type IntoIter = vec::IntoIter<Entry>;

    fn into_iter(self) -> vec::IntoIter<Entry> {
        self.entries.into_iter()
    }
}

#[cfg(test)]
mod tests {
    use super::{Entries, Entry};

    /// Whatever were told, entries lie in their list.
    #[test]
    fn entries_lie_in_the_list() {
        let list = [4, 30, 5, 0, 9];
        let both = [(4, 30), (5, 0)].map(|(node, feet)| Entry { node, feet });
        for (told, known) in [(0, 0), (1, 1), (2, 2), (3, 2), (u32::MAX, 2)] {
            let entries = Entries::of(&list, told);
            assert_eq!(entries.len(), known);
            assert!(entries.clone().eq(both[..known].iter().copied()));
            assert!(entries.rev().eq(both[..known].iter().rev().copied()));
        }
    }
}
