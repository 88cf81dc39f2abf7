//! Route and Least stress: lengths and tolerances, for which of several
//! shortest routes is drawn is free. Reach map and Nearest: whole answers.

use crate::net::Net;
use std::collections::BTreeMap;

/// What searches over one network must answer.
///
/// Movements are listed once, and lengths found once for each node that is
/// asked from, since both take long.
pub struct Ways {
    net: Net,
    movements: Vec<(usize, usize, u8)>,
    /// By the node to leave: at each tolerance, the least length to each node.
    known: BTreeMap<usize, [Vec<Option<u32>>; 4]>,
}

impl Ways {
    /// The ways through a network.
    pub fn over(net: Net) -> Ways {
        Ways {
            movements: net.movements(),
            net,
            known: BTreeMap::new(),
        }
    }

    /// Route: the least length within the tolerance, if there is a route; or
    /// 9, or 10.
    pub fn route(&mut self, from: usize, to: usize, tolerance: usize) -> Result<Option<u32>, u8> {
        let lengths = self.lengths(from, to)?;
        match tolerance {
            1..=4 => Ok(lengths[tolerance - 1]),
            _ => Err(10),
        }
    }

    /// Least stress: the least length within the smallest tolerance that has a
    /// route, and that tolerance, if there is any; or 9.
    pub fn least_stress(&mut self, from: usize, to: usize) -> Result<Option<(u32, u8)>, u8> {
        let lengths = self.lengths(from, to)?;
        Ok((1..)
            .zip(lengths)
            .find_map(|(t, length)| Some((length?, t))))
    }

    /// Reach map: each node that has a route within the tolerance and of at
    /// most `greatest` feet, and its least length; or 9, or 10, or 15 where the
    /// lent list has fewer than two numbers for each node.
    pub fn reach_map(
        &mut self,
        from: usize,
        tolerance: usize,
        greatest: usize,
        list_length: usize,
    ) -> Result<Vec<(usize, u32)>, u8> {
        let mut map = Vec::new();
        for node in 0..self.net.nodes() {
            if let Some(length) = self.route(from, node, tolerance)?
                && length as usize <= greatest
            {
                map.push((node, length));
            }
        }
        if list_length / 2 < self.net.nodes() {
            return Err(15);
        }
        Ok(map)
    }

    /// Nearest: of the nodes with a mark other than 0 the one with the least
    /// length within the tolerance, the first of several, if one has a route;
    /// or 9, or 10, or 15 where there are fewer marks than nodes.
    pub fn nearest(
        &mut self,
        from: usize,
        tolerance: usize,
        marks: &[u8],
    ) -> Result<Option<(usize, u32)>, u8> {
        let mut nearest = None;
        for node in 0..self.net.nodes() {
            let length = self.route(from, node, tolerance)?;
            let marked = *marks.get(node).ok_or(15)? != 0;
            let shorter = |length| nearest.is_none_or(|(_, least)| length < least);
            if let Some(length) = length
                && marked
                && shorter(length)
            {
                nearest = Some((node, length));
            }
        }
        Ok(nearest)
    }

    /// The least lengths at tolerances 1 to 4, or 9.
    fn lengths(&mut self, from: usize, to: usize) -> Result<[Option<u32>; 4], u8> {
        let Ways {
            net,
            movements,
            known,
        } = self;
        if from >= net.nodes() || to >= net.nodes() {
            return Err(9);
        }
        let lengths = known
            .entry(from)
            .or_insert_with(|| [1, 2, 3, 4].map(|t| net.lengths(movements, from, t)));
        Ok(lengths.each_ref().map(|nodes| nodes[to]))
    }
}
