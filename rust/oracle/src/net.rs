//! A network: its runs and movements, and routes over them.

use crate::frame::{HEAD, Head, sum_is_zero};
use crate::street::Street;
use std::collections::{BTreeMap, BTreeSet};

/// A parsed network.
#[derive(Clone, Debug)]
pub struct Net {
    nodes: u32,
    streets: Vec<Street>,
    /// Node and leg of every end of a segment, with the run that leaves there.
    corners: BTreeMap<(u32, u32), usize>,
}

impl Net {
    /// Parses kept bytes, if `read` could keep them.
    pub fn parse(bytes: &[u8]) -> Option<Net> {
        let (head, frames) = bytes.split_at_checked(HEAD)?;
        if head[0] != 1 || !sum_is_zero(head) {
            return None;
        }
        let head = Head::parse(head)?;
        let size = head.segment_size();
        if frames.len() != size * head.segments {
            return None;
        }
        let mut streets = Vec::new();
        let mut corners = BTreeMap::new();
        for (s, frame) in frames.chunks(size).enumerate() {
            if frame[0] != 2 || !sum_is_zero(frame) {
                return None;
            }
            let street = Street::parse(&frame[1..size - 1], head)?;
            // Run 2s leaves by the A end, run 2s + 1 by the B end.
            for (run, end) in (2 * s..).zip(street.ends) {
                if corners.insert(end, run).is_some() {
                    return None;
                }
            }
            streets.push(street);
        }
        let nodes = head.nodes;
        Some(Net {
            nodes,
            streets,
            corners,
        })
    }

    /// N.
    pub fn nodes(&self) -> usize {
        self.nodes as usize
    }

    /// S.
    pub fn segments(&self) -> usize {
        self.streets.len()
    }

    /// 2S.
    pub fn runs(&self) -> usize {
        2 * self.streets.len()
    }

    /// The length of each segment.
    pub(crate) fn feet(&self) -> Vec<u32> {
        self.streets.iter().map(|street| street.length).collect()
    }

    /// Level and measure of a segment, or 12.
    pub fn segment(&self, s: usize) -> Result<(u8, u8), u8> {
        self.streets.get(s).map(Street::judge).ok_or(12)
    }

    /// Whether a run exists and is open.
    fn open(&self, run: usize) -> bool {
        match self.streets.get(run / 2) {
            Some(street) => street.ways == 3 || street.ways as usize == run % 2 + 1,
            None => false,
        }
    }

    /// Node and leg where an existing run leaves, and where it arrives.
    fn ends(&self, run: usize) -> ((u32, u32), (u32, u32)) {
        let [a, b] = self.streets[run / 2].ends;
        if run % 2 == 0 { (a, b) } else { (b, a) }
    }

    fn used(&self, node: u32, leg: u32) -> bool {
        self.corners.contains_key(&(node, leg))
    }

    /// The used leg next below `leg`, going round.
    fn right_hand_exit(&self, node: u32, leg: u32) -> u32 {
        let mut at = leg;
        loop {
            at = if at == 0 { 7 } else { at - 1 };
            if at == leg || self.used(node, at) {
                return at;
            }
        }
    }

    /// Level of a movement, or 12 or 13.
    pub fn movement(&self, p: usize, q: usize) -> Result<u8, u8> {
        if !self.open(p) || !self.open(q) {
            return Err(12);
        }
        let (_, (node, leg)) = self.ends(p);
        let ((from, out), _) = self.ends(q);
        if from != node || out == leg {
            return Err(13);
        }
        let street = &self.streets[p / 2];
        let met = if p % 2 == 0 {
            &street.at_b
        } else {
            &street.at_a
        };
        let turn = met.turn_lane();
        if out == self.right_hand_exit(node, leg) {
            return Ok(turn);
        }
        Ok(turn.max(met.crossing()))
    }

    /// Every movement: run, next run, level.
    pub fn movements(&self) -> Vec<(usize, usize, u8)> {
        let mut list = Vec::new();
        for p in 0..self.runs() {
            let (_, (node, _)) = self.ends(p);
            for (_, &q) in self.corners.range((node, 0)..=(node, 7)) {
                if let Ok(level) = self.movement(p, q) {
                    list.push((p, q, level));
                }
            }
        }
        list
    }

    /// For each node the least length of a route from `from` within the
    /// tolerance. `movements` is what [`Net::movements`] gives.
    pub fn lengths(
        &self,
        movements: &[(usize, usize, u8)],
        from: usize,
        tolerance: u8,
    ) -> Vec<Option<u32>> {
        let usable = |run: usize| self.open(run) && self.streets[run / 2].judge().0 <= tolerance;
        let feet = |run: usize| self.streets[run / 2].length;
        let first = |run: usize| usable(run) && self.ends(run).0.0 as usize == from;
        let mut length: Vec<Option<u32>> = (0..self.runs())
            .map(|run| first(run).then(|| feet(run)))
            .collect();
        let mut steps: Vec<Vec<(usize, u32)>> = vec![Vec::new(); self.runs()];
        for &(p, q, level) in movements {
            if level <= tolerance && usable(p) && usable(q) {
                steps[p].push((q, feet(q)));
            }
        }
        relax(&steps, &mut length);
        let mut nodes: Vec<Option<u32>> = vec![None; self.nodes()];
        for run in 0..self.runs() {
            if let Some(this) = length[run] {
                let node = &mut nodes[self.ends(run).1.0 as usize];
                *node = Some(node.map_or(this, |other| other.min(this)));
            }
        }
        if from < nodes.len() {
            nodes[from] = Some(0);
        }
        nodes
    }

    /// Whether `runs` is a route from `from` to `to`; its length and level.
    fn follow(&self, from: usize, to: usize, runs: &[u16]) -> Result<(u32, u8), String> {
        let mut node = from;
        let mut length = 0;
        let mut level = 1;
        let mut before: Option<usize> = None;
        for &run in runs {
            let run = usize::from(run);
            if !self.open(run) {
                return Err(format!("run {run} does not exist or is not open"));
            }
            let (leaves, arrives) = self.ends(run);
            if leaves.0 as usize != node {
                return Err(format!("run {run} does not leave node {node}"));
            }
            if let Some(p) = before {
                match self.movement(p, run) {
                    Ok(this) => level = level.max(this),
                    Err(number) => return Err(format!("{p} to {run}: {number}")),
                }
            }
            level = level.max(self.streets[run / 2].judge().0);
            length = u32::saturating_add(length, self.streets[run / 2].length);
            node = arrives.0 as usize;
            before = Some(run);
        }
        if node != to {
            return Err(format!("ends at node {node}, not {to}"));
        }
        Ok((length, level))
    }

    /// Whether `runs` is a route from `from` to `to` within the tolerance,
    /// with this count, length and level.
    #[allow(clippy::too_many_arguments)]
    pub fn check_route(
        &self,
        from: usize,
        to: usize,
        tolerance: u8,
        runs: &[u16],
        count: usize,
        length: u32,
        level: u8,
    ) -> Result<(), String> {
        let (real_length, real_level) = self.follow(from, to, runs)?;
        if runs.len() != count {
            return Err(format!("{} runs, {count} said", runs.len()));
        }
        if real_length != length {
            return Err(format!("{real_length} feet, {length} said"));
        }
        if real_level != level {
            return Err(format!("level {real_level}, {level} said"));
        }
        if real_level > tolerance {
            return Err(format!("level {real_level} above {tolerance}"));
        }
        Ok(())
    }
}

/// Takes the steps from each run, with the feet that they add, and again those
/// from the runs whose length changed, until none does.
fn relax(steps: &[Vec<(usize, u32)>], length: &mut [Option<u32>]) {
    let mut changed: BTreeSet<usize> = (0..length.len()).collect();
    while !changed.is_empty() {
        let mut again = BTreeSet::new();
        for p in changed {
            let Some(before) = length[p] else { continue };
            for &(q, feet) in &steps[p] {
                let through = before + feet;
                if length[q].is_none_or(|now| through < now) {
                    length[q] = Some(through);
                    again.insert(q);
                }
            }
        }
        changed = again;
    }
}
