//! Street plans: towns of each shape.

use super::fields::{BLOCKS, Fields, HALVES, LINKS, Style, TIED};
use super::{Rng, Shape};
use crate::sizes::{MOST_NODES, most_feet, most_nodes, most_segments};
use crate::town::{Approach, COUNTY, End, OLDER, Segment, Town, end};

/// A town in the making: which legs are still free.
struct Plan {
    town: Town,
    used: Vec<u8>,
    fields: Fields,
    wanted: usize,
}

impl Plan {
    fn new(nodes: usize, fields: Fields, wanted: usize) -> Plan {
        let nodes = nodes.clamp(1, most_nodes(fields.edition));
        Plan {
            town: Town::new(nodes as u16).edition(fields.edition),
            used: vec![0; nodes],
            fields,
            wanted,
        }
    }

    fn nodes(&self) -> usize {
        self.used.len()
    }

    fn full(&self) -> bool {
        self.town.segments.len() >= self.wanted.min(most_segments(self.town.edition))
    }

    fn free_leg(&self, rng: &mut Rng, node: usize) -> Option<End> {
        let free: Vec<u8> = (0..8)
            .filter(|leg| self.used[node] >> leg & 1 == 0)
            .collect();
        if free.is_empty() {
            None
        } else {
            Some(end(node as u16, rng.pick(&free)))
        }
    }

    fn take(&mut self, e: End) -> bool {
        let legs = &mut self.used[usize::from(e.node)];
        let free = *legs >> e.leg & 1 == 0;
        *legs |= 1 << e.leg;
        free
    }

    /// Joins two corners that are free and different.
    fn lay(&mut self, rng: &mut Rng, a: End, b: End) -> Option<&mut Segment> {
        let free = |e: End| self.used[usize::from(e.node)] >> e.leg & 1 == 0;
        if self.full() || a == b || !free(a) || !free(b) {
            return None;
        }
        self.take(a);
        self.take(b);
        let street = self.fields.street(rng, a, b);
        self.town.segments.push(street);
        self.town.segments.last_mut()
    }

    /// Joins two nodes by free legs of theirs.
    fn join(&mut self, rng: &mut Rng, a: usize, b: usize) -> bool {
        if self.full() {
            return false;
        }
        let Some(a) = self.free_leg(rng, a) else {
            return false;
        };
        for _ in 0..16 {
            let Some(b) = self.free_leg(rng, b) else {
                return false;
            };
            if self.lay(rng, a, b).is_some() {
                return true;
            }
        }
        false
    }

    /// Joins free corners at random until the town is full or stays so.
    fn fill(&mut self, rng: &mut Rng) {
        let mut corners: Vec<End> = Vec::new();
        for node in 0..self.nodes() {
            corners.extend(
                (0..8)
                    .filter(|leg| self.used[node] >> leg & 1 == 0)
                    .map(|leg| end(node as u16, leg)),
            );
        }
        rng.shuffle(&mut corners);
        for pair in corners.chunks_exact(2) {
            self.lay(rng, pair[0], pair[1]);
        }
    }
}

/// A random town of edition 01: of the shape, from the seed, with about so many
/// segments.
///
/// More than a town or the shape allows are cut: a tree has one segment less
/// than nodes, a single node at most 4.
pub fn town(shape: Shape, seed: u64, segments: usize) -> Town {
    town_of(OLDER, shape, seed, segments)
}

/// The same of an edition that exists, with its sizes and the values that it has.
pub fn town_of(edition: u8, shape: Shape, seed: u64, segments: usize) -> Town {
    let rng = &mut Rng::new(seed ^ (shape as u64) << 48);
    let wanted = segments.min(most_segments(edition));
    let fields = Fields::draw(rng, edition);
    match shape {
        // A late parent makes deep trees, any parent shallow ones.
        Shape::Tree => tree(rng, fields, wanted, seed.is_multiple_of(2)),
        Shape::Grid => grid(rng, fields, wanted),
        Shape::Ring => ring(rng, fields, wanted),
        Shape::Loops => loops(rng, fields, wanted),
        Shape::Twins => twins(rng, fields, wanted),
        Shape::Star => filled(rng, fields, wanted / 4, wanted),
        Shape::Ties => ties(rng, fields, wanted),
        Shape::OneWay => one_way(rng, fields, wanted),
        Shape::Maze => maze(rng, fields, wanted),
        Shape::Wild => wild(rng, fields, wanted),
        Shape::Single => filled(rng, fields, 1, wanted),
        Shape::Empty => empty(rng, edition),
        Shape::Sparse => sparse(rng, fields, wanted),
        Shape::Back => back(rng, fields, wanted),
    }
}

fn tree(rng: &mut Rng, fields: Fields, wanted: usize, shallow: bool) -> Town {
    let mut plan = Plan::new(wanted + 1, fields, wanted);
    for node in 1..plan.nodes() {
        let span = if shallow { node } else { node.min(4) };
        let mut parent = node - 1 - rng.below(span);
        while !plan.join(rng, parent, node) {
            parent = (parent + 1) % node;
        }
    }
    plan.town
}

fn ring(rng: &mut Rng, fields: Fields, wanted: usize) -> Town {
    let mut plan = Plan::new(wanted.max(1), fields, wanted);
    for node in 0..wanted {
        plan.join(rng, node, (node + 1) % wanted);
    }
    plan.town
}

fn loops(rng: &mut Rng, fields: Fields, wanted: usize) -> Town {
    let mut plan = Plan::new(wanted / 3 + 1, fields, wanted);
    for node in 1..plan.nodes() {
        plan.join(rng, node - 1, node);
    }
    for _ in 0..2 {
        for node in 0..plan.nodes() {
            plan.join(rng, node, node);
        }
    }
    plan.town
}

fn twins(rng: &mut Rng, fields: Fields, wanted: usize) -> Town {
    let mut plan = Plan::new(wanted / 2 + 1, fields, wanted);
    for node in 0..plan.nodes() - 1 {
        for _ in 0..rng.range(2, 3) {
            plan.join(rng, node, node + 1);
        }
    }
    plan.town
}

/// Free legs of so many nodes joined at random, as long as there are any.
fn filled(rng: &mut Rng, fields: Fields, nodes: usize, wanted: usize) -> Town {
    let mut plan = Plan::new(nodes, fields, wanted);
    plan.fill(rng);
    plan.town
}

fn ties(rng: &mut Rng, mut fields: Fields, wanted: usize) -> Town {
    fields.style = rng.pick(&[Style::Paths, Style::Paths, Style::Crossings]);
    fields.lengths = rng.pick(&[Some(&TIED[..]), Some(&HALVES)]);
    grid(rng, fields, wanted)
}

fn one_way(rng: &mut Rng, mut fields: Fields, wanted: usize) -> Town {
    fields.one_way = 0;
    let mut town = grid(rng, fields, wanted);
    for street in &mut town.segments {
        let along = usize::from(street.a.node.abs_diff(street.b.node) == 1);
        let row = usize::from(street.a.node) / 2 + along;
        street.ways = if rng.chance(10) {
            3
        } else {
            1 + (row % 2) as u8
        };
    }
    town
}

fn maze(rng: &mut Rng, mut fields: Fields, wanted: usize) -> Town {
    fields.style = Style::Crossings;
    fields.one_way = rng.pick(&[0, 10]);
    grid(rng, fields, wanted)
}

fn wild(rng: &mut Rng, mut fields: Fields, wanted: usize) -> Town {
    fields.style = rng.pick(&[Style::Uniform, Style::Edges]);
    let most = if wanted < 20 { wanted * 2 + 1 } else { wanted };
    let least = wanted.div_ceil(4).max(1);
    let nodes = rng.range(least, most.max(least));
    filled(rng, fields, nodes, wanted)
}

fn empty(rng: &mut Rng, edition: u8) -> Town {
    let (town, most) = (MOST_NODES as u16, most_nodes(edition) as u16);
    let nodes = match edition {
        COUNTY => rng.pick(&[1, 255, town - 1, town, town + 1, most - 1, most]),
        _ => rng.pick(&[1, 2, 10, 255, 256, most - 1, most]),
    };
    Town::new(nodes).edition(edition)
}

fn sparse(rng: &mut Rng, fields: Fields, wanted: usize) -> Town {
    let most = most_nodes(fields.edition);
    let nodes = match fields.edition {
        // As many as a town may have, one more, and as many as there may be.
        COUNTY => rng.pick(&[MOST_NODES, MOST_NODES + 1, most]),
        _ => most,
    };
    let mut plan = Plan::new(nodes, fields, wanted);
    let start = rng.below(nodes);
    let near = wanted / 2 + 2;
    for _ in 0..8 * wanted {
        let (a, b) = (rng.below(near), rng.below(near));
        plan.join(rng, (start + a) % nodes, (start + b) % nodes);
    }
    plan.town
}

/// A corner of node 1 that one may turn at only from the far side: from the first
/// node to the last the low-stress way rides a chain of streets out to a loop at
/// its end, turns there, and rides every one of them back. Nearly every run is
/// then one of the route's.
fn back(rng: &mut Rng, mut fields: Fields, wanted: usize) -> Town {
    (fields.style, fields.one_way) = (Style::Paths, 0);
    let most = most_feet(fields.edition) as usize;
    let far = fields.lengths.is_none();
    let mut plan = Plan::new(wanted, fields, wanted);
    let (last, turn) = (wanted.saturating_sub(1), wanted.saturating_sub(2).max(1));
    let corner = |node: usize, leg| end(node as u16, leg);
    let mut pairs = vec![
        (corner(0, 0), corner(1, 4)),
        (corner(1, 6), corner(last, 0)),
        (corner(turn, 2), corner(turn, 0)),
    ];
    pairs.extend((1..turn).map(|node| (corner(node, 0), corner(node + 1, 4))));
    pairs.truncate(if wanted < 3 { 0 } else { wanted });
    if rng.chance(50) {
        rng.shuffle(&mut pairs);
    }
    for (a, b) in pairs {
        let Some(street) = plan.lay(rng, a, b) else {
            continue;
        };
        if far {
            street.length = rng.range(most - 100, most) as u32;
        }
        if b == corner(1, 4) {
            street.at_b = Approach::crossing(2, 6, 40);
        }
    }
    plan.town
}

/// A grid as towns have it: quiet blocks, every third street or so a busier
/// one, some of them one-way.
pub fn mixed_grid(seed: u64, segments: usize) -> Town {
    mixed_grid_of(OLDER, seed, segments)
}

/// The same of an edition, with its sizes: up to a town's size the same streets
/// in each.
pub fn mixed_grid_of(edition: u8, seed: u64, segments: usize) -> Town {
    mixed(edition, &BLOCKS, seed, segments)
}

/// The same of edition 03 with a county's lengths, of which many are equal.
pub fn county_grid(seed: u64, segments: usize) -> Town {
    mixed(COUNTY, &LINKS, seed, segments)
}

fn mixed(edition: u8, lengths: &'static [u32], seed: u64, segments: usize) -> Town {
    let mut rng = Rng::new(seed);
    let fields = |style| Fields {
        edition,
        values: OLDER,
        style,
        one_way: 10,
        lengths: Some(lengths),
    };
    let wanted = segments.min(most_segments(edition));
    let mut town = grid(&mut rng, fields(Style::Gentle), wanted);
    let busier = fields(Style::Mixed);
    for street in &mut town.segments {
        if rng.chance(30) {
            *street = busier.street(&mut rng, street.a, street.b);
        }
    }
    town
}

/// Width and height of the largest grid with at most so many streets.
fn grid_size(wanted: usize) -> (usize, usize) {
    let streets = |wide: usize, high: usize| wide * (high - 1) + high * (wide - 1);
    let (mut wide, mut high) = (1, 1);
    loop {
        if streets(wide + 1, high) > wanted {
            break;
        }
        wide += 1;
        if streets(wide, high + 1) > wanted {
            break;
        }
        high += 1;
    }
    while streets(wide + 1, high) <= wanted {
        wide += 1;
    }
    (wide, high)
}

/// A grid: north leg 0, east 2, south 4, west 6, diagonals between.
fn grid(rng: &mut Rng, fields: Fields, wanted: usize) -> Town {
    let (wide, high) = grid_size(wanted);
    let mut plan = Plan::new(wide * high, fields, wanted);
    let node = |x: usize, y: usize| (y * wide + x) as u16;
    let mut pairs = Vec::new();
    for y in 0..high {
        for x in 0..wide {
            if x + 1 < wide {
                pairs.push((end(node(x, y), 2), end(node(x + 1, y), 6)));
            }
            if y + 1 < high {
                pairs.push((end(node(x, y), 4), end(node(x, y + 1), 0)));
            }
        }
    }
    if rng.chance(50) {
        rng.shuffle(&mut pairs);
    }
    for (a, b) in pairs {
        let (a, b) = if rng.chance(50) { (a, b) } else { (b, a) };
        plan.lay(rng, a, b);
    }
    diagonals(rng, &mut plan, wide, high);
    plan.town
}

/// The segments left over, laid across blocks of a grid.
fn diagonals(rng: &mut Rng, plan: &mut Plan, wide: usize, high: usize) {
    let node = |x: usize, y: usize| (y * wide + x) as u16;
    for _ in 0..4 * plan.wanted {
        if plan.full() {
            break;
        }
        let (x, y) = (rng.below(wide.max(2) - 1), rng.below(high.max(2) - 1));
        if x + 1 < wide && y + 1 < high {
            if rng.chance(50) {
                plan.lay(rng, end(node(x, y), 3), end(node(x + 1, y + 1), 7));
            } else {
                plan.lay(rng, end(node(x + 1, y), 5), end(node(x, y + 1), 1));
            }
        }
    }
}
