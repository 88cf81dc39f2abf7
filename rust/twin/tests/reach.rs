//! Reach map and Nearest: known towns, each refusal, and the oracle.

use oracle::{Net, Ways};
use towns::draw::{self, Rng, Shape};
use towns::edition::EDITIONS;
use towns::lend::Guarded;
use towns::sizes::{COUNTY_NODES, COUNTY_SEGMENTS, most_feet, most_nodes};
use towns::town::{COUNTY, Segment, Town, block_town, end, longest_chain};
use twin::TOWN_SEGMENTS;

/// What is lent to both calls, between guards.
struct Room {
    best: Guarded<u32>,
    previous: Guarded<u32>,
    list: Guarded<u32>,
}

impl Room {
    /// Garbage: so many numbers of scratch and of list.
    fn garbage(rng: &mut Rng, [best, previous, list]: [usize; 3]) -> Room {
        Room {
            best: Guarded::garbage(rng, best),
            previous: Guarded::garbage(rng, previous),
            list: Guarded::garbage(rng, list),
        }
    }

    /// Just enough for a network.
    fn exact(net: &[u8]) -> Room {
        let oracle = Net::parse(net).expect("a network");
        let (runs, nodes) = (oracle.runs(), oracle.nodes());
        Room::garbage(&mut Rng::new(9), [runs, runs, 2 * nodes])
    }

    /// The map's entries; nothing else may have been written.
    fn map(
        &mut self,
        net: &[u8],
        from: usize,
        tolerance: u8,
        greatest: usize,
    ) -> Result<Vec<(usize, u32)>, u8> {
        let (best, previous) = (self.best.lend(), self.previous.lend());
        let list = self.list.lend();
        let count = twin::reach_map(net, from, tolerance, greatest, best, previous, list)?;
        assert!(self.best.guards_hold() && self.previous.guards_hold());
        assert!(self.list.untouched_but(0, 2 * count));
        let entries = self.list.now().chunks(2).take(count);
        Ok(entries.map(|pair| (pair[0] as usize, pair[1])).collect())
    }

    /// The nearest marked node.
    fn nearest(
        &mut self,
        net: &[u8],
        from: usize,
        tolerance: u8,
        marks: &[u8],
    ) -> Result<Option<(usize, u32)>, u8> {
        let (best, previous) = (self.best.lend(), self.previous.lend());
        let nearest = twin::nearest(net, from, tolerance, marks, best, previous)?;
        assert!(self.best.guards_hold() && self.previous.guards_hold());
        Ok(nearest)
    }

    fn untouched(&self) -> bool {
        self.best.untouched() && self.previous.untouched() && self.list.untouched()
    }
}

fn map(net: &[u8], from: usize, tolerance: u8, greatest: usize) -> Vec<(usize, u32)> {
    let answer = Room::exact(net).map(net, from, tolerance, greatest);
    answer.expect("no refusal")
}

fn nearest(net: &[u8], from: usize, tolerance: u8, marks: &[u8]) -> Option<(usize, u32)> {
    let answer = Room::exact(net).nearest(net, from, tolerance, marks);
    answer.expect("no refusal")
}

#[test]
fn maps_of_block_town() {
    let net = block_town().bytes();
    let round = [(0, 0), (1, 300), (2, 1_500)];
    let across = [(0, 0), (1, 300), (2, 600)];
    for (tolerance, greatest, entries) in [
        (3, 1_500, &round[..]),
        (3, 1_499, &round[..2]),
        (1, 1_501, &round),
        (4, 600, &across),
        (4, 599, &across[..2]),
        (4, 300, &across[..2]),
        (4, 299, &across[..1]),
        (4, 0, &across[..1]),
    ] {
        assert_eq!(map(&net, 0, tolerance, greatest), entries, "{greatest}");
    }
    // Back there is nothing to cross; the start is not the first node.
    assert_eq!(map(&net, 2, 1, 600), [(0, 600), (1, 300), (2, 0)]);
    assert_eq!(map(&net, 2, 1, 599), [(1, 300), (2, 0)]);
    for greatest in [u32::MAX as usize, 1 << 32, usize::MAX - 1, usize::MAX] {
        assert_eq!(map(&net, 0, 4, greatest), across);
    }
}

#[test]
fn nearest_of_block_town() {
    let net = block_town().bytes();
    for mark in [1, 2, 128, 255] {
        assert_eq!(nearest(&net, 0, 3, &[0, 0, mark]), Some((2, 1_500)));
        assert_eq!(nearest(&net, 0, 4, &[0, 0, mark]), Some((2, 600)));
        assert_eq!(nearest(&net, 0, 4, &[0, mark, 1]), Some((1, 300)));
        assert_eq!(nearest(&net, 0, 4, &[mark; 3]), Some((0, 0)));
        assert_eq!(nearest(&net, 0, 4, &[0, 0, 0, mark]), None);
        // Both as far as each other.
        assert_eq!(nearest(&net, 1, 4, &[mark, 0, mark]), Some((0, 300)));
    }
}

/// The higher number is met first, and by several runs.
#[test]
fn ties_go_to_the_lower_number() {
    let net = Town::new(5)
        .with(Segment::path(end(0, 0), end(4, 0), 200))
        .with(Segment::path(end(0, 1), end(4, 1), 200))
        .with(Segment::path(end(0, 2), end(1, 0), 100))
        .with(Segment::path(end(1, 1), end(3, 0), 100))
        .with(Segment::path(end(1, 2), end(2, 0), 101))
        .bytes();
    assert_eq!(nearest(&net, 0, 1, &[0, 0, 1, 1, 1]), Some((3, 200)));
    assert_eq!(nearest(&net, 0, 1, &[0, 0, 1, 0, 1]), Some((4, 200)));
    assert_eq!(nearest(&net, 0, 1, &[0, 0, 1, 0, 0]), Some((2, 201)));
    let entries = [(0, 0), (1, 100), (2, 201), (3, 200), (4, 200)];
    assert_eq!(map(&net, 0, 1, 201), entries);
    assert_eq!(map(&net, 0, 1, 200), [(0, 0), (1, 100), (3, 200), (4, 200)]);
}

/// A node that only a street of level 4 leads to, and one that none leads to.
#[test]
fn none_within_the_tolerance() {
    let street = Segment::path(end(0, 0), end(1, 0), 100).street(0, 6, 40, 0, 0);
    let net = Town::new(3).with(street).bytes();
    for (tolerance, within) in [(3, false), (4, true)] {
        let known = within.then_some((1, 100));
        assert_eq!(nearest(&net, 0, tolerance, &[0, 1, 1]), known);
        let entries = map(&net, 0, tolerance, usize::MAX);
        assert_eq!(entries.len(), 1 + usize::from(within));
        assert_eq!(nearest(&net, 0, tolerance, &[0, 0, 1]), None);
    }
}

#[test]
fn refusals() {
    let net = block_town().bytes();
    // From, tolerance, scratch and entries; then the refusal.
    for (from, tolerance, best, previous, entries, number) in [
        (3, 0, 0, 0, 0, 9),
        (usize::MAX, 2, 6, 6, 3, 9),
        (0, 0, 5, 6, 0, 10),
        (0, 5, 6, 5, 0, 10),
        (0, 255, 6, 6, 3, 10),
        (0, 4, 5, 6, 0, 11),
        (0, 4, 6, 5, 0, 11),
        (0, 4, 6, 6, 0, 15),
        (0, 1, 6, 6, 2, 15),
    ] {
        let lengths = [best, previous, 2 * entries];
        let mut room = Room::garbage(&mut Rng::new(6), lengths);
        let map = room.map(&net, from, tolerance, usize::MAX);
        assert_eq!(map, Err(number));
        let marks = vec![1; entries];
        let nearest = room.nearest(&net, from, tolerance, &marks);
        assert_eq!(nearest, Err(number));
        assert!(room.untouched());
    }
    // Two numbers an entry: one fewer is too few, and so is one for each node.
    for (list, number) in [(3, Some(15)), (5, Some(15)), (6, None), (7, None)] {
        let mut room = Room::garbage(&mut Rng::new(6), [6, 6, list]);
        assert_eq!(room.map(&net, 0, 4, 0).err(), number);
        assert_eq!(room.untouched(), number.is_some());
    }
}

#[test]
fn no_segments() {
    let numbers = [1, 2, 1_000, 1_001, 8_000];
    for (edition, nodes) in EDITIONS.iter().flat_map(|&e| numbers.map(|n| (e, n))) {
        if usize::from(nodes) > most_nodes(edition) {
            continue;
        }
        let net = Town::new(nodes).edition(edition).bytes();
        let nodes = usize::from(nodes);
        for greatest in [0, 1, usize::MAX] {
            assert_eq!(map(&net, nodes - 1, 1, greatest), [(nodes - 1, 0)]);
        }
        let mut marks = vec![1; nodes];
        assert_eq!(nearest(&net, nodes - 1, 1, &marks), Some((nodes - 1, 0)));
        marks[nodes - 1] = 0;
        assert_eq!(nearest(&net, nodes - 1, 1, &marks), None);
    }
}

/// A chain of all nodes, every street as long as the edition allows.
#[test]
fn far_nodes() {
    for edition in EDITIONS {
        let town = longest_chain(edition);
        let last = town.nodes - 1;
        let feet = most_feet(edition) * u32::from(last);
        farthest_of(&town.bytes(), last.into(), feet, 1);
    }
}

/// The last node is reached by riding out and back, above 2 to the 31st feet.
#[test]
fn far_nodes_above_31_bits() {
    let county = draw::town_of(COUNTY, Shape::Back, 5, COUNTY_SEGMENTS);
    let (net, last) = (county.bytes(), COUNTY_NODES - 1);
    let mut ways = Ways::over(Net::parse(&net).expect("a network"));
    let feet = ways.route(0, last, 3).expect("no refusal");
    let feet = feet.expect("a route");
    assert!(feet > 1 << 31);
    farthest_of(&net, last, feet, 3);
    for greatest in [(1 << 31) - 1, 1 << 31, (1 << 31) + 1, u32::MAX as usize] {
        let entries = map(&net, 0, 3, greatest);
        let oracles = ways.reach_map(0, 3, greatest, 2 * COUNTY_NODES);
        assert_eq!(Ok(entries), oracles, "{greatest}");
    }
}

/// The last node is farther than all others: listed, left out, and nearest.
fn farthest_of(net: &[u8], last: usize, feet: u32, tolerance: u8) {
    let all = map(net, 0, tolerance, feet as usize);
    assert_eq!(all.len(), last + 1);
    assert_eq!(all[last], (last, feet));
    assert_eq!(map(net, 0, tolerance, feet as usize - 1), all[..last]);
    let mut marks = vec![0; last + 1];
    marks[last] = 1;
    assert_eq!(nearest(net, 0, tolerance, &marks), Some((last, feet)));
}

/// Holds maps and nearest nodes from one node to the oracle's; gives the
/// entries listed.
fn hold(rng: &mut Rng, net: &[u8], ways: &mut Ways, nodes: usize, from: usize) -> usize {
    let mut listed = 0;
    for tolerance in 1..=4 {
        let level = usize::from(tolerance);
        let all = ways.reach_map(from, level, usize::MAX, 2 * nodes);
        let all = all.expect("no refusal");
        let occurs = rng.pick(&all).1 as usize;
        let lengths = [occurs, occurs.saturating_sub(1), occurs + 1, 0, usize::MAX];
        for greatest in lengths {
            let entries = map(net, from, tolerance, greatest);
            let oracles = ways.reach_map(from, level, greatest, 2 * nodes);
            listed += entries.len();
            assert_eq!(Ok(entries), oracles, "from {from} within {tolerance}");
        }
        for percent in [0, 3, 20, 100] {
            let marks: Vec<u8> = (0..nodes)
                .map(|_| u8::from(rng.chance(percent)) * rng.pick(&[1, 2, 128, 255]))
                .collect();
            let near = nearest(net, from, tolerance, &marks);
            let oracles = ways.nearest(from, level, &marks);
            assert_eq!(Ok(near), oracles, "from {from} within {tolerance}");
        }
    }
    listed
}

/// Random towns of every shape with so many segments at most, each asked from a
/// few nodes; the entries listed.
fn random_towns(seeds: std::ops::Range<u64>, segments: usize, starts: usize) -> usize {
    let mut rng = Rng::new(seeds.start);
    let mut listed = 0;
    for seed in seeds {
        let shape = Shape::ALL[seed as usize % Shape::ALL.len()];
        let wanted = rng.range(segments / 2, segments);
        let edition = match segments {
            COUNTY_SEGMENTS => COUNTY,
            _ => Rng::new(seed).pick(&EDITIONS),
        };
        let town = draw::town_of(edition, shape, seed, wanted);
        let (net, nodes) = (town.bytes(), usize::from(town.nodes));
        let mut ways = Ways::over(Net::parse(&net).expect("a network"));
        for _ in 0..starts {
            let mut from = rng.below(nodes);
            if rng.chance(80) && !town.segments.is_empty() {
                from = usize::from(rng.pick(&town.segments).a.node);
            }
            listed += hold(&mut rng, &net, &mut ways, nodes, from);
        }
    }
    listed
}

#[test]
fn random_towns_against_the_oracle() {
    for (seeds, segments, starts, entries) in [
        (0..1_300, 14, 2, 60_000),
        (20_000..20_065, 120, 2, 13_000),
        (30_000..30_014, TOWN_SEGMENTS, 1, 6_000),
        (40_000..40_014, COUNTY_SEGMENTS, 1, 60_000),
    ] {
        let listed = random_towns(seeds, segments, starts);
        assert!(listed > entries, "{listed} entries");
    }
}
