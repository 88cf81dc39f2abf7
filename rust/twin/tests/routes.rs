//! The fast calls against the oracle.

mod search;

use oracle::Net;
use search::{least_stress, route};
use towns::draw::{self, Rng, Shape};
use towns::edition::EDITIONS;
use towns::lend::{Lengths, Lent};
use towns::sizes::{COUNTY_NODES, COUNTY_SEGMENTS, MOST_BYTES, MOST_NODES, MOST_SEGMENTS};
use towns::sizes::{most_feet, most_segments, segment_bytes};
use towns::town::{Approach, COUNTY, NEWER, Segment, Town, block_town, end, longest_chain};
use twin::{Found, MAX_NETWORK, MAX_NODES, MAX_SEGMENTS, TOWN_NODES, TOWN_SEGMENTS};
use twin::{is_network, judge_movement, judge_segment};

/// A town under test: its bytes, what the oracle makes of them, and all of its
/// movements.
struct Subject {
    net: Vec<u8>,
    oracle: Net,
    movements: Vec<(usize, usize, u8)>,
}

impl Subject {
    fn new(net: Vec<u8>) -> Subject {
        let oracle = Net::parse(&net).expect("a network");
        let movements = oracle.movements();
        Subject {
            net,
            oracle,
            movements,
        }
    }

    /// Tests every tolerance and Least stress from one node to some others;
    /// gives the number of routes that are not empty.
    fn ways_from(&self, rng: &mut Rng, from: usize, goals: &[usize]) -> usize {
        let lengths: Vec<Vec<Option<u32>>> = (1..=4)
            .map(|tolerance| self.oracle.lengths(&self.movements, from, tolerance))
            .collect();
        let mut ridden = 0;
        for &to in goals {
            let lengths: Vec<Option<u32>> = lengths.iter().map(|nodes| nodes[to]).collect();
            for tolerance in 1..=4 {
                let mut lent = self.lent(rng);
                let answer = route(&mut lent, &self.net, from, to, tolerance);
                let answer = answer.expect("no refusal");
                let length = lengths[usize::from(tolerance) - 1];
                ridden += self.check(&lent, (from, to, tolerance), answer, length);
            }
            let mut lent = self.lent(rng);
            let answer = least_stress(&mut lent, &self.net, from, to);
            let answer = answer.expect("no refusal");
            let least = (1..).zip(&lengths).find(|(_, length)| length.is_some());
            let (least, length) = least.map_or((None, None), |(t, length)| (Some(t), *length));
            assert_eq!(answer.map(|(_, tolerance)| tolerance), least);
            let found = answer.map(|(found, _)| found);
            ridden += self.check(&lent, (from, to, least.unwrap_or(4)), found, length);
        }
        ridden
    }

    /// Garbage, a little more than is needed, from some place on.
    fn lent(&self, rng: &mut Rng) -> Lent {
        let (runs, place) = (self.oracle.runs(), rng.below(4));
        let lengths = Lengths {
            best: runs + rng.below(3),
            previous: runs + rng.below(2),
            buffer: place + runs + rng.below(4),
            place,
        };
        Lent::garbage(rng, lengths)
    }

    /// Tests an answer and what was written; 1 for a route that is not empty.
    fn check(
        &self,
        lent: &Lent,
        (from, to, within): (usize, usize, u8),
        answer: Option<Found>,
        length: Option<u32>,
    ) -> usize {
        assert_eq!(answer.map(|found| found.length), length);
        let count = answer.map_or(0, |found| found.count);
        assert!(lent.written(count));
        if let Some(found) = answer {
            let (runs, oracle) = (lent.runs(count), &self.oracle);
            oracle
                .check_route(from, to, within, runs, count, found.length, found.level)
                .unwrap();
        }
        usize::from(count > 0)
    }
}

/// A random town; its seed tells its edition too.
fn some_town(shape: Shape, seed: u64, segments: usize) -> Town {
    let edition = Rng::new(seed).pick(&EDITIONS);
    draw::town_of(edition, shape, seed, segments)
}

/// Some thousands of small towns, every pair of nodes in the smallest; as many
/// as the variable TOWNS says, if it is set.
#[test]
fn small_towns() {
    let towns = std::env::var("TOWNS")
        .ok()
        .and_then(|n| n.parse().ok())
        .unwrap_or(6_500);
    let mut rng = Rng::new(1);
    let mut found = 0;
    for seed in 0..towns {
        let shape = Shape::ALL[seed as usize % Shape::ALL.len()];
        let segments = rng.range(0, 14);
        let subject = Subject::new(some_town(shape, seed, segments).bytes());
        let nodes = subject.oracle.nodes();
        let goals: Vec<usize> = if nodes <= 8 {
            (0..nodes).collect()
        } else {
            let mut goals = vec![0, nodes - 1];
            goals.extend(ends(&subject.net).into_iter().take(8));
            goals
        };
        for &from in goals.iter().take(4) {
            found += subject.ways_from(&mut rng, from, &goals);
        }
    }
    assert!(found > 7 * towns as usize, "{found}");
    println!("{towns} towns, {found} routes that are not empty");
}

/// The nodes at which the segments of a network end.
fn ends(net: &[u8]) -> Vec<usize> {
    net[7..]
        .chunks(segment_bytes(net[1]))
        .flat_map(|f| [[f[1], f[2]], [f[4], f[5]]])
        .map(|pair| usize::from(u16::from_be_bytes(pair)))
        .collect()
}

#[test]
fn middle_towns() {
    let mut rng = Rng::new(2);
    for seed in 0..130 {
        let shape = Shape::ALL[seed as usize % Shape::ALL.len()];
        let segments = rng.range(60, 160);
        let subject = Subject::new(some_town(shape, 50_000 + seed, segments).bytes());
        let nodes = subject.oracle.nodes();
        for _ in 0..3 {
            let goals: Vec<usize> = (0..12).map(|_| rng.below(nodes)).collect();
            let from = rng.below(nodes);
            subject.ways_from(&mut rng, from, &goals);
        }
    }
}

#[test]
fn full_towns() {
    let mut rng = Rng::new(3);
    for (i, shape) in Shape::ALL.into_iter().enumerate() {
        let town = some_town(shape, 90_000 + i as u64, TOWN_SEGMENTS);
        let subject = Subject::new(town.bytes());
        let nodes = subject.oracle.nodes();
        let goals: Vec<usize> = (0..20).map(|_| rng.below(nodes)).collect();
        let from = rng.below(nodes);
        subject.ways_from(&mut rng, from, &goals);
    }
}

/// Counties of every shape, and of the sizes next to a town's.
#[test]
fn counties() {
    let mut rng = Rng::new(5);
    let mut ridden = 0;
    for (i, shape) in Shape::ALL.into_iter().enumerate() {
        for segments in [1_001, 3_000, COUNTY_SEGMENTS] {
            let county = draw::town_of(COUNTY, shape, 40_000 + i as u64, segments);
            let subject = Subject::new(county.bytes());
            let nodes = subject.oracle.nodes();
            let mut goals: Vec<usize> = (0..12).map(|_| rng.below(nodes)).collect();
            goals.push(nodes - 1);
            for from in [0, rng.below(nodes)] {
                ridden += subject.ways_from(&mut rng, from, &goals);
            }
        }
    }
    assert!(ridden > 300, "{ridden}");
}

/// A town of edition 03 has the routes that it has in edition 02.
#[test]
fn a_town_in_edition_03() {
    let mut rng = Rng::new(6);
    for seed in 0..260 {
        let shape = Shape::ALL[seed as usize % Shape::ALL.len()];
        let town = draw::town_of(NEWER, shape, seed, rng.range(1, 40));
        let net = town.bytes();
        let county = town.clone().edition(COUNTY).bytes();
        let (nodes, runs) = (usize::from(town.nodes), 2 * town.segments.len());
        for _ in 0..10 {
            let (from, to) = (rng.below(nodes), rng.below(nodes));
            for tolerance in 1..=4 {
                let (one, other) = (
                    go(&net, from, to, tolerance),
                    go(&county, from, to, tolerance),
                );
                assert_eq!(one, other);
            }
            let (p, q) = (rng.below(runs + 1), rng.below(runs + 1));
            assert_eq!(judge_movement(&net, p, q), judge_movement(&county, p, q));
            assert_eq!(judge_segment(&net, p / 2), judge_segment(&county, p / 2));
        }
    }
}

/// Every segment and every pair of runs of small towns.
#[test]
fn judgements() {
    let mut rng = Rng::new(4);
    let mut seen = [0; 5];
    for seed in 0..1_300 {
        let shape = Shape::ALL[seed as usize % Shape::ALL.len()];
        let segments = rng.range(0, 7);
        let net = some_town(shape, 70_000 + seed, segments).bytes();
        let oracle = Net::parse(&net).expect("a network");
        for s in 0..oracle.segments() + 2 {
            assert_eq!(judge_segment(&net, s), oracle.segment(s));
        }
        for p in 0..oracle.runs() + 2 {
            for q in 0..oracle.runs() + 2 {
                let level = judge_movement(&net, p, q);
                assert_eq!(level, oracle.movement(p, q));
                seen[usize::from(level.unwrap_or(0))] += 1;
            }
        }
    }
    assert!(seen.iter().all(|&n| n > 300), "{seen:?}");
}

/// What is drawn is a network, as large as a town or a county may be.
#[test]
fn drawn_towns() {
    assert_eq!([MOST_NODES, MOST_SEGMENTS], [TOWN_NODES, TOWN_SEGMENTS]);
    assert_eq!(
        [COUNTY_NODES, COUNTY_SEGMENTS, MOST_BYTES],
        [MAX_NODES, MAX_SEGMENTS, MAX_NETWORK]
    );
    for (shape, edition) in Shape::ALL.iter().flat_map(|&s| EDITIONS.map(|e| (s, e))) {
        let most = most_segments(edition);
        for segments in [0, 1, 2, 3, 4, 10, 100, most - 1, most, 5 * most] {
            let town = draw::town_of(edition, shape, 7, segments);
            assert!(is_network(&town.bytes()), "{shape:?} {segments}");
        }
    }
}

fn go(net: &[u8], from: usize, to: usize, tolerance: u8) -> Option<(Found, Vec<u16>)> {
    let mut lent = Lent::exact(2 * (net.len() - 7) / segment_bytes(net[1]));
    let answer = route(&mut lent, net, from, to, tolerance);
    let found = answer.expect("no refusal")?;
    Some((found, lent.runs(found.count).to_vec()))
}

#[test]
fn from_a_node_to_itself() {
    let net = block_town().bytes();
    for node in 0..3 {
        for tolerance in 1..=4 {
            let empty = Found {
                count: 0,
                length: 0,
                level: 1,
            };
            assert_eq!(go(&net, node, node, tolerance), Some((empty, vec![])));
            let mut lent = Lent::exact(6);
            let answer = least_stress(&mut lent, &net, node, node);
            assert_eq!(answer, Ok(Some((empty, 1))));
            assert!(lent.written(0));
        }
    }
}

/// The right-hand exit may be closed; then everything crosses.
#[test]
fn one_way_loops() {
    let mut town = block_town();
    town.segments[1].ways = 1;
    let (found, list) = go(&town.bytes(), 0, 2, 1).unwrap();
    assert_eq!((found.length, list), (1_500, vec![0, 2, 4]));
    town.segments[1].ways = 2;
    for tolerance in 1..=3 {
        assert_eq!(go(&town.bytes(), 0, 2, tolerance), None);
    }
    let (found, list) = go(&town.bytes(), 0, 2, 4).unwrap();
    assert_eq!(
        (found, list),
        (
            Found {
                count: 2,
                length: 600,
                level: 4
            },
            vec![0, 4]
        )
    );
}

/// The exit is met first by the longer way: no early stop there.
#[test]
fn goal_met_by_the_longer_way_first() {
    let net = Town::new(3)
        .with(Segment::path(end(0, 0), end(2, 0), 1_000))
        .with(Segment::path(end(0, 1), end(1, 0), 10))
        .with(Segment::path(end(1, 1), end(2, 1), 980))
        .bytes();
    let (found, list) = go(&net, 0, 2, 1).unwrap();
    assert_eq!(
        (found, list),
        (
            Found {
                count: 2,
                length: 990,
                level: 1
            },
            vec![2, 4]
        )
    );
}

/// A best length per node would lose the way that may go on.
#[test]
fn label_for_each_run() {
    let hard = Approach::crossing(2, 6, 40);
    let net = Town::new(4)
        .with(Segment::path(end(0, 0), end(1, 0), 10).at_b(hard)) // short, but stuck
        .with(Segment::path(end(0, 1), end(2, 0), 100))
        .with(Segment::path(end(2, 1), end(1, 4), 100))
        .with(Segment::path(end(1, 2), end(3, 0), 50))
        .bytes();
    // Arriving by leg 0 the right-hand exit is 4, so leg 2 crosses.
    let (found, list) = go(&net, 0, 3, 1).unwrap();
    assert_eq!(
        (found, list),
        (
            Found {
                count: 3,
                length: 250,
                level: 1
            },
            vec![2, 4, 6]
        )
    );
    let (found, list) = go(&net, 0, 3, 4).unwrap();
    assert_eq!(
        (found, list),
        (
            Found {
                count: 2,
                length: 60,
                level: 4
            },
            vec![0, 6]
        )
    );
}

/// A chain of all nodes, every street as long as the edition allows.
#[test]
fn longest_chain_is_ridden() {
    for edition in EDITIONS {
        let town = longest_chain(edition);
        let last = town.nodes - 1;
        let (found, list) = go(&town.bytes(), 0, last.into(), 1).unwrap();
        assert_eq!(
            found,
            Found {
                count: last.into(),
                length: u32::from(last) * most_feet(edition),
                level: 1
            }
        );
        assert!(
            list.iter()
                .enumerate()
                .all(|(i, &run)| usize::from(run) == 2 * i)
        );
    }
}

/// The chain out to a loop and back again, above 2 to the 31st feet: nearly every
/// run is one of the route's. Its length is all that 32 bits must hold.
#[test]
fn longest_route() {
    const MOST: u32 = 264_000;
    let mut county = draw::town_of(COUNTY, Shape::Back, 1, COUNTY_SEGMENTS);
    for street in &mut county.segments {
        street.length = MOST;
    }
    let (net, last) = (county.bytes(), COUNTY_NODES - 1);
    for tolerance in 1..=3 {
        let (found, list) = go(&net, 0, last, tolerance).expect("a route");
        let count = 2 * COUNTY_SEGMENTS - 3;
        let length = count as u32 * MOST;
        let level = 1;
        assert_eq!(
            found,
            Found {
                count,
                length,
                level
            }
        );
        assert_eq!(list.len(), count);
        assert!(length > 1 << 31 && length < 16_000 * MOST);
    }
    let (found, _) = go(&net, 0, last, 4).expect("a route");
    assert_eq!((found.count, found.length, found.level), (2, 2 * MOST, 4));
}
