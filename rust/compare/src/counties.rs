//! What is asked about counties, networks of edition 03 with more nodes or more
//! segments than a town has; and what answers about edition 03 show.

use crate::places::{counts, feet};
use crate::question::{Question, Seen};
use crate::reached::{ROOMS, name, position};
use crate::rounds::{self, Done, Subject, pair, two_nodes};
use crate::{Comparer, lines, moves, reach};
use std::collections::BTreeSet;
use towns::draw::{self, Rng, Shape, Spot, damage, damage_kept};
use towns::sizes::{COUNTY_NODES, COUNTY_SEGMENTS, MOST_NODES, MOST_SEGMENTS, most_feet};
use towns::town::COUNTY;

/// One round in so many is about a county.
pub const ROUNDS: u64 = 60;

/// The counties of the rounds, by turns: the shape and the most segments. Those of
/// no shape have any, and any number.
const COUNTIES: [(Option<Shape>, usize); 8] = [
    (Some(Shape::Back), COUNTY_SEGMENTS),
    (Some(Shape::Tree), MOST_SEGMENTS),
    (Some(Shape::Grid), MOST_SEGMENTS + 1),
    (Some(Shape::Ring), COUNTY_SEGMENTS),
    (Some(Shape::Ring), MOST_SEGMENTS + 1),
    (None, COUNTY_SEGMENTS),
    (Some(Shape::Sparse), MOST_SEGMENTS),
    (None, COUNTY_SEGMENTS - 1),
];

/// Every comparison of a round about a county; `turn` counts these rounds.
pub fn play(comparer: &mut Comparer<'_>, rng: &mut Rng, turn: u64) -> Done {
    let subject = some_county(comparer, rng, turn);
    texts(comparer, rng, &subject)?;
    judgements(comparer, rng, &subject)?;
    let last = subject.nodes() - 1;
    let (from, to) = two_nodes(rng, &subject);
    for (from, to) in [(0, last), (from, to)] {
        pair(comparer, rng, &subject, from, to)?;
    }
    reach::reach_of(comparer, rng, &subject, 0, last)?;
    reach::nearest_is(comparer, rng, &subject, 0, last)?;
    for kind in [rng.pick(&ROOMS), rng.pick(&ROOMS), rng.pick(&ROOMS)] {
        rounds::odd_searches_of(comparer, rng, &subject, kind)?;
        reach::some_odd(comparer, rng, &subject)?;
    }
    moves::of_county(comparer, rng, &subject)?;
    no_networks(comparer, rng, subject)
}

/// The county of a round.
fn some_county(comparer: &mut Comparer<'_>, rng: &mut Rng, turn: u64) -> Subject {
    let (shape, most) = COUNTIES[(turn % COUNTIES.len() as u64) as usize];
    let any = rng.pick(&Shape::ALL);
    let segments = match most {
        _ if shape.is_some() || rng.chance(30) => most,
        _ => rng.range(MOST_SEGMENTS, most),
    };
    let (shape, seed) = (shape.unwrap_or(any), rng.bits());
    let mut county = draw::town_of(COUNTY, shape, seed, segments);
    if shape == Shape::Back {
        // Out and back is then above 31 bits, whatever lengths were drawn.
        let most = most_feet(COUNTY) as usize;
        for street in &mut county.segments {
            street.length = rng.range(most - 100, most) as u32;
        }
    }
    comparer.about = format!(
        "county: {} from seed {seed}, {segments} segments",
        shape.name()
    );
    Subject::new(county)
}

fn damaged_case(number: u8, position: &str) -> String {
    format!("county text refused {number} at the {position} line")
}

/// The text, with room and without, and some faults at its first line, a middle
/// one and its last.
fn texts(comparer: &mut Comparer<'_>, rng: &mut Rng, subject: &Subject) -> Done {
    let (text, size) = (subject.town.text(), subject.bytes.len());
    lines::text(comparer, rng, &text, size)?;
    lines::text(comparer, rng, &text, size - 1)?;
    for spot in Spot::ALL {
        let mut numbers = [1, 2, 3, 4, 5, 6];
        rng.shuffle(&mut numbers);
        for number in numbers.into_iter().take(3) {
            let Some(damaged) = damage(rng, &subject.town, number, spot) else {
                continue;
            };
            lines::text(comparer, rng, &damaged.text, damaged.output)?;
            let (number, line) = damaged.refusal;
            let position = position(&damaged.text, number.into(), line);
            comparer.reached.count(damaged_case(number, position));
        }
    }
    Ok(())
}

/// The last segments and runs, and some others.
fn judgements(comparer: &mut Comparer<'_>, rng: &mut Rng, subject: &Subject) -> Done {
    let (net, bytes) = (subject.net.as_ref(), &subject.bytes);
    let (segments, runs) = (subject.runs() / 2, subject.runs());
    let some: Vec<usize> = (0..4).map(|_| rng.below(segments)).collect();
    let ends = [0, segments.saturating_sub(1), segments, segments + 1];
    for segment in ends.into_iter().chain(some) {
        let question = Question::Segment { segment };
        comparer.compare(rng, net, bytes, question)?;
    }
    let last = runs.saturating_sub(1);
    let mut firsts = vec![0, last, last.saturating_sub(1), runs, 1 << 13];
    firsts.extend((0..6).map(|_| rng.below(runs)));
    for first in firsts {
        let second = rounds::next_run(rng, &subject.town, first).unwrap_or(first);
        let question = Question::Movement { first, second };
        comparer.compare(rng, net, bytes, question)?;
    }
    Ok(())
}

/// The county's bytes damaged so that they are none.
fn no_networks(comparer: &mut Comparer<'_>, rng: &mut Rng, mut subject: Subject) -> Done {
    for _ in 0..2 {
        (subject.bytes, subject.net) = (damage_kept(rng, &subject.town), None);
        let question = Question::Segment { segment: 0 };
        comparer.compare(rng, None, &subject.bytes, question)?;
        rounds::odd_searches_of(comparer, rng, &subject, "exact")?;
        moves::asked_twice(comparer, rng, &subject.bytes)?;
    }
    Ok(())
}

/// Whether a town's memory serves, or which of its counts makes a county.
const MEMORIES: [&str; 4] = [
    "a town of edition 03",
    "a county by its nodes alone",
    "a county by its segments alone",
    "a county by both",
];

/// The calls that have to meet each of them.
const CALLS: [&str; 7] = [
    "read", "segment", "movement", "route", "least", "map", "nearest",
];

/// Counts next to a town's most and a county's.
const COUNTS: [usize; 3] = [MOST_NODES, MOST_NODES + 1, COUNTY_NODES];

/// Lengths of streets that have to be ridden.
const LENGTHS: [u32; 5] = [1, 65_535, 65_536, 65_537, 264_000];

/// More feet than 31 bits hold.
const ABOVE: u32 = 1 << 31;

fn memory_case(call: &str, memory: &str) -> String {
    format!("{call}: {memory}")
}

fn count_case(of: &str, count: usize) -> String {
    format!("edition 03: {of} {count}")
}

fn length_case(feet: u32) -> String {
    format!("edition 03: a street of {feet} feet is ridden")
}

/// The largest county, and the one of the most nodes without a street.
const SIZES: [&str; 2] = ["8,000 nodes and segments", "8,000 nodes and no segment"];
/// What is longer than 31 bits hold.
const LONG: [&str; 5] = [
    "route above 2^31 feet",
    "route above 2^31 feet, out and back",
    "least above 2^31 feet",
    "map with an entry above 2^31 feet",
    "nearest above 2^31 feet",
];

/// What an answer about a network of edition 03 shows.
pub fn shown(bytes: &[u8], question: Question<'_>, seen: &Seen) -> Vec<String> {
    if seen.number != 0 {
        return Vec::new();
    }
    let net = match question {
        Question::Read { .. } => seen.output.now(),
        _ => bytes,
    };
    if net[1] != COUNTY {
        return Vec::new();
    }
    let (nodes, segments) = counts(net);
    let memory = usize::from(nodes > MOST_NODES) + 2 * usize::from(segments > MOST_SEGMENTS);
    let mut all = vec![memory_case(name(question), MEMORIES[memory])];
    for (of, count) in [("N", nodes), ("S", segments)] {
        if COUNTS.contains(&count) {
            all.push(count_case(of, count));
        }
    }
    if nodes == COUNTY_NODES && [0, COUNTY_SEGMENTS].contains(&segments) {
        all.push(SIZES[usize::from(segments == 0)].into());
    }
    all.extend(ridden(net, question, seen));
    all
}

/// What a route, a map or a nearest node shows.
fn ridden(net: &[u8], question: Question<'_>, seen: &Seen) -> Vec<String> {
    let told = seen.told.now();
    let mut all = Vec::new();
    match question {
        Question::Search { tolerance, .. } if told[0] == 1 => {
            let runs = seen.lent.runs(told[1] as usize);
            let lengths = runs.iter().map(|&run| feet(net, usize::from(run) / 2));
            let lengths: BTreeSet<u32> = lengths.filter(|feet| LENGTHS.contains(feet)).collect();
            all.extend(lengths.into_iter().map(length_case));
            if told[2] > ABOVE {
                let least = tolerance.is_none();
                all.push(LONG[if least { 2 } else { 0 }].into());
                let runs: BTreeSet<u16> = runs.iter().copied().collect();
                let twice = runs.iter().any(|run| runs.contains(&(run ^ 1)));
                all.extend(twice.then(|| LONG[1].into()));
            }
        }
        Question::Map { .. } => {
            let long = seen.entries().iter().any(|entry| entry.1 > ABOVE);
            all.extend(long.then(|| LONG[3].into()));
        }
        Question::Nearest { .. } if told[0] == 1 && told[2] > ABOVE => all.push(LONG[4].into()),
        _ => {}
    }
    all
}

/// Everything that comparisons have to show of counties and of edition 03.
pub fn must_show() -> Vec<String> {
    let mut all: Vec<String> = CALLS
        .iter()
        .flat_map(|call| MEMORIES.map(|memory| memory_case(call, memory)))
        .collect();
    for of in ["N", "S"] {
        all.extend(COUNTS.map(|count| count_case(of, count)));
    }
    all.extend(LENGTHS.map(length_case));
    all.extend(SIZES.iter().chain(&LONG).map(ToString::to_string));
    for number in 1..=6 {
        all.extend(["first", "middle", "last"].map(|position| damaged_case(number, position)));
    }
    all
}
