//! Answers about counties of 8,000 segments, which no program of `crates` reads:
//! a text is named by what draws it, and its answers alone are stored.

use oracle::{Net, Ways, read};
use std::fs;
use std::io;
use std::path::Path;
use towns::draw::{self, Rng, Shape};
use towns::program::cksum;
use towns::sizes::COUNTY_SEGMENTS;
use towns::town::{COUNTY, Town};

/// The counties, by shape and seed: such that have routes of many lengths, some
/// at each tolerance.
const COUNTIES: [(Shape, u64); 8] = [
    (Shape::Back, 5),
    (Shape::Ring, 19),
    (Shape::Ring, 20),
    (Shape::Tree, 53),
    (Shape::Grid, 14),
    (Shape::Maze, 5),
    (Shape::Loops, 29),
    (Shape::Star, 12),
];

/// Nodes that are asked from, the first and the last node among them, and how
/// many routes to others each is asked for.
const STARTS: usize = 4;
const ROUTES: usize = 3;
/// Segments and movements that are judged.
const JUDGED: usize = 12;

/// Writes `SHAPE-SEED.answers` for each county.
pub fn write(folder: &Path) -> io::Result<()> {
    fs::create_dir_all(folder)?;
    for (shape, seed) in COUNTIES {
        let answers = answers(shape, seed);
        fs::write(
            folder.join(format!("{}-{seed}.answers", shape.name())),
            answers,
        )?;
    }
    Ok(())
}

/// What draws the county and what its text is, then a line for each question
/// with its answer.
fn answers(shape: Shape, seed: u64) -> String {
    let county = draw::town_of(COUNTY, shape, seed, COUNTY_SEGMENTS);
    let text = county.text();
    let kept = read(&text, usize::MAX).expect("a network");
    let net = Net::parse(&kept).expect("a network");
    let mut rng = Rng::new(seed);
    let mut out = format!(
        "town-gen {} {seed} {COUNTY_SEGMENTS} {COUNTY}\n",
        shape.name()
    );
    out += &format!("text: {} bytes, cksum {}\n", text.len(), cksum(&text));
    out += &format!("size: {} nodes, {} segments\n", net.nodes(), net.segments());
    out += &judgements(&mut rng, &net);
    let mut ways = Ways::over(net);
    let last = usize::from(county.nodes) - 1;
    for start in 0..STARTS {
        let from = match start {
            0 => 0,
            1 => last,
            _ => some_node(&mut rng, &county),
        };
        out += &routes(&mut rng, &mut ways, &county, from);
        out += &reach(&mut rng, &mut ways, usize::from(county.nodes), from);
    }
    out
}

/// Mostly a node that has a street.
fn some_node(rng: &mut Rng, county: &Town) -> usize {
    let street = rng.pick(&county.segments);
    usize::from(rng.pick(&[street.a, street.b]).node)
}

fn judgements(rng: &mut Rng, net: &Net) -> String {
    let mut out = String::new();
    let runs = net.runs();
    for last in (0..JUDGED).map(|asked| asked == 0) {
        let segment = if last {
            net.segments() - 1
        } else {
            rng.below(net.segments())
        };
        let (level, measure) = net.segment(segment).expect("a segment");
        out += &format!("segment {segment}: {level} {measure}\n");
        let (first, turn) = (rng.below(runs), rng.below(runs));
        let nexts = (0..runs).map(|step| (turn + step) % runs);
        let second = nexts.clone().find(|&run| net.movement(first, run).is_ok());
        let second = second.unwrap_or(turn);
        let told = match net.movement(first, second) {
            Ok(level) => format!("level {level}"),
            Err(number) => format!("refused {number}"),
        };
        out += &format!("movement {first} {second}: {told}\n");
    }
    out
}

fn routes(rng: &mut Rng, ways: &mut Ways, county: &Town, from: usize) -> String {
    let mut out = String::new();
    let last = usize::from(county.nodes) - 1;
    for goal in 0..ROUTES {
        let to = if goal == 0 {
            last
        } else {
            some_node(rng, county)
        };
        for tolerance in 1..=4 {
            let told = match ways.route(from, to, tolerance).expect("no refusal") {
                Some(feet) => format!("found {feet}"),
                None => "none".into(),
            };
            out += &format!("route {from} {to} {tolerance}: {told}\n");
        }
        let told = match ways.least_stress(from, to).expect("no refusal") {
            Some((feet, tolerance)) => format!("found {feet} {tolerance}"),
            None => "none".into(),
        };
        out += &format!("route {from} {to} least: {told}\n");
    }
    out
}

/// Maps of all that is in reach, and as far as one of their nodes: how many
/// entries, their lengths' sum, and some of them. Then the nearest of some nodes,
/// each so many after the one before.
fn reach(rng: &mut Rng, ways: &mut Ways, nodes: usize, from: usize) -> String {
    let mut out = String::new();
    for tolerance in [1, 2, 3, 4] {
        let mut greatest = usize::MAX;
        for _ in 0..2 {
            let map = ways.reach_map(from, tolerance, greatest, 2 * nodes);
            let map = map.expect("no refusal");
            let sum: u64 = map.iter().map(|entry| u64::from(entry.1)).sum();
            out += &format!(
                "map {from} {tolerance} {greatest}: {} entries, {sum} feet",
                map.len()
            );
            let mut some: Vec<_> = map.iter().step_by(1 + map.len() / 4).collect();
            some.extend(map.last());
            some.dedup();
            for (node, feet) in some {
                out += &format!(", {node} at {feet}");
            }
            out += "\n";
            greatest = rng.pick(&map).1 as usize;
        }
        let (step, first) = (rng.pick(&[2, 50, 1_000, 4_000]), rng.below(1_000));
        let marks: Vec<u8> = (0..nodes)
            .map(|node| u8::from(node >= first && (node - first) % step == 0 && node != from))
            .collect();
        let told = match ways.nearest(from, tolerance, &marks).expect("no refusal") {
            Some((node, feet)) => format!("{node} at {feet}"),
            None => "none".into(),
        };
        out += &format!("nearest {from} {tolerance} of every {step} from {first}: {told}\n");
    }
    out
}
