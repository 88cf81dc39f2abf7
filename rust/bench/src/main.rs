//! `bench [towns|counties]` times every call on the archive and on the twin and
//! prints Markdown tables, of towns, of edition 03, or all.

mod counties;
mod reach;
mod texts;

use bench::clock::microseconds;
use bench::{Call, QUESTIONS, Side, Subject};
use std::fs;
use std::process::ExitCode;
use towns::Town;
use towns::draw::{self, Shape};
use towns::program;
use towns::sizes::MOST_SEGMENTS;

/// Sizes of the first table, in segments; growth is from the first to the
/// last.
const SIZES: [usize; 4] = [125, 250, 500, MOST_SEGMENTS];
/// Samples of each side; odd, so that one is the median.
const SAMPLES: usize = 15;
/// A sample takes at least so many microseconds.
const SAMPLE: f64 = 500.0;
/// Where the towns and questions come from: a town and its questions for each.
/// With so many the processor cannot learn the branches of small towns by
/// heart, and how much of a single town can be reached does not decide.
const SEEDS: std::ops::Range<u64> = 11..19;

/// What is timed: the side that is asked, and the call.
type Asked = (Side, Call);

/// A call on both sides, the archive first.
fn sides(call: Call) -> [Asked; 2] {
    Side::BOTH.map(|side| (side, call))
}

/// Microseconds for one call of each of two, as medians, and the median of the
/// ratios of samples taken one after the other.
#[derive(Clone, Copy)]
struct Times {
    one: f64,
    other: f64,
    ratio: f64,
}

impl Times {
    fn cell(self) -> String {
        let Times { one, other, ratio } = self;
        format!("{one:.1} / {other:.1} = **{ratio:.2}**")
    }
}

/// Microseconds for one call, as a mean over every town's questions so many
/// times: one town's after the other's, as a town is asked much in a row.
fn sample(towns: &mut [Subject], (side, call): Asked, rounds: usize) -> f64 {
    let calls = rounds * towns.len() * QUESTIONS;
    let start = microseconds();
    for _ in 0..rounds {
        for town in &mut *towns {
            for question in 0..QUESTIONS {
                town.ask(side, call, question);
            }
        }
    }
    (microseconds() - start) / calls as f64
}

fn median(mut samples: Vec<f64>) -> f64 {
    samples.sort_by(f64::total_cmp);
    samples[samples.len() / 2]
}

/// How many times a sample asks every town's questions.
fn rounds(towns: &mut [Subject], asked: Asked) -> usize {
    let once = sample(towns, asked, 1) * (towns.len() * QUESTIONS) as f64;
    1 + (SAMPLE / once) as usize
}

/// A sample of each of two, the first one's first in every other turn.
fn both(turn: usize, mut sample: impl FnMut(usize) -> f64) -> (f64, f64) {
    if turn.is_multiple_of(2) {
        let first = sample(0);
        (first, sample(1))
    } else {
        let first = sample(1);
        (sample(0), first)
    }
}

/// The towns of each size by turns: what slows the machine for a while then
/// slows all of them, and changes neither ratios nor growth.
fn turns(sizes: &mut [Vec<Subject>], two: [Asked; 2]) -> Vec<Vec<(f64, f64)>> {
    let rounds: Vec<usize> = sizes
        .iter_mut()
        .map(|towns| rounds(towns, two[1]))
        .collect();
    let turn = |turn: usize| {
        let each = sizes.iter_mut().zip(&rounds);
        each.map(|(towns, &rounds)| both(turn, |side| sample(towns, two[side], rounds)))
            .collect()
    };
    (0..SAMPLES).map(turn).collect()
}

/// The medians for the towns of one size.
fn times(turns: &[Vec<(f64, f64)>], size: usize) -> Times {
    let of =
        |value: fn((f64, f64)) -> f64| median(turns.iter().map(|turn| value(turn[size])).collect());
    Times {
        one: of(|(one, _)| one),
        other: of(|(_, other)| other),
        ratio: of(|(one, other)| one / other),
    }
}

/// How the time of each of two grows from the first size to the last.
fn growth(turns: &[Vec<(f64, f64)>]) -> (f64, f64) {
    let of = |side: fn((f64, f64)) -> f64| {
        let grown = |turn: &Vec<(f64, f64)>| side(turn[turn.len() - 1]) / side(turn[0]);
        median(turns.iter().map(grown).collect())
    };
    (of(|(one, _)| one), of(|(_, other)| other))
}

/// How many of a hundred questions have a route.
fn found(towns: &mut [Subject], call: Call) -> usize {
    let asked = towns.len() * QUESTIONS;
    let routes: usize = towns
        .iter_mut()
        .map(|town| {
            (0..QUESTIONS)
                .filter(|&question| town.ask(Side::Archive, call, question).1)
                .count()
        })
        .sum();
    (100 * routes + asked / 2) / asked
}

/// A town of each seed, with its questions.
fn subjects(town: impl Fn(u64) -> Town) -> Vec<Subject> {
    SEEDS.map(|seed| Subject::new(&town(seed), seed)).collect()
}

/// The cells of a row: times at each size, and growth.
fn cells(sizes: &mut [Vec<Subject>], two: [Asked; 2]) {
    let turns = turns(sizes, two);
    (0..sizes.len()).for_each(|size| print!(" {} |", times(&turns, size).cell()));
    let (one, other) = growth(&turns);
    println!(" {one:.1} / {other:.1} |");
}

/// The table over the sizes of one kind of town.
fn by_size() {
    let mut sizes: Vec<Vec<Subject>> = SIZES
        .iter()
        .map(|&segments| subjects(|seed| draw::mixed_grid(seed, segments)))
        .collect();
    size_table(&SIZES, &mut sizes, &Call::ALL);
    found_line(&SIZES, &mut sizes);
}

/// A row for each of some calls, with a cell for the towns of each size.
fn size_table(segments: &[usize], sizes: &mut [Vec<Subject>], calls: &[Call]) {
    print!("| call |");
    segments
        .iter()
        .for_each(|size| print!(" {size} segments |"));
    println!(" growth |\n|---|{}---|", "---|".repeat(segments.len()));
    for &call in calls {
        print!("| {} |", call.title());
        cells(sizes, sides(call));
    }
}

/// How many routes the towns of each size have.
fn found_line(segments: &[usize], sizes: &mut [Vec<Subject>]) {
    print!("\nRoutes found, of a hundred pairs");
    for (size, towns) in segments.iter().zip(sizes) {
        let counts: Vec<String> = (1..=4)
            .map(|tolerance| found(towns, Call::Route(tolerance)).to_string())
            .collect();
        print!(
            "; {size} segments, tolerances 1 to 4: {}",
            counts.join(", ")
        );
    }
    println!(".\n");
}

/// The table over shapes, at the most segments that a town of each can have.
fn by_shape() {
    const CALLS: [Call; 10] = [
        Call::Read,
        Call::Segment,
        Call::Route(2),
        Call::Route(3),
        Call::Route(4),
        Call::Least,
        Call::Map,
        Call::Nearest,
        Call::MoveUp,
        Call::MoveBack,
    ];
    print!("| shape | nodes, segments |");
    CALLS.iter().for_each(|call| print!(" {} |", call.title()));
    println!("\n|---|---|{}", "---|".repeat(CALLS.len()));
    for shape in Shape::ALL {
        let town = draw::town(shape, SEEDS.start, MOST_SEGMENTS);
        if town.segments.len() < 100 {
            continue; // one node, or none with streets: nothing to time
        }
        let mut towns = [subjects(|seed| draw::town(shape, seed, MOST_SEGMENTS))];
        print!(
            "| {} | {}, {} |",
            shape.name(),
            town.nodes,
            town.segments.len()
        );
        for call in CALLS {
            print!(" {} |", times(&turns(&mut towns, sides(call)), 0).cell());
        }
        println!();
    }
}

/// The kind of processor, as the system names it.
fn machine() -> String {
    let about = fs::read_to_string("/proc/cpuinfo").unwrap_or_default();
    about
        .lines()
        .find_map(|line| line.strip_prefix("model name")?.split_once(": "))
        .map_or_else(|| "unknown processor".into(), |(_, name)| name.to_string())
}

fn main() -> ExitCode {
    let words = program::words();
    let parts: Vec<&str> = words.iter().map(String::as_str).collect();
    let (towns, counties) = match parts[..] {
        [] => (true, true),
        ["towns"] => (true, false),
        ["counties"] => (false, true),
        _ => return program::usage("bench [towns|counties]"),
    };
    how();
    if towns {
        of_towns();
    }
    if counties {
        of_counties();
    }
    ExitCode::SUCCESS
}

/// What the tables tell, and how it was measured.
fn how() {
    println!("# Times\n");
    println!(
        "Microseconds of processor time for one call, archive / twin = **ratio**; medians of {SAMPLES} samples for each side, \
         taken by turns, a sample at least {} ms of calls over {} towns with {QUESTIONS} questions each; the ratio is the median of those \
         of two samples taken one after the other. Release builds with link-time optimization, {}, {}. \
         Nothing is cleared before a call: scratch and buffer hold what the call before left. \
         Judge a segment and Judge a movement include the test of the kept bytes. \
         Read that is refused and Refused line that tells the last take the same text, with a wrong check in its last line. \
         Move up is asked about each town as edition 02 and Move back about it as edition 03, and each includes the test of the kept bytes. \
         A reach map has the greatest length 4294967295; Nearest is asked for the node that Route is asked for, and Route finds none \
         where it is asked for a node more, which no street leads to.\n",
        SAMPLE / 1e3,
        SEEDS.end - SEEDS.start,
        env!("BENCH_RUSTC"),
        machine()
    );
}

fn of_towns() {
    println!(
        "Grids with mixed streets; growth is from {} segments to {}, sizes taken by turns, as archive / twin.\n",
        SIZES[0],
        SIZES[SIZES.len() - 1]
    );
    by_size();
    println!("Other shapes, at {MOST_SEGMENTS} segments or as many as they have.\n");
    by_shape();
    println!(
        "\nReach map beside a Route that finds none, and Nearest beside Route to the same node: each side by itself, the same towns \
         with a node more, the same starts, tolerance 4.\n"
    );
    reach::table();
    println!("\nRefused line beside Read, the archive alone, on the same text.\n");
    texts::table();
}

fn of_counties() {
    let sizes = counties::COUNTIES;
    println!(
        "\nEdition 03: grids with mixed streets and links of up to 264,000 feet, many of them equally long; the first size is a town's, the \
         others are counties'. Growth is from {} segments to {}.\n",
        sizes[0],
        sizes[sizes.len() - 1]
    );
    counties::by_size();
    println!(
        "A town as edition 03 beside the same town as edition 02, the archive alone: microseconds of 03 / of 02 = **ratio**. The towns are \
         those of the first table with a head of edition 02.\n"
    );
    counties::by_copy();
}
