//! `bench-call archive|twin CALL SHAPE SEGMENTS TIMES` makes one call so many
//! times and prints the nanoseconds of processor time that they took together:
//! for counting instructions, and for comparing two archives.
//!
//! CALL is one of read read-last refused refused-last segment movement route1
//! route2 route3 route4 least route-none map nearest; those with `-last` take
//! the town's text with a wrong check in its last line, and `route-none` is
//! asked for a node more, which no street leads to. SHAPE is `mixed`, the
//! benchmark's grid, `mixed-02`, the same town of edition 02, `mixed-03`, the same
//! of edition 03, which may have up to 8,000 segments, `county`, the benchmark's
//! grid of a county, which may too, or a shape of town-gen.

use bench::clock::microseconds;
use bench::{Call, Side, Subject};
use std::process::ExitCode;
use towns::Town;
use towns::draw::{self, Shape};
use towns::program::{self, number};
use towns::town::{COUNTY, NEWER};

/// Where the towns and questions come from, as in the benchmark.
const SEED: u64 = 11;

fn town(shape: &str, segments: usize) -> Option<Town> {
    match shape {
        "mixed" => Some(draw::mixed_grid(SEED, segments)),
        "mixed-02" => Some(draw::mixed_grid_of(NEWER, SEED, segments)),
        "mixed-03" => Some(draw::mixed_grid_of(COUNTY, SEED, segments)),
        "county" => Some(draw::county_grid(SEED, segments)),
        _ => Shape::from_name(shape).map(|shape| draw::town(shape, SEED, segments)),
    }
}

fn parse(words: &[String]) -> Option<(Side, Call, Town, usize)> {
    let [side, call, shape, segments, times] = words else {
        return None;
    };
    let side = Side::BOTH.into_iter().find(|each| each.name() == side)?;
    let call = Call::ALL.into_iter().find(|each| each.name() == call)?;
    let town = town(shape, number(segments)?)?;
    (!town.segments.is_empty()).then_some((side, call, town, number(times)?))
}

fn main() -> ExitCode {
    let Some((side, call, town, times)) = parse(&program::words()) else {
        return program::usage("bench-call archive|twin CALL SHAPE SEGMENTS TIMES");
    };
    let mut subject = Subject::new(&town, SEED);
    let start = microseconds();
    for question in 0..times {
        subject.ask(side, call, question);
    }
    println!("{}", ((microseconds() - start) * 1e3) as u64);
    ExitCode::SUCCESS
}
