//! Edition 03: counties of up to 8,000 segments, and a town as edition 03 beside
//! the same town as edition 02.

use crate::{
    Asked, SAMPLES, SEEDS, SIZES, Times, both, found_line, median, rounds, sample, size_table,
};
use bench::{Call, Side, Subject};
use std::ops::Range;
use towns::Town;
use towns::draw::{county_grid, mixed_grid};
use towns::sizes::COUNTY_SEGMENTS;
use towns::town::{COUNTY, NEWER};

/// Sizes of counties, in segments; growth is from the first, which is a town, to
/// the last.
pub const COUNTIES: [usize; 4] = [1_000, 2_000, 4_000, COUNTY_SEGMENTS];
/// Where the counties and their questions come from. A county has so many streets
/// that fewer of them do than of towns.
const COUNTY_SEEDS: Range<u64> = SEEDS.start..SEEDS.start + 3;

/// Counties of one size, with their questions.
fn counties(segments: usize) -> Vec<Subject> {
    COUNTY_SEEDS
        .map(|seed| Subject::new(&county_grid(seed, segments), seed))
        .collect()
}

/// Every call that a county answers.
fn calls() -> Vec<Call> {
    let all = Call::ALL.into_iter();
    all.filter(|call| !call.is_move()).collect()
}

/// The table over the sizes of counties, as that of towns.
pub fn by_size() {
    let mut sizes: Vec<Vec<Subject>> = COUNTIES.map(counties).into();
    size_table(&COUNTIES, &mut sizes, &calls());
    found_line(&COUNTIES, &mut sizes);
}

/// The same towns in an edition.
fn towns(edition: u8, segments: usize) -> Vec<Subject> {
    let town = |seed| -> Town { mixed_grid(seed, segments).edition(edition) };
    SEEDS.map(|seed| Subject::new(&town(seed), seed)).collect()
}

/// One call about copies in edition 03 and about the towns in edition 02, by turns.
fn copies(county: &mut [Subject], newer: &mut [Subject], asked: Asked) -> Times {
    let rounds = rounds(newer, asked);
    let mut towns = [county, newer];
    let turn = |turn: usize| both(turn, |side| sample(towns[side], asked, rounds));
    let turns: Vec<(f64, f64)> = (0..SAMPLES).map(turn).collect();
    let of = |value: fn(&(f64, f64)) -> f64| median(turns.iter().map(value).collect());
    Times {
        one: of(|turn| turn.0),
        other: of(|turn| turn.1),
        ratio: of(|turn| turn.0 / turn.1),
    }
}

/// The table of copies: the archive's times, and their ratio.
pub fn by_copy() {
    let mut sizes: Vec<[Vec<Subject>; 2]> = SIZES
        .iter()
        .map(|&segments| [COUNTY, NEWER].map(|edition| towns(edition, segments)))
        .collect();
    print!("| call |");
    SIZES.iter().for_each(|size| print!(" {size} segments |"));
    println!("\n|---|{}", "---|".repeat(SIZES.len()));
    for call in calls() {
        print!("| {} |", call.title());
        for [county, newer] in &mut sizes {
            let times = copies(county, newer, (Side::Archive, call));
            print!(" {} |", times.cell());
        }
        println!();
    }
}
