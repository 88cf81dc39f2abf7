//! The crate's sizes are those of the C header, and the twin's; a part of a
//! text, a reach map, the nearest node and the bytes of a moved network are told
//! where the header says.

use splicereel::ffi::{Part, Scratch, Told};
use splicereel::ffi::{move_back, move_up, nearest, reach_map, refused_line};
use splicereel::{COUNTY_STACK, TOWN_LIST, TOWN_NODES, TOWN_RUNS, TOWN_SEGMENTS, TOWN_STACK};
use splicereel::{MAX_FEET, MAX_LIST, MAX_NETWORK, MAX_NODES, MAX_RUNS, MAX_SEGMENTS, MAX_TEXT};
use towns::town::{block_town, westerby};

const HEADER: &str = include_str!("../../../include/splicereel.h");

/// The value of a constant of the header: a sum of products of numbers and
/// other constants.
fn value(name: &str) -> usize {
    let (_, after) = HEADER.split_once(&format!(" {name} = ")).expect(name);
    let expression = after.split([',', '\n']).next().expect(name);
    let factor = |word: &str| word.parse().unwrap_or_else(|_| value(word));
    let product = |words: &str| -> usize { words.split('*').map(str::trim).map(factor).product() };
    expression.split('+').map(product).sum()
}

#[test]
fn sizes_are_the_headers() {
    for (name, size) in [
        ("SPLICEREEL_MAX_NODES", MAX_NODES),
        ("SPLICEREEL_MAX_SEGMENTS", MAX_SEGMENTS),
        ("SPLICEREEL_MAX_TEXT", MAX_TEXT),
        ("SPLICEREEL_MAX_NETWORK", MAX_NETWORK),
        ("SPLICEREEL_MAX_RUNS", MAX_RUNS),
        ("SPLICEREEL_MAX_LIST", MAX_LIST),
        ("SPLICEREEL_TOWN_NODES", TOWN_NODES),
        ("SPLICEREEL_TOWN_SEGMENTS", TOWN_SEGMENTS),
        ("SPLICEREEL_TOWN_RUNS", TOWN_RUNS),
        ("SPLICEREEL_TOWN_LIST", TOWN_LIST),
        ("SPLICEREEL_TOWN_STACK", TOWN_STACK),
        ("SPLICEREEL_COUNTY_STACK", COUNTY_STACK),
        ("SPLICEREEL_TOLD", Told::default().len()),
        ("SPLICEREEL_PART", Part::default().len()),
    ] {
        assert_eq!(value(name), size, "{name}");
    }
    // It is no int, and so a macro.
    let longest = format!("#define SPLICEREEL_MAX_FEET UINT32_C({MAX_FEET})\n");
    assert!(HEADER.contains(&longest), "{longest}");
}

#[test]
fn a_part_is_told_where_the_header_says() {
    let mut part = Part::default();
    let number = refused_line(b"010100010000FD\n00\n", MAX_NETWORK, &mut part);
    assert_eq!(number, 3);
    assert_eq!(part[value("SPLICEREEL_PART_START")], 15);
    assert_eq!(part[value("SPLICEREEL_PART_LENGTH")], 2);
}

/// The number that is told at a place of the header's.
fn told_at(told: &Told, name: &str) -> u32 {
    told[value(name)]
}

#[test]
fn reach_is_told_where_the_header_says() {
    let net = block_town().bytes();
    let (mut best, mut previous, mut list) = ([0; 6], [0; 6], [9; 7]);
    let mut told = Told::from([7; 8]);
    let scratch = Scratch {
        best: &mut best,
        previous: &mut previous,
    };
    let number = reach_map(&net, 0, 3, 1_499, scratch, &mut list, &mut told);
    assert_eq!(number, 0);
    assert_eq!(told_at(&told, "SPLICEREEL_MAP_COUNT"), 2);
    assert_eq!(list, [0, 0, 1, 300, 9, 9, 9]);
    assert_eq!(told[1..], [7; 7]);
    for (marks, answer) in [([0, 0, 2], [1, 2, 1_500]), ([0, 0, 0], [0, 7, 7])] {
        let mut told = Told::from([7; 8]);
        let scratch = Scratch {
            best: &mut best,
            previous: &mut previous,
        };
        assert_eq!(nearest(&net, 0, 3, &marks, scratch, &mut told), 0);
        let places = ["FOUND", "NODE", "FEET"];
        let places = places.map(|place| told_at(&told, &format!("SPLICEREEL_NEAREST_{place}")));
        assert_eq!(places, answer);
        assert_eq!(told[3..], [7; 5]);
    }
}

#[test]
fn moves_are_told_where_the_header_says() {
    let net = westerby().bytes();
    let (mut told, mut output) = (Told::from([7; 8]), [0; 327]);
    assert_eq!(move_up(&net, &mut output, &mut told), 0);
    assert_eq!(told_at(&told, "SPLICEREEL_MOVE_BYTES"), 327);
    assert_eq!(told[1..], [7; 7]);
    let mut back = [0; 307];
    assert_eq!(move_back(&output, &mut back, &mut told), 0);
    assert_eq!(told_at(&told, "SPLICEREEL_MOVE_BYTES"), 307);
    // A refusal tells its number alone.
    let mut told = Told::from([7; 8]);
    assert_eq!(move_up(&output, &mut back, &mut told), 16);
    assert_eq!(move_back(&output, &mut [], &mut told), 18);
    assert_eq!(told, [7; 8]);
}

#[test]
fn sizes_are_the_twins() {
    assert_eq!(
        [MAX_NODES, MAX_SEGMENTS, MAX_NETWORK, MAX_RUNS, MAX_LIST],
        [
            twin::MAX_NODES,
            twin::MAX_SEGMENTS,
            twin::MAX_NETWORK,
            twin::MAX_RUNS,
            twin::MAX_LIST
        ]
    );
    assert_eq!(
        [TOWN_NODES, TOWN_SEGMENTS, TOWN_RUNS, TOWN_LIST],
        [
            twin::TOWN_NODES,
            twin::TOWN_SEGMENTS,
            twin::TOWN_RUNS,
            twin::TOWN_LIST
        ]
    );
}
