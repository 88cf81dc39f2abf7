//! Towns that are drawn.

use towns::draw::{Damage, Rng, Shape, Spot, damage, damage_kept, town, town_of};
use towns::draw::{county_grid, mixed_grid, mixed_grid_of};
use towns::edition::{EDITIONS, all_marks, last_control};
use towns::program::cksum;
use towns::sizes::{COUNTY_NODES, COUNTY_SEGMENTS, MOST_BYTES, MOST_SEGMENTS};
use towns::sizes::{most_feet, most_nodes, most_segments, segment_bytes};
use towns::town::{COUNTY, IMPROVED_SIGNAL, NEWER, OLDER, Segment, TURN_LANE, Town, end};

/// Towns have the sizes they are asked for, and use what they should.
#[test]
fn shapes() {
    for edition in EDITIONS {
        let most = most_segments(edition);
        for shape in Shape::ALL {
            assert_eq!(Shape::from_name(shape.name()), Some(shape));
            for segments in [0, 1, 2, 3, 4, 10, 100, most - 1, most, 5 * most] {
                has_its_size(edition, shape, segments);
            }
        }
    }
    let largest = town(Shape::Grid, 1, MOST_SEGMENTS);
    assert_eq!(largest.text().len(), 61_015);
    assert_ne!(town(Shape::Grid, 1, 50), town(Shape::Grid, 2, 50));
}

fn has_its_size(edition: u8, shape: Shape, segments: usize) {
    let town = town_of(edition, shape, 7, segments);
    let (most, nodes) = (most_segments(edition), usize::from(town.nodes));
    let (wanted, made) = (segments.min(most), town.segments.len());
    assert!(made <= wanted);
    assert!((1..=most_nodes(edition)).contains(&nodes));
    match shape {
        Shape::Empty => assert_eq!(made, 0),
        Shape::Single => assert_eq!((nodes, made), (1, segments.min(4))),
        Shape::Tree => assert_eq!(made, segments.min(most_nodes(edition) - 1)),
        Shape::Star if segments.is_multiple_of(4) && segments > 0 => {
            assert_eq!(made, wanted);
            assert_eq!(2 * made, 8 * nodes, "all eight legs used");
        }
        Shape::Grid | Shape::Ring | Shape::Wild => assert_eq!(made, wanted),
        Shape::Back if segments >= 3 => assert_eq!((nodes, made), (wanted, wanted)),
        _ => {
            let room = wanted.min(7 * nodes / 2); // nearly all legs used
            assert!(segments < 10 || made * 10 >= room * 8, "{shape:?} {made}");
        }
    }
}

/// A county has 8,000 nodes, 8,000 segments and a text of 520,015 bytes at most.
#[test]
fn counties() {
    for shape in [Shape::Ring, Shape::Back] {
        let county = town_of(COUNTY, shape, 7, 9_000);
        let size = (usize::from(county.nodes), county.segments.len());
        assert_eq!(size, (COUNTY_NODES, COUNTY_SEGMENTS));
        assert_eq!(county.text().len(), 520_015);
        assert_eq!(county.bytes().len(), MOST_BYTES);
        assert_eq!(MOST_BYTES, 256_007);
    }
    let sizes = |shape| (0..40).map(move |seed| town_of(COUNTY, shape, seed, 30).nodes);
    for nodes in [1_000, 1_001, 8_000] {
        for shape in [Shape::Empty, Shape::Sparse] {
            assert!(sizes(shape).any(|each| each == nodes), "{shape:?} {nodes}");
        }
    }
}

/// Lengths are of an edition's whole range, and in a frame of edition 03 they
/// have four bytes, after which all fields stand two bytes later.
#[test]
fn lengths_of_each_edition() {
    for edition in EDITIONS {
        let most = most_feet(edition);
        let towns = (0..60).flat_map(|seed| towns_of(edition, seed));
        let streets = towns.flat_map(|town| town.segments);
        let lengths: Vec<u32> = streets.map(|street| street.length).collect();
        assert!(lengths.iter().all(|feet| (1..=most).contains(feet)));
        for feet in [1, most, if edition == COUNTY { 65_536 } else { 256 }] {
            assert!(lengths.contains(&feet), "{edition}: {feet}");
        }
        let long = lengths.iter().filter(|&&feet| feet > 52_800).count();
        assert_eq!(long > 1_000, edition == COUNTY);
    }
    let street = Segment::path(end(0, 2), end(1, 6), 0x0003_0201).street(1, 2, 30, 29, 5);
    let (short, long) = (street.frame_of(NEWER), street.frame_of(COUNTY));
    assert_eq!(
        [short.len(), long.len()],
        [NEWER, COUNTY].map(segment_bytes)
    );
    assert_eq!(short, street.frame());
    assert_eq!(short[7..9], [2, 1]);
    assert_eq!(long[7..11], [0, 3, 2, 1]);
    assert_eq!((&short[..7], &short[9..29]), (&long[..7], &long[11..31]));
    for frame in [short, long] {
        assert_eq!(frame.iter().fold(0u8, |sum, &b| sum.wrapping_add(b)), 0);
    }
}

/// A town that edition 03 allows alone becomes one that all do.
#[test]
fn shortened_streets() {
    let long = Segment::path(end(0, 0), end(1, 4), 52_801);
    let town = Town::new(2)
        .with(long)
        .with(Segment::path(end(0, 1), end(1, 5), 52_800));
    let lengths = |edition| {
        let streets = town.clone().shortened(edition).segments;
        [streets[0].length, streets[1].length]
    };
    assert_eq!(lengths(COUNTY), [52_801, 52_800]);
    assert_eq!(lengths(NEWER), [52_800, 52_800]);
}

/// Grids for times: up to a town's size the same streets in each edition; a
/// county's lengths are few, so that many ways are equally long.
#[test]
fn grids_of_each_edition() {
    for (edition, seed) in [(NEWER, 11), (COUNTY, 12)] {
        let grid = mixed_grid(seed, 500);
        assert_eq!(mixed_grid_of(edition, seed, 500), grid.edition(edition));
    }
    for grid in [mixed_grid_of(COUNTY, 11, 8_000), county_grid(11, 8_000)] {
        assert_eq!(
            (grid.edition, grid.segments.len()),
            (COUNTY, COUNTY_SEGMENTS)
        );
    }
    let mut lengths: Vec<u32> = county_grid(11, 8_000)
        .segments
        .iter()
        .map(|street| street.length)
        .collect();
    lengths.sort_unstable();
    lengths.dedup();
    assert_eq!((lengths.len(), lengths.last()), (8, Some(&264_000)));
}

fn controls(street: &Segment) -> [u8; 2] {
    [street.at_b, street.at_a].map(|approach| approach.control)
}

/// Towns of one seed, of every shape.
fn towns_of(edition: u8, seed: u64) -> impl Iterator<Item = Town> {
    let one = move |shape| town_of(edition, shape, seed, 60);
    Shape::ALL.into_iter().map(one)
}

/// The new values are drawn where they are allowed, and nowhere else.
#[test]
fn values_of_each_edition() {
    for edition in EDITIONS {
        let (mut marked, mut improved) = ([0; 4], 0);
        for town in (0..40).flat_map(|seed| towns_of(edition, seed)) {
            assert_eq!(town.edition, edition);
            assert_eq!(town.head()[1], edition);
            for street in &town.segments {
                assert!(street.marks <= all_marks(edition) && street.form < 4);
                assert!(street.form != 3 || street.marks == 0);
                marked[usize::from(street.form)] += u32::from(street.marks & TURN_LANE != 0);
                for control in controls(street) {
                    assert!(control <= last_control(edition));
                    improved += u32::from(control == IMPROVED_SIGNAL);
                }
            }
        }
        let newer = edition != OLDER;
        assert_eq!(marked.map(|n| n > 100), [newer, newer, newer, false]);
        assert_eq!(improved > 100, newer);
    }
}

/// What is drawn for edition 01 is what was drawn before there was another.
#[test]
fn the_older_edition_is_drawn_if_nothing_is_said() {
    for shape in Shape::ALL {
        assert_eq!(town(shape, 5, 30), town_of(OLDER, shape, 5, 30));
    }
    assert_eq!(Town::new(1).head(), [1, 1, 0, 1, 0, 0, 0xFD]);
}

/// A byte of the line that is refused.
fn byte_of(damaged: &Damage, at: usize) -> u8 {
    let mut lines = damaged.text.split(|&byte| byte == b'\n');
    let line = lines.nth(damaged.refusal.1 - 1).expect("a line");
    let pair = str::from_utf8(&line[2 * at..2 * at + 2]).expect("digits");
    u8::from_str_radix(pair, 16).expect("a byte")
}

/// Damage to a field meets each side of what an edition allows.
#[test]
fn damage_at_the_limits_of_each_edition() {
    for edition in EDITIONS {
        let mut rng = Rng::new(3);
        let (mut marks, mut control, mut head, mut length) = (0, 0, 0, 0);
        let form = segment_bytes(edition) - 21;
        for town in (0..80).flat_map(|seed| towns_of(edition, seed)) {
            let over = all_marks(edition) + 1;
            for spot in Spot::ALL {
                let Some(damaged) = damage(&mut rng, &town, 4, spot) else {
                    continue;
                };
                let byte = |at| byte_of(&damaged, at);
                match damaged.what {
                    "edition" => head += u32::from(byte(1) == 4),
                    "marks" if byte(form) != 3 => marks += u32::from(byte(form + 5) == over),
                    "control" => {
                        let controls = [byte(form + 6), byte(form + 13)];
                        control += u32::from(controls.contains(&(last_control(edition) + 1)));
                    }
                    "length" => {
                        let feet = (7..form).fold(0, |feet, at| feet << 8 | u32::from(byte(at)));
                        assert!(feet == 0 || feet > most_feet(edition));
                        length += u32::from(feet == most_feet(edition) + 1);
                    }
                    _ => {}
                }
            }
            let bad = damage_kept(&mut rng, &town);
            assert_ne!(bad, town.bytes());
        }
        assert!(
            [head, marks, control, length].iter().all(|&n| n > 5),
            "{head} {marks} {control} {length}"
        );
    }
}

/// Damaged frames are also of the width that the other editions have.
#[test]
fn damage_by_the_other_width() {
    for edition in EDITIONS {
        let other = if edition == COUNTY { NEWER } else { COUNTY };
        let mut rng = Rng::new(4);
        let mut met = [0; 2];
        for town in (0..40).flat_map(|seed| towns_of(edition, seed)) {
            let damaged = damage(&mut rng, &town, 3, Spot::Last).expect("a frame");
            if damaged.what == "a frame of the other width" {
                let last = damaged.text.split(|&b| b == b'\n').rev().nth(1);
                assert_eq!(last.map(<[u8]>::len), Some(2 * segment_bytes(other)));
                met[0] += 1;
            }
            let (bad, count) = (damage_kept(&mut rng, &town), town.segments.len());
            met[1] += u32::from(count > 0 && bad.len() == 7 + segment_bytes(other) * count);
        }
        assert!(met.iter().all(|&n| n > 10), "{met:?}");
    }
}

/// As the command prints it.
#[test]
fn check_sums() {
    for (bytes, sum) in [
        (&b""[..], 4_294_967_295),
        (b"123456789", 930_766_865),
        (&[0; 300], 351_385_237),
    ] {
        assert_eq!(cksum(bytes), sum);
    }
}
