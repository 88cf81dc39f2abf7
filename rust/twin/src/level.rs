//! The tables: level and measure of a segment, levels of an approach.
//!
//! Everything here expects fields that are in order, and is told whether the
//! newer rules hold, which are Note 5's of document 02.

use crate::frame::{Approach, Segment};

const CENTRELINE: u8 = 1;
const RESIDENTIAL: u8 = 2;
const MEDIAN: u8 = 4;
const BLOCKED: u8 = 8;
const TURN_LANE: u8 = 16;

const SIGNAL: u8 = 1;
const IMPROVED_SIGNAL: u8 = 5;

/// Half feet that a central two-way turn lane adds to a reach.
const WIDENING: u8 = 4;

/// Bands: to 25, 26 to 30, 31 to 35, 36 and over.
#[inline]
fn band(speed: u8) -> usize {
    match speed {
        0..=25 => 0,
        26..=30 => 1,
        31..=35 => 2,
        _ => 3,
    }
}

/// Level and governing measure of a segment.
#[inline]
pub(crate) fn segment<const L: usize>(s: Segment<'_, L>, newer: bool) -> (u8, u8) {
    if newer { by_newer(s) } else { by_older(s) }
}

#[inline]
fn by_older<const L: usize>(s: Segment<'_, L>) -> (u8, u8) {
    match s.form() {
        0 => (mixed(s.lanes(), band(s.speed()), s.marks()), 5),
        1 => governing(beside_parking(s, s.reach())),
        2 => governing(without_parking(s, s.reach())),
        _ => (1, 6),
    }
}

/// The older rules with a wider reach; a bike lane is no worse than riding with
/// the traffic beside it. Kept out of the way of the older rules.
#[cold]
fn by_newer<const L: usize>(s: Segment<'_, L>) -> (u8, u8) {
    let own = match s.form() {
        1 => governing(beside_parking(s, widened(s))),
        2 => governing(without_parking(s, widened(s))),
        _ => return by_older(s),
    };
    // Form 0 has all through lanes, forms 1 and 2 those of one direction.
    let lanes = match s.ways() {
        3 => 2 * s.lanes(),
        _ => s.lanes(),
    };
    match mixed(lanes, band(s.speed()), s.marks()) {
        lower if lower < own.0 => (lower, 5),
        _ => own,
    }
}

/// The reach as the newer rules count it.
fn widened<const L: usize>(s: Segment<'_, L>) -> u8 {
    let widens = s.lanes() == 1 && s.ways() == 3 && s.marks() & TURN_LANE != 0;
    s.reach() + if widens { WIDENING } else { 0 }
}

#[inline]
fn mixed(lanes: u8, band: usize, marks: u8) -> u8 {
    let calm = lanes <= 2 && (marks & RESIDENTIAL != 0 || marks & CENTRELINE == 0);
    match (lanes, band) {
        (0..=3, 0) => 2 - u8::from(calm),
        (0..=3, 1) => 3 - u8::from(calm),
        (4 | 5, 0) => 3,
        _ => 4,
    }
}

#[inline]
fn beside_parking<const L: usize>(s: Segment<'_, L>, reach: u8) -> [u8; 4] {
    // Note 2: there a narrow reach costs at most level 2.
    let quiet = s.speed() < 25 || s.marks() & RESIDENTIAL != 0;
    [
        if s.lanes() == 1 { 1 } else { 3 },
        match reach {
            0..=27 if quiet => 2,
            0..=27 => 3,
            28 | 29 => 2,
            _ => 1,
        },
        [1, 2, 3, 4][band(s.speed())],
        if s.marks() & BLOCKED != 0 { 3 } else { 1 },
    ]
}

#[inline]
fn without_parking<const L: usize>(s: Segment<'_, L>, reach: u8) -> [u8; 4] {
    [
        match s.lanes() {
            1 => 1,
            2 if s.marks() & MEDIAN != 0 => 2,
            _ => 3,
        },
        if reach >= 12 { 1 } else { 2 },
        [1, 1, 3, 4][band(s.speed())],
        if s.marks() & BLOCKED != 0 { 3 } else { 1 },
    ]
}

/// The greatest of the four, and the lowest-numbered measure that has it.
#[inline]
fn governing(measures: [u8; 4]) -> (u8, u8) {
    let mut answer = (measures[0], 1);
    for (number, &level) in (2..).zip(&measures[1..]) {
        if level > answer.0 {
            answer = (level, number);
        }
    }
    answer
}

/// The two levels that an approach can give to a movement.
#[derive(Clone, Copy)]
pub(crate) struct Arrival {
    /// Onto the right-hand exit: the turn lane's.
    pub right: u8,
    /// Onto any other leg: the greater of that and the crossing's.
    pub other: u8,
}

impl Arrival {
    #[inline]
    pub fn of(approach: Approach, newer: bool) -> Arrival {
        let right = turn_lane(approach);
        Arrival {
            right,
            other: right.max(if newer {
                newer_crossing(approach)
            } else {
                crossing(approach)
            }),
        }
    }
}

const NO_ISLAND: [[u8; 3]; 4] = [[1, 2, 4], [1, 2, 4], [2, 3, 4], [3, 4, 4]];
const ISLAND: [[u8; 3]; 4] = [[1, 1, 2], [1, 2, 3], [2, 3, 4], [3, 4, 4]];
const ONE_WAY: [[u8; 4]; 4] = [[1, 2, 2, 4], [1, 2, 4, 4], [2, 4, 4, 4], [4, 4, 4, 4]];

#[inline]
fn crossing(a: Approach) -> u8 {
    let band = band(a.speed());
    let wide = match a.lanes() {
        0..=3 => 0,
        4 | 5 => 1,
        _ => 2,
    };
    let one_way = match a.lanes() {
        0 | 1 => 0,
        2 => 1,
        3 => 2,
        _ => 3,
    };
    match a.control() {
        2 => NO_ISLAND[band][wide],
        3 => ISLAND[band][wide],
        4 => ONE_WAY[band][one_way],
        _ => 1,
    }
}

/// The same by the newer rules.
#[cold]
fn newer_crossing(a: Approach) -> u8 {
    match a.control() {
        SIGNAL => 4,
        IMPROVED_SIGNAL => 1,
        _ => crossing(a),
    }
}

#[inline]
fn turn_lane(a: Approach) -> u8 {
    match (a.turn(), a.turn_length(), a.turn_speed()) {
        (0, ..) => 1,
        (1, ..=150, ..=15) => 2,
        (1, _, ..=20) => 3,
        (2, _, ..=15) => 3,
        (3, ..=75, ..=15) => 1,
        (3, 76..=150, ..=15) => 3,
        _ => 4,
    }
}
