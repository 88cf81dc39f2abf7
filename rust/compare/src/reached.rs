//! What the comparisons reached, so that nothing is left out unseen.

use crate::editions::{self, control_case};
use crate::lines::{self, EDGES, LENGTHS};
use crate::places::{self, CONTROLS, FORM, MARKS, REACH, SPEED, counts};
use crate::question::{Question, Seen};
use crate::reach::{self, GREATEST, LISTS, MARKED, SCRATCH, TIES, VALUES};
use crate::{copies, counties, exits, limits, moves};
use std::collections::BTreeMap;
use std::fmt;
use towns::draw::Shape;
use towns::town::RESIDENTIAL;

/// How often each thing was reached.
#[derive(Clone, Debug, Default)]
pub struct Reached(BTreeMap<String, u64>);

impl Reached {
    /// Counts a thing once more.
    pub fn count(&mut self, thing: String) {
        *self.0.entry(thing).or_default() += 1;
    }

    /// Counts what the archive answered to a question.
    pub fn answer(&mut self, bytes: &[u8], question: Question<'_>, seen: &Seen) {
        let told = seen.told.now();
        let call = name(question);
        self.count(match (question, seen.number) {
            (Question::Read { .. }, 0) => editions::of(edition_of_text(bytes), "read kept"),
            (Question::Read { .. }, number) => {
                let position = position(bytes, number, told[0] as usize);
                format!("read refused {number} at the {position} line")
            }
            (Question::RefusedLine { .. }, _) => refused_line(bytes, seen),
            (_, number @ 1..) => format!("{call} refused {number}"),
            (Question::Segment { .. }, _) => {
                editions::of(bytes[1], &format!("segment level {}", told[0]))
            }
            (Question::Movement { .. }, _) => {
                editions::of(bytes[1], &format!("movement level {}", told[0]))
            }
            (Question::Search { tolerance, .. }, _) => search_case(bytes[1], tolerance, told),
            (Question::Map { reach, .. }, _) => {
                map_case(reach.tolerance, told[0] as usize, counts(bytes).0)
            }
            (Question::Nearest { from, .. }, _) if told[..2] == [1, from as u32] => {
                "nearest: the start".into()
            }
            (Question::Nearest { tolerance, .. }, _) => {
                let found = if told[0] == 1 { "found" } else { "none" };
                format!("nearest tolerance {tolerance} {found}")
            }
            (Question::Move { .. }, _) => format!("{call} answered"),
        });
        self.details(bytes, question, seen);
        for case in counties::shown(bytes, question, seen) {
            self.count(case);
        }
    }

    /// Counts what else an answer shows.
    fn details(&mut self, bytes: &[u8], question: Question<'_>, seen: &Seen) {
        let told = seen.told.now();
        if let (Question::Segment { segment }, 0) = (question, seen.number) {
            let measure = format!("segment measure {}", told[1]);
            self.of_edition(bytes, &measure);
            if let Some(street) = beside_parking(bytes, segment) {
                self.of_edition(bytes, &street);
            }
        }
        if let (Question::Movement { first, second }, 0) = (question, seen.number) {
            let exits = exits::shown(bytes, first, second);
            if let Some(exit) = exits.first() {
                let passes = exit == exits::PASSED;
                self.of_edition(bytes, &control_case(control(bytes, first), passes));
            }
            for exit in exits {
                self.count(exit);
            }
        }
        if let Question::Move { way, room } = question {
            for case in moves::shown(bytes, way, room, seen.number) {
                self.count(case);
            }
        }
        if let (Question::Search { .. }, 0, 1) = (question, seen.number, told[0]) {
            let size = if told[1] == 0 { "empty" } else { "ridden" };
            self.count(format!("{} {size} route", name(question)));
        }
        self.reach(bytes, question, seen.number);
    }

    /// Counts a thing of a network's edition.
    fn of_edition(&mut self, net: &[u8], thing: &str) {
        self.count(editions::of(net[1], thing));
    }

    /// Counts which networks and tolerances reach maps and nearest nodes met.
    fn reach(&mut self, bytes: &[u8], question: Question<'_>, number: u32) {
        let tolerance = match question {
            Question::Map { reach, .. } => reach.tolerance,
            Question::Nearest { tolerance, .. } => tolerance,
            _ => return,
        };
        let call = name(question);
        match number {
            0 => {
                let (nodes, segments) = counts(bytes);
                if segments == 0 {
                    self.count(format!("{call}: S 0"));
                } else if nodes > 2 * segments {
                    self.count(format!("{call}: more nodes than runs"));
                }
            }
            10 => {
                let kind = if tolerance > 5 {
                    "far"
                } else {
                    ["0", "5"][tolerance / 5]
                };
                self.count(format!("{call}: tolerance {kind}"));
            }
            _ => {}
        }
    }

    /// What should have been reached and was not.
    pub fn missing(&self) -> Vec<String> {
        must_reach()
            .into_iter()
            .filter(|thing| !self.0.contains_key(thing))
            .collect()
    }
}

impl fmt::Display for Reached {
    fn fmt(&self, out: &mut fmt::Formatter<'_>) -> fmt::Result {
        for (thing, count) in &self.0 {
            writeln!(out, "{count:>9}  {thing}")?;
        }
        Ok(())
    }
}

/// The call's name.
pub fn name(question: Question<'_>) -> &'static str {
    match question {
        Question::Read { .. } => "read",
        Question::RefusedLine { .. } => "refused line",
        Question::Segment { .. } => "segment",
        Question::Movement { .. } => "movement",
        Question::Search {
            tolerance: Some(_), ..
        } => "route",
        Question::Search { .. } => "least",
        Question::Map { .. } => "map",
        Question::Nearest { .. } => "nearest",
        Question::Move { way, .. } => moves::name(way),
    }
}

/// What a search in a network of an edition told.
fn search_case(edition: u8, tolerance: Option<usize>, told: &[u32]) -> String {
    let found = if told[0] == 1 { "found" } else { "none" };
    match tolerance {
        Some(tolerance) => editions::of(edition, &format!("route tolerance {tolerance} {found}")),
        None if told[0] == 0 => "least none".into(),
        None => editions::of(edition, &format!("least tolerance {} found", told[4])),
    }
}

/// How many of the nodes a map lists.
fn map_case(tolerance: usize, listed: usize, nodes: usize) -> String {
    let size = match listed {
        1 => "the start alone",
        _ if listed == nodes => "every node",
        _ => "some nodes",
    };
    format!("map tolerance {tolerance}: {size}")
}

/// The edition of a text whose head is in order.
pub fn edition_of_text(text: &[u8]) -> u8 {
    text[3] - b'0' // its second byte is below 10
}

/// The control that a run of a network meets where it arrives.
fn control(net: &[u8], run: usize) -> u8 {
    let street = places::street(net, places::frame(net, run / 2));
    street[CONTROLS[run % 2]]
}

/// What a refused line was.
fn refused_line(text: &[u8], seen: &Seen) -> String {
    match (seen.number, seen.part()) {
        (14, _) => "refused line: none, 14".into(),
        (5, [start, _]) if start == text.len() => "refused line: too few segments".into(),
        (number, part) => {
            let position = position(text, number, lines::line_of(text, part));
            format!("refused line: {number} at the {position} line")
        }
    }
}

/// The limits that Note 2 of document 02 asks of a street beside parking, with
/// the last number on one side of each and the first on the other.
const REACHES: [&str; 4] = ["under 27", "27", "28", "over 28"];
const SPEEDS: [&str; 4] = ["under 24", "24", "25", "over 25"];
const STREETS: [&str; 2] = ["residential", "not residential"];

fn parking_case(reach: &str, speed: &str, street: &str) -> String {
    format!("beside parking: reach {reach}, {speed} mph, {street}")
}

/// Where a segment of a network lies between those limits, if it is beside
/// parking.
fn beside_parking(net: &[u8], segment: usize) -> Option<String> {
    let street = places::street(net, places::frame(net, segment));
    let [form, speed, reach, marks] = [FORM, SPEED, REACH, MARKS].map(|at| street[at]);
    let place = |limit: u8, number: u8| match number {
        _ if number < limit => 0,
        _ if number == limit => 1,
        _ if number == limit + 1 => 2,
        _ => 3,
    };
    let residential = usize::from(marks & RESIDENTIAL == 0);
    (form == 1).then(|| {
        parking_case(
            REACHES[place(27, reach)],
            SPEEDS[place(24, speed)],
            STREETS[residential],
        )
    })
}

/// The first line that a refusal of Read can name.
fn first_line(number: u32) -> usize {
    match number {
        5 | 6 => 2, // a segment's line
        _ => 1,
    }
}

/// Where in a text a line lies.
pub fn position(text: &[u8], number: u32, line: usize) -> &'static str {
    let lines = text.split_inclusive(|&byte| byte == b'\n').count();
    if line <= first_line(number) {
        "first"
    } else if line >= lines {
        "last"
    } else {
        "middle"
    }
}

/// The kinds of place and scratch that searches are asked with.
pub const ROOMS: [&str; 10] = [
    "exact",
    "roomy",
    "exact fit at a place",
    "one too far",
    "place at the end",
    "place beyond the end",
    "greatest place",
    "place that wraps round",
    "short best",
    "short previous",
];

/// Everything that questions about texts have to reach.
fn must_reach_in_texts() -> Vec<String> {
    let mut all: Vec<String> = editions::of_each(&["read kept".into()]).collect();
    for call in ["read refused", "refused line:"] {
        for number in 1..=6 {
            for position in ["first", "middle", "last"] {
                all.push(format!("{call} {number} at the {position} line"));
            }
        }
        all.push(format!("{call} 7 at the first line")); // it has no other
    }
    all.extend(["none, 14", "too few segments"].map(|case| format!("refused line: {case}")));
    all.extend(EDGES.map(|edge| format!("text: {edge}")));
    all.extend(LENGTHS.map(|length| format!("output length: {length}")));
    all
}

/// Everything that questions about reach have to reach.
fn must_reach_in_maps() -> Vec<String> {
    let near = ["the start", "of several as near"];
    let mut all: Vec<String> = near.map(|case| format!("nearest: {case}")).into();
    for tolerance in 1..=4 {
        all.extend([(1, 3), (2, 3), (3, 3)].map(|(count, of)| map_case(tolerance, count, of)));
        all.extend(["found", "none"].map(|found| format!("nearest tolerance {tolerance} {found}")));
    }
    for call in ["map", "nearest"] {
        all.extend(["S 0", "more nodes than runs"].map(|net| format!("{call}: {net}")));
        all.extend(["0", "5", "far"].map(|kind| format!("{call}: tolerance {kind}")));
        all.extend(SCRATCH.map(|kind| format!("{call} scratch: {kind}")));
        all.extend([8, 9, 10, 11, 15].map(|number| reach::few_case(call, number)));
    }
    all.extend(GREATEST.map(reach::greatest_case));
    all.extend(reach::MARKS.map(reach::marks_case));
    all.extend(VALUES.map(reach::value_case));
    all.extend(LISTS.map(|kind| format!("list: {kind}")));
    all.extend(MARKED.map(|kind| format!("marks lent: {kind}")));
    all.extend(TIES.map(|tie| format!("tie: {tie}")));
    all.extend(["in", "not in"].map(|case| format!("route {case} the map")));
    all.extend(["small", "large"].map(|size| format!("slow maps: {size} town")));
    all
}

/// Everything that judgements and routes have to reach in each edition.
fn must_reach_in_levels() -> Vec<String> {
    let mut all = Vec::new();
    for number in 1..=4 {
        all.push(format!("segment level {number}"));
        all.push(format!("movement level {number}"));
        all.push(format!("route tolerance {number} found"));
        all.push(format!("route tolerance {number} none"));
        all.push(format!("least tolerance {number} found"));
    }
    all.extend((1..=6).map(|measure| format!("segment measure {measure}")));
    for (reach, speed) in REACHES.iter().flat_map(|r| SPEEDS.map(|s| (r, s))) {
        all.extend(STREETS.map(|street| parking_case(reach, speed, street)));
    }
    all
}

/// Everything that a run of comparisons has to reach.
fn must_reach() -> Vec<String> {
    let mut all = must_reach_in_texts();
    all.push("least none".into());
    for (call, numbers) in [
        ("segment", &[8, 12][..]),
        ("movement", &[8, 12, 13]),
        ("route", &[8, 9, 10, 11]),
        ("least", &[8, 9, 11]),
        ("map", &[8, 9, 10, 11, 15]),
        ("nearest", &[8, 9, 10, 11, 15]),
        ("move up", &[8, 16, 18]),
        ("move back", &[8, 16, 17, 18]),
    ] {
        all.extend(
            numbers
                .iter()
                .map(|number| format!("{call} refused {number}")),
        );
    }
    all.extend(editions::of_each(&must_reach_in_levels()));
    all.extend(editions::must_show());
    all.extend(counties::must_show());
    all.extend(limits::must_show());
    all.extend(moves::must_show());
    all.extend(copies::must_show());
    all.extend(exits::must_show());
    for call in ["route", "least"] {
        all.extend(["empty", "ridden"].map(|size| format!("{call} {size} route")));
    }
    all.extend(ROOMS.map(|room| format!("room: {room}")));
    all.extend(must_reach_in_maps());
    all.extend(Shape::ALL.map(|shape| format!("shape: {}", shape.name())));
    all
}
