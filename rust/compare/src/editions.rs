//! What is asked about the rules of editions: values that some of them have alone,
//! streets and signals whose levels differ, and a town under editions 01 and 02.

use crate::question::Question;
use crate::rounds::{Done, Subject, pair, two_nodes};
use crate::{Comparer, lines};
use oracle::Net;
use splicereel::ffi::Told;
use towns::draw::Rng;
use towns::edition::{EDITIONS, all_marks};
use towns::sizes::{most_nodes, most_segments};
use towns::town::{IMPROVED_SIGNAL, NEWER, OLDER, SIGNAL, Segment, TURN_LANE, Town, end};

/// A case in an edition.
pub fn of(edition: u8, case: &str) -> String {
    format!("edition {edition}: {case}")
}

/// Every case in every edition.
pub fn of_each(cases: &[String]) -> impl Iterator<Item = String> {
    EDITIONS
        .into_iter()
        .flat_map(|edition| cases.iter().map(move |case| of(edition, case)))
}

/// The same town in edition 01, and without what that lacks; none where it has
/// more nodes or segments.
pub fn older(mut town: Town) -> Option<Town> {
    let size = (usize::from(town.nodes), town.segments.len());
    if size.0 > most_nodes(OLDER) || size.1 > most_segments(OLDER) {
        return None;
    }
    town = town.shortened(OLDER);
    for street in &mut town.segments {
        street.marks &= all_marks(OLDER);
        for approach in [&mut street.at_b, &mut street.at_a] {
            if approach.control == IMPROVED_SIGNAL {
                approach.control = SIGNAL;
            }
        }
    }
    Some(town.edition(OLDER))
}

/// Values at the limits of the editions, with the numbers of each kind.
const VALUES: [(&str, [u8; 5]); 4] = [
    ("marks 16 to 31", [16, 17, 24, 30, 31]),
    ("marks over 31", [32, 33, 63, 64, 255]),
    ("control 5", [5; 5]),
    ("control over 5", [6, 7, 8, 128, 255]),
];

/// The bytes that name no edition, of those that a head is asked with.
const NO_EDITIONS: [u8; 4] = [0, 4, 16, 255];

/// One of the values on a street of a form: what Read and Judge a segment say.
fn value_case(what: &str, form: u8, [read, judge]: [u32; 2]) -> String {
    let place = if what.starts_with("marks") {
        format!("{what} on form {form}")
    } else {
        what.into()
    };
    format!("{place}: Read says {read}, Judge a segment {judge}")
}

/// A town with one of the values of [`VALUES`] and none else that is new, in
/// every edition; and with a head that names no edition.
pub fn values(comparer: &mut Comparer<'_>, rng: &mut Rng, subject: &Subject) -> Done {
    let Some(plain) = older(subject.town.clone()) else {
        return Ok(());
    };
    for byte in NO_EDITIONS {
        let [read, _] = both_say(comparer, rng, plain.clone().edition(byte), 0)?;
        let case = head_case(byte, read);
        comparer.reached.count(case);
    }
    if plain.segments.is_empty() {
        return Ok(());
    }
    for (what, numbers) in VALUES {
        let segment = rng.below(plain.segments.len());
        let mut town = plain.clone();
        let street = &mut town.segments[segment];
        let number = rng.pick(&numbers);
        if what.starts_with("marks") {
            street.marks = number;
        } else {
            let approach = match rng.chance(50) {
                true => &mut street.at_b,
                false => &mut street.at_a,
            };
            (approach.control, approach.lanes, approach.speed) = (number, 0, 0);
        }
        let form = street.form;
        for edition in EDITIONS {
            let town = town.clone().edition(edition);
            let said = both_say(comparer, rng, town, segment)?;
            comparer
                .reached
                .count(of(edition, &value_case(what, form, said)));
        }
    }
    Ok(())
}

fn head_case(byte: u8, read: u32) -> String {
    format!("a head of edition {byte}: Read says {read}")
}

/// What Read says of a town's text, and Judge a segment of its bytes.
pub fn both_say(
    comparer: &mut Comparer<'_>,
    rng: &mut Rng,
    town: Town,
    segment: usize,
) -> Result<[u32; 2], Box<crate::Mismatch>> {
    let subject = Subject::new(town);
    let (net, bytes) = (subject.net.as_ref(), &subject.bytes);
    let read = lines::text(comparer, rng, &subject.town.text(), bytes.len())?;
    let judge = comparer.compare(rng, net, bytes, Question::Segment { segment })?;
    Ok([read, judge.number])
}

/// Where the mixed level stands to a bike lane's own.
const BESIDE: [&str; 3] = ["lower", "equal", "higher"];
/// Lanes of one direction of a street.
const LANES: [&str; 3] = ["1 lane", "2 lanes", "more lanes"];
/// How far a reach lies below a limit of its form: by 5 it stays below, by 4 it
/// comes to it.
const BELOW: [u8; 4] = [5, 4, 1, 0];

/// The limits of a reach by form.
fn limits(form: u8) -> &'static [u8] {
    if form == 1 { &[28, 30] } else { &[12] }
}

fn mixed_case(form: u8, beside: &str) -> String {
    format!("form {form}: the mixed level is {beside}")
}

fn marked_case(street: &Segment) -> String {
    let lanes = LANES[usize::from(street.lanes.min(3)) - 1];
    let mark = if street.marks & TURN_LANE != 0 {
        "marked 16"
    } else {
        "not marked 16"
    };
    let Segment { form, ways, .. } = street;
    format!("form {form}, ways {ways}, {lanes}, {mark}")
}

fn reach_case(form: u8, limit: u8, below: u8, widened: bool) -> String {
    let counts = if widened { "4 more" } else { "as it is" };
    format!("form {form}: a reach of {limit} - {below} counts {counts}")
}

fn widened_case(form: u8, limit: u8) -> String {
    format!("form {form}: a reach comes to {limit} by 4 more, which decides")
}

fn lanes_case(ways: u8) -> String {
    let lanes = if ways == 3 { "twice" } else { "once" };
    format!("ways {ways}: the lower of both levels goes by {lanes} its lanes")
}

/// Level and measure of a street alone by the rules of edition 01, from the
/// slow implementation.
fn older_level(street: Segment) -> (u8, u8) {
    // Where it lies and how long it is has no effect.
    let (a, b) = (end(0, 0), end(0, 1));
    let town = older(Town::new(1).with(Segment { a, b, ..street }));
    let net = town.and_then(|town| Net::parse(&town.bytes()));
    net.and_then(|net| net.segment(0).ok()).unwrap_or((0, 0))
}

/// Whether the note counts a street's reach as wider.
fn is_widened(street: &Segment) -> bool {
    street.lanes == 1 && street.ways == 3 && street.marks & TURN_LANE != 0
}

/// A street with a bike lane: its own level and measure by the newer rules, and
/// the mixed level at its lanes and at twice as many, all in terms of edition
/// 01.
fn parts(street: Segment) -> ((u8, u8), [u8; 2]) {
    let more = if is_widened(&street) { 4 } else { 0 };
    // Neither more half feet nor more lanes than a frame has are any better.
    let reach = (street.reach + more).min(60);
    let own = older_level(Segment { reach, ..street });
    let mixed = [1, 2].map(|times| {
        let lanes = (times * street.lanes).min(12);
        older_level(street.street(0, lanes, street.speed, 0, street.marks)).0
    });
    (own, mixed)
}

/// Level and measure that the newer rules give a street with a bike lane.
fn newer_level(street: Segment) -> (u8, u8) {
    let (own, mixed) = parts(street);
    let mixed = mixed[usize::from(street.ways == 3)];
    if mixed < own.0 { (mixed, 5) } else { own }
}

/// Streets with bike lanes in the place of some of the town's, next to the
/// limits that the newer rules ask about, in every edition: judged, and the ends
/// of one as a pair.
pub fn streets(comparer: &mut Comparer<'_>, rng: &mut Rng, subject: &Subject) -> Done {
    let plain = older(subject.town.clone()).filter(|town| !town.segments.is_empty());
    let Some(plain) = plain else { return Ok(()) };
    for _ in 0..3 {
        let segment = rng.below(plain.segments.len());
        let street = near_the_limits(rng, plain.segments[segment]);
        for edition in EDITIONS {
            let marks = street.marks & all_marks(edition);
            let street = Segment { marks, ..street };
            let mut town = plain.clone().edition(edition);
            town.segments[segment] = street;
            judged(comparer, rng, &Subject::new(town), segment)?;
        }
    }
    Ok(())
}

/// The same street with a bike lane.
fn near_the_limits(rng: &mut Rng, street: Segment) -> Segment {
    let form = rng.pick(&[1, 2]);
    let limit = rng.pick(limits(form));
    let reach = match rng.chance(80) {
        true => limit - rng.pick(&BELOW),
        false => rng.pick(&[0, 2, 31, 56, 57, 60]),
    };
    let lanes = rng.pick(&[1, 1, 1, 2, 2, 3, 4, 5, 6, 7, 12]);
    let speed = rng.pick(&[5, 24, 25, 25, 26, 30, 30, 31, 35, 36]);
    let marks = rng.below(32) as u8;
    let street = street.ways(rng.pick(&[1, 2, 3, 3]));
    street.street(form, lanes, speed, reach, marks)
}

/// Judges a street and holds it to what the note says in terms of edition 01;
/// then its ends as a pair.
fn judged(comparer: &mut Comparer<'_>, rng: &mut Rng, subject: &Subject, segment: usize) -> Done {
    let Town { edition, .. } = subject.town;
    let street = subject.town.segments[segment];
    let (net, bytes) = (subject.net.as_ref(), &subject.bytes);
    let question = Question::Segment { segment };
    let told = comparer.compare(rng, net, bytes, question)?.told();
    let must = match edition {
        OLDER => older_level(street),
        _ => newer_level(street),
    };
    if told[..2] != [u32::from(must.0), u32::from(must.1)] {
        let question = format!("{question:?}: {told:?}, must be {must:?}");
        return Err(comparer.disagreement(bytes, question, "another level than the note's"));
    }
    for case in street_cases(street) {
        comparer.reached.count(of(edition, &case));
    }
    let ends = [street.a, street.b].map(|end| usize::from(end.node));
    pair(comparer, rng, subject, ends[0], ends[1]).map(|_| ())
}

/// What a street with a bike lane shows of the newer rules.
fn street_cases(street: Segment) -> Vec<String> {
    let Segment {
        form, ways, reach, ..
    } = street;
    let (own, mixed) = parts(street);
    let [mixed, other] = if ways == 3 {
        [mixed[1], mixed[0]]
    } else {
        mixed
    };
    let beside = BESIDE[match mixed.cmp(&own.0) {
        std::cmp::Ordering::Less => 0,
        std::cmp::Ordering::Equal => 1,
        std::cmp::Ordering::Greater => 2,
    }];
    let mut cases = vec![mixed_case(form, beside), marked_case(&street)];
    if own.0.min(mixed) != own.0.min(other) {
        cases.push(lanes_case(ways));
    }
    let widened = is_widened(&street);
    let marks = street.marks & !TURN_LANE;
    let decides = newer_level(Segment { marks, ..street }) != newer_level(street);
    for &limit in limits(form) {
        let at = BELOW.into_iter().find(|&below| limit - below == reach);
        cases.extend(at.map(|below| reach_case(form, limit, below, widened)));
        if decides && (reach + 1..=reach + 4).contains(&limit) {
            cases.push(widened_case(form, limit));
        }
    }
    cases
}

/// What a movement shows of the control that it meets; whether it goes on past
/// the right-hand exit.
pub fn control_case(control: u8, passes: bool) -> String {
    let onto = if passes { "another leg" } else { "the exit" };
    format!("control {control}, then by {onto}")
}

/// How answers about one pair differ between editions 01 and 02.
const DIFFERENCES: [&str; 6] = [
    "route: found in 01 alone",
    "route: found in 02 alone",
    "route: another length",
    "route: another level",
    "least: another length",
    "least: another tolerance",
];

/// A town in both editions, without what 01 lacks: pairs at every tolerance.
pub fn both(comparer: &mut Comparer<'_>, rng: &mut Rng, subject: &Subject) -> Done {
    let Some(plain) = older(subject.town.clone()) else {
        return Ok(());
    };
    let newer = Subject::new(plain.clone().edition(NEWER));
    let older = Subject::new(plain);
    for _ in 0..2 {
        let (from, to) = two_nodes(rng, subject);
        let one = pair(comparer, rng, &older, from, to)?;
        let two = pair(comparer, rng, &newer, from, to)?;
        for (place, (one, two)) in one.iter().zip(&two).enumerate() {
            for difference in differences(place == 4, one, two) {
                comparer.reached.count(differs(difference));
            }
        }
    }
    Ok(())
}

fn differs(difference: &str) -> String {
    format!("01 and 02 differ, {difference}")
}

/// Between what was told in edition 01 and in edition 02.
fn differences(least: bool, one: &Told, two: &Told) -> Vec<&'static str> {
    match (one[0], two[0]) {
        (1, 0) => return vec![DIFFERENCES[0]],
        (0, 1) => return vec![DIFFERENCES[1]],
        (0, _) => return Vec::new(),
        _ => {}
    }
    let (places, cases) = if least {
        ([2, 4], &DIFFERENCES[4..])
    } else {
        ([2, 3], &DIFFERENCES[2..4])
    };
    let all = places.into_iter().zip(cases);
    all.filter(|&(place, _)| one[place] != two[place])
        .map(|(_, &case)| case)
        .collect()
}

/// What the values of [`VALUES`] have to show in an edition.
fn must_show_of_values(edition: u8) -> Vec<String> {
    let mut all = Vec::new();
    for (what, numbers) in VALUES {
        let marks = what.starts_with("marks");
        for form in 0..4 {
            let kept = edition != OLDER && numbers[0] <= 16 && (!marks || form != 3);
            let kept = kept && numbers[0] != 6;
            let said = if kept { [0, 0] } else { [4, 8] };
            all.push(of(edition, &value_case(what, form, said)));
        }
    }
    all
}

/// What streets with bike lanes have to show in an edition.
fn must_show_of_streets(edition: u8) -> Vec<String> {
    let mut cases = Vec::new();
    for form in [1, 2] {
        cases.extend(BESIDE.map(|beside| mixed_case(form, beside)));
        for (ways, lanes) in (1..=3).flat_map(|ways| [1, 2, 3].map(|lanes| (ways, lanes))) {
            for marks in [0, TURN_LANE & all_marks(edition)] {
                let path = Segment::path(end(0, 0), end(0, 1), 1).ways(ways);
                cases.push(marked_case(&path.street(form, lanes, 25, 0, marks)));
            }
        }
        for (limit, below) in limits(form).iter().flat_map(|l| BELOW.map(|b| (*l, b))) {
            cases.push(reach_case(form, limit, below, false));
            if edition != OLDER {
                cases.push(reach_case(form, limit, below, true));
                cases.push(widened_case(form, limit));
            }
        }
    }
    cases.extend((1..=3).map(lanes_case));
    cases.iter().map(|case| of(edition, case)).collect()
}

/// Everything that comparisons have to show of editions.
pub fn must_show() -> Vec<String> {
    let mut all = Vec::new();
    for edition in EDITIONS {
        all.extend(must_show_of_values(edition));
        all.extend(must_show_of_streets(edition));
        let last = if edition == OLDER { 4 } else { 5 };
        for passes in [false, true] {
            all.extend((0..=last).map(|control| of(edition, &control_case(control, passes))));
        }
    }
    all.extend(NO_EDITIONS.map(|byte| head_case(byte, 4)));
    all.extend(DIFFERENCES.map(differs));
    all
}

#[cfg(test)]
mod tests {
    use super::{differences, newer_level};
    use splicereel::ffi::Told;
    use towns::town::{Segment, end};

    /// The note's rules in terms of edition 01, by hand.
    #[test]
    fn levels_of_the_note() {
        let path = Segment::path(end(0, 2), end(1, 6), 500);
        for (ways, form, [lanes, speed, reach, marks], level) in [
            (3, 1, [1, 25, 27, 0], (1, 5)),
            (3, 1, [1, 25, 27, 16], (1, 1)),
            (1, 2, [3, 25, 12, 0], (2, 5)),
            (3, 2, [3, 25, 12, 0], (3, 1)),
            (3, 2, [1, 26, 12, 9], (3, 4)),
            (3, 2, [1, 26, 12, 11], (2, 5)),
            (3, 1, [1, 26, 23, 17], (3, 2)),
            (3, 1, [1, 26, 24, 17], (2, 2)),
            (3, 1, [1, 26, 26, 17], (2, 3)),
        ] {
            let street = path.ways(ways).street(form, lanes, speed, reach, marks);
            assert_eq!(newer_level(street), level, "{street:?}");
        }
    }

    #[test]
    fn answers_that_differ() {
        let found = |length, level, tolerance| [1, 1, length, level, tolerance, 0, 0, 0];
        let none = Told::default();
        let one = found(900, 2, 2);
        assert!(differences(false, &none, &none).is_empty());
        assert!(differences(false, &one, &found(900, 2, 7)).is_empty());
        assert_eq!(
            differences(false, &one, &none),
            ["route: found in 01 alone"]
        );
        assert_eq!(
            differences(false, &none, &one),
            ["route: found in 02 alone"]
        );
        let other = found(800, 1, 1);
        let both = ["route: another length", "route: another level"];
        assert_eq!(differences(false, &one, &other), both);
        let both = ["least: another length", "least: another tolerance"];
        assert_eq!(differences(true, &one, &other), both);
    }
}
