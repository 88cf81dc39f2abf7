//! What the program says is what the slow oracle says: of random towns, as
//! texts and as tables, and of texts that are refused.

mod common;

use common::shown::Refused;
use common::{GRID, Json, MEASURES, run, some_towns, table};
use oracle::Net;
use towns::Town;
use towns::draw::{Rng, Shape, Spot, damage, town_of};
use towns::town::{Approach, COUNTY, NEWER, OLDER, Segment};

#[test]
fn levels_are_the_oracles() {
    for (_, town) in some_towns(4) {
        let oracle = Net::parse(&town.bytes()).expect("a network");
        let said = run(&["levels", "-", "--json"], &town.text());
        assert_eq!((said.status, said.err.as_str()), (Some(0), ""));
        let answer = Json::read(&said.out);
        assert_eq!(answer.get("edition").number(), usize::from(town.edition));
        let rows = answer.get("segments").list();
        assert_eq!(rows.len(), oracle.segments());
        for (s, (row, segment)) in rows.iter().zip(&town.segments).enumerate() {
            let (level, measure) = oracle.segment(s).expect("a segment");
            assert_eq!(row.get("level").number(), usize::from(level));
            assert_eq!(
                row.get("measure").text(),
                MEASURES[usize::from(measure) - 1]
            );
            assert_eq!(row.get("a").number(), usize::from(segment.a.node));
            assert_eq!(row.get("b").number(), usize::from(segment.b.node));
            assert_eq!(row.get("feet").number(), segment.length as usize);
        }
    }
}

#[test]
fn routes_are_the_oracles() {
    let (mut found, mut none) = (0, 0);
    for (mut rng, town) in some_towns(4) {
        let nodes = usize::from(town.nodes);
        for _ in 0..4 {
            let (from, to) = (rng.below(nodes), rng.below(nodes));
            let limit = rng.pick(&["1", "2", "3", "4", "least"]);
            match routed(&town, from, to, limit) {
                true => found += 1,
                false => none += 1,
            }
        }
    }
    assert!(found > 60 && none > 20, "{found} found, {none} none");
}

/// Counties of edition 03, with as many segments as their shape lets them have.
#[test]
fn routes_of_counties_are_the_oracles() {
    let shapes = [
        Shape::Tree,
        Shape::Ties,
        Shape::Maze,
        Shape::Wild,
        Shape::Sparse,
    ];
    let (mut rng, mut found) = (Rng::new(31), 0);
    for (seed, shape) in (60..).zip(shapes) {
        let county = town_of(3, shape, seed, 8_000);
        assert!(county.segments.len() > 1_000, "{shape:?}");
        for limit in ["3", "4", "least"] {
            let nodes = usize::from(county.nodes);
            let (from, to) = (rng.below(nodes), rng.below(nodes));
            found += u32::from(routed(&county, from, to, limit));
        }
    }
    assert!(found >= 6, "{found} found");
}

/// Asks for a route, and holds the answer to the oracle; whether there is one.
fn routed(town: &Town, from: usize, to: usize, limit: &str) -> bool {
    let (start, end) = (from.to_string(), to.to_string());
    let said = run(&["route", "-", &start, &end, limit, "--json"], &town.text());
    assert_eq!(said.err, "");
    let answer = Json::read(&said.out);
    let told = (said.status, answer.get("answer").text());
    let oracle = Net::parse(&town.bytes()).expect("a network");
    let movements = oracle.movements();
    let feet = |tolerance: u8| oracle.lengths(&movements, from, tolerance)[to];
    let least = (1..=4).find_map(|tolerance| Some((tolerance, feet(tolerance)?)));
    let due = match limit.parse() {
        Ok(tolerance) => feet(tolerance).map(|feet| (tolerance, feet)),
        Err(_) => least,
    };
    let Some((tolerance, feet)) = due else {
        assert_eq!(told, (Some(1), "none"));
        match least {
            Some(least) => same(answer.get("least"), least),
            None => assert_eq!(answer.get("least").text(), "null"),
        }
        return false;
    };
    assert_eq!(told, (Some(0), "found"));
    same(&answer, (tolerance, feet));
    let runs = answer
        .get("runs")
        .list()
        .iter()
        .map(|run| run.get("run").number() as u16);
    let (runs, level): (Vec<u16>, usize) = (runs.collect(), answer.get("level").number());
    let ridden = oracle.check_route(from, to, tolerance, &runs, runs.len(), feet, level as u8);
    ridden.expect("a route");
    corners(town, &runs, answer.get("corners").list());
    true
}

/// An answer has this tolerance and length.
fn same(answer: &Json, (tolerance, feet): (u8, u32)) {
    assert_eq!(answer.get("tolerance").number(), usize::from(tolerance));
    assert_eq!(answer.get("feet").number(), feet as usize);
}

/// Each corner's level is the oracle's, and so is what decided it: the part
/// without which the level is lower.
fn corners(town: &Town, runs: &[u16], corners: &[Json]) {
    let judge = |town: &Town, p: u16, q: u16| {
        let net = Net::parse(&town.bytes()).expect("a network");
        net.movement(p.into(), q.into()).expect("a movement")
    };
    assert_eq!(corners.len(), runs.len().saturating_sub(1));
    for (pair, corner) in runs.windows(2).zip(corners) {
        let (p, q) = (pair[0], pair[1]);
        let level = judge(town, p, q);
        assert_eq!(corner.get("level").number(), usize::from(level));
        assert_eq!(
            corner.get("right_hand_exit").text(),
            right_hand(town, p, q).to_string()
        );
        let alone =
            |change: fn(Approach) -> Approach| judge(&changed(town, p, change), p, q) == level;
        let crossing = alone(|met| met.turning(0, 0, 0));
        let turn_lane = alone(|met| Approach {
            control: 0,
            lanes: 0,
            speed: 0,
            ..met
        });
        let decided = [(crossing, "crossing"), (turn_lane, "turn lane")];
        let decided = decided
            .into_iter()
            .filter(|(decides, _)| *decides && level > 1);
        let said = corner.get("decided_by").list().iter().map(Json::text);
        assert!(said.eq(decided.map(|(_, name)| name)), "{corner:?}");
    }
}

/// The town with another approach where a run arrives.
fn changed(town: &Town, run: u16, change: fn(Approach) -> Approach) -> Town {
    let mut town = town.clone();
    let segment = &mut town.segments[usize::from(run / 2)];
    match run % 2 {
        0 => segment.at_b = change(segment.at_b),
        _ => segment.at_a = change(segment.at_a),
    }
    town
}

/// Whether the second run leaves by the used leg next below the one by which
/// the first arrives.
fn right_hand(town: &Town, p: u16, q: u16) -> bool {
    let ends = |run: u16| {
        let Segment { a, b, .. } = town.segments[usize::from(run / 2)];
        if run & 1 == 0 { (a, b) } else { (b, a) }
    };
    let (arrival, leaving) = (ends(p).1, ends(q).0);
    let used = |leg: u8| {
        let all = town
            .segments
            .iter()
            .flat_map(|segment| [segment.a, segment.b]);
        all.into_iter()
            .any(|end| (end.node, end.leg) == (arrival.node, leg))
    };
    let below = (1..8).map(|step| (arrival.leg + 8 - step) % 8);
    below.into_iter().find(|leg| used(*leg)) == Some(leaving.leg)
}

#[test]
fn tables_and_texts_say_the_same() {
    for (mut rng, town) in some_towns(4) {
        let described = table(&town, rng.chance(50).then_some(GRID));
        let text = run(&["text", "-"], described.as_bytes());
        assert_eq!(
            (text.status, text.out.as_bytes()),
            (Some(0), &town.text()[..])
        );
        let nodes = usize::from(town.nodes);
        let (from, to) = (rng.below(nodes), rng.below(nodes));
        let (place, other) = (format!("Place {from}"), format!("place {to}"));
        let named = run(
            &["route", "-", &place, &other, "least", "--json"],
            described.as_bytes(),
        );
        let plain = run(
            &[
                "route",
                "-",
                &from.to_string(),
                &to.to_string(),
                "least",
                "--json",
            ],
            &town.text(),
        );
        let (named_answer, plain_answer) = (Json::read(&named.out), Json::read(&plain.out));
        assert_eq!(named.status, plain.status);
        for field in ["answer", "asked"] {
            assert_eq!(named_answer.get(field), plain_answer.get(field));
        }
        assert_eq!(named_answer.get("from").get("place").text(), place);
    }
}

/// What of a town is above the limits of edition 02, as it is named: a count, or
/// else the first segment that is too long.
fn above(town: &Town) -> Option<String> {
    let counts = [usize::from(town.nodes), town.segments.len()].into_iter();
    let mut counts = counts.zip(["nodes", "segments"]);
    let count = counts.find(|(count, _)| *count > 1_000);
    let lengths = (0..).zip(town.segments.iter().map(|segment| segment.length));
    let mut long = lengths.filter(|(_, feet)| *feet > 52_800);
    match count {
        Some((count, name)) => Some(format!("{count} {name}: edition 02 has ")),
        None => long
            .next()
            .map(|(number, feet)| format!("segment {number}: length is {feet} and must be ")),
    }
}

/// A town's text of the other edition is the same town's, whether it is given as
/// a text or as a table; what has none is told.
#[test]
fn moved_towns_are_the_same_towns() {
    let mut moved = [0; 2];
    for (mut rng, town) in some_towns(4) {
        let file = match rng.chance(50) {
            true => town.text(),
            false => table(&town, rng.chance(50).then_some(GRID)).into_bytes(),
        };
        let (to, edition, refused) = match town.edition {
            NEWER => ("03", COUNTY, None),
            COUNTY => ("02", NEWER, above(&town).map(|words| (17, words))),
            _ => (
                rng.pick(&["02", "03"]),
                OLDER,
                Some((16, "edition 01".into())),
            ),
        };
        moved[usize::from(refused.is_some())] += 1;
        let said = run(&["convert", "-", to], &file);
        if let Some((number, words)) = refused {
            // A table's streets have names.
            let err = said.err.replace("): length", ": length");
            let number = format!("splicereel: standard input: refused, number {number}: ");
            assert!(err.starts_with(&number) && err.contains(&words), "{err}");
            assert_eq!((said.status, said.out.as_str()), (Some(2), ""));
        } else {
            let due = town.edition(edition).text();
            assert_eq!((said.status, said.err.as_str()), (Some(0), ""));
            assert_eq!(said.out.as_bytes(), due);
        }
    }
    assert!(moved.into_iter().all(|count| count > 60), "{moved:?}");
}

/// Refusal and line of damaged texts are the oracle's, and the words say more
/// than the refusal's own.
#[test]
fn refusals_are_the_oracles() {
    let mut rng = Rng::new(15);
    let mut tried = 0;
    for (_, town) in some_towns(3) {
        for (number, spot) in (1..=6).flat_map(|number| Spot::ALL.map(|spot| (number, spot))) {
            let Some(damaged) = damage(&mut rng, &town, number, spot) else {
                continue;
            };
            tried += 1;
            let said = run(&["check", "-", "--json"], &damaged.text);
            let answer = Json::read(&said.out);
            let refused = Refused::of(&damaged.text).expect("a refusal");
            let told = (answer.get("refusal").number(), answer.get("line").number());
            let due = (usize::from(refused.refusal), refused.number);
            assert_eq!(told, due, "{}", damaged.what);
            assert_eq!(said.status, Some(2));
            let words = answer.get("words").text();
            let plain = splicereel::Refusal::from_number(u32::from(number)).to_string();
            assert_ne!(words, plain, "{}", damaged.what);
            let (first, below) = said.err.split_once('\n').expect("a line");
            let end = format!("line {}: {words}", refused.number);
            assert!(first.ends_with(&end), "{first}");
            on_the_screen(&refused, below, &answer);
        }
    }
    assert!(tried > 400, "{tried}");
}

/// The refused line is shown as it must be, and scripts are told the same.
fn on_the_screen(refused: &Refused<'_>, below: &str, answer: &Json) {
    let bytes = |field: &Json| {
        let start = field.get("start").number();
        start..start + field.get("length").number()
    };
    let null = Json::Plain("null".into());
    let part = refused.start..refused.start + refused.line.len();
    assert_eq!(bytes(answer.get("part")), part, "{below}");
    let mark = refused.mark(below).expect(below);
    let told = Some(answer.get("mark")).filter(|mark| **mark != null);
    assert_eq!(told.map(bytes), mark, "{below}");
    let fields = answer.get("fields");
    if refused.refusal != 4 {
        assert_eq!(*fields, null);
        return;
    }
    let mut digits = String::new();
    for field in fields.list() {
        let own = field.get("digits").text();
        let number = usize::from_str_radix(own, 16).expect("digits");
        assert_eq!(field.get("number").number(), number);
        let row = below
            .lines()
            .find(|row| row.contains(field.get("field").text()));
        assert!(row.expect(below).contains(own), "{below}");
        digits += own;
    }
    assert_eq!(digits.as_bytes(), refused.line);
}

/// A refused table has no line of a text to show.
#[test]
fn tables_have_no_part() {
    let town = towns::town::block_town();
    let wrong = table(&town, None).replace("| 900 |", "| 52801 |");
    let said = run(&["check", "-", "--json"], wrong.as_bytes());
    assert_eq!((said.status, said.err.lines().count()), (Some(2), 1));
    let answer = Json::read(&said.out);
    assert_eq!(answer.get("refusal").number(), 4);
    for field in ["part", "mark", "fields"] {
        assert_eq!(answer.get(field).text(), "null");
    }
}
