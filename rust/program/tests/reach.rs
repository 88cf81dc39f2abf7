//! Reach maps and nearest places of random towns, as texts and as tables: what
//! the program says is what the slow oracle says.

mod common;

use common::{Json, run, some_towns, table};
use oracle::{Net, Ways};
use std::collections::{BTreeMap, BTreeSet};
use towns::Town;
use towns::draw::Rng;

fn ways(town: &Town) -> Ways {
    Ways::over(Net::parse(&town.bytes()).expect("a network"))
}

/// Each node within a tolerance and a greatest length, with its least length.
fn map(ways: &mut Ways, from: usize, tolerance: usize, greatest: usize) -> BTreeMap<usize, u32> {
    let map = ways.reach_map(from, tolerance, greatest, usize::MAX);
    map.expect("no refusal").into_iter().collect()
}

/// The answer for scripts to these words about a town, and its status.
fn ask(town: &Town, words: &[String]) -> (Option<i32>, Json) {
    let words: Vec<&str> = words.iter().map(String::as_str).collect();
    let said = run(&words, &town.text());
    assert_eq!(said.err, "");
    (said.status, Json::read(&said.out))
}

#[test]
fn maps_are_the_oracles() {
    let (mut cut, mut whole) = (0, 0);
    for (mut rng, town) in some_towns(4) {
        let mut ways = ways(&town);
        for _ in 0..4 {
            let (from, tolerance) = (rng.below(town.nodes.into()), rng.range(1, 4));
            let all = map(&mut ways, from, tolerance, usize::MAX);
            // As long as one of them, or a foot less, or without a limit.
            let least: Vec<u32> = all.values().copied().collect();
            let feet = rng.pick(&least) as usize;
            let greatest = rng.pick(&[feet, feet, feet.saturating_sub(1), usize::MAX]);
            let due = map(&mut ways, from, tolerance, greatest);
            let words = [from, tolerance, greatest].map(|number| number.to_string());
            reached(&town, &due, &words, rng.chance(50));
            match due.len() < all.len() {
                true => cut += 1,
                false => whole += 1,
            }
        }
    }
    assert!(cut > 60 && whole > 60, "{cut} cut, {whole} whole");
}

/// Asks for a map, and holds the answer to this one.
fn reached(town: &Town, due: &BTreeMap<usize, u32>, asked: &[String; 3], nearest_first: bool) {
    let mut words = vec!["reach".into(), "-".into(), "--json".into()];
    words.extend_from_slice(asked);
    let mut due_rows: Vec<(usize, u32)> = due.iter().map(|(node, feet)| (*node, *feet)).collect();
    if nearest_first {
        words.push("--nearest-first".into());
        due_rows.sort_by_key(|(node, feet)| (*feet, *node));
    }
    let (status, answer) = ask(town, &words);
    assert_eq!((status, answer.get("answer").text()), (Some(0), "reach"));
    let rows = answer.get("reached").list().iter();
    let rows = rows.map(|row| (row.get("node").number(), row.get("feet").number() as u32));
    assert!(rows.eq(due_rows), "{words:?}: {answer:?}");
    let told = [
        answer.get("from").get("node"),
        answer.get("asked"),
        answer.get("greatest"),
    ];
    assert_eq!(told.map(Json::text), asked.each_ref().map(String::as_str));
    streets(town, due, asked[1].parse().expect("a tolerance"), &answer);
}

/// The feet of street: those within the tolerance with both ends in the map.
fn streets(town: &Town, due: &BTreeMap<usize, u32>, tolerance: u8, answer: &Json) {
    let oracle = Net::parse(&town.bytes()).expect("a network");
    let (mut within, mut all) = (0, 0);
    for (s, segment) in town.segments.iter().enumerate() {
        let ends = [segment.a, segment.b].map(|end| usize::from(end.node));
        let level = oracle.segment(s).expect("a segment").0;
        all += segment.length as usize;
        if level <= tolerance && ends.iter().all(|node| due.contains_key(node)) {
            within += segment.length as usize;
        }
    }
    let told = ["within", "all"].map(|field| answer.get("street_feet").get(field).number());
    assert_eq!(told, [within, all]);
}

#[test]
fn nearest_places_are_the_oracles() {
    let (mut found, mut ties, mut none) = (0, 0, 0);
    for (mut rng, town) in some_towns(4) {
        let mut ways = ways(&town);
        for _ in 0..6 {
            let (from, tolerance) = (rng.below(town.nodes.into()), rng.range(1, 4));
            let lengths = map(&mut ways, from, tolerance, usize::MAX);
            let places = places(&mut rng, &town, &lengths);
            let Some(feet) = nearest(&town, &mut ways, from, tolerance, &places) else {
                none += 1;
                continue;
            };
            let near: BTreeSet<&usize> = places
                .iter()
                .filter(|place| lengths.get(place) == Some(&feet))
                .collect();
            found += 1;
            ties += usize::from(near.len() > 1);
        }
    }
    let told = format!("{found} found, {ties} of them tied, {none} none");
    assert!(found > 100 && ties > 20 && none > 30, "{told}");
}

/// Some places, now and then with all that are as far as one of them, or with
/// one of them twice.
fn places(rng: &mut Rng, town: &Town, lengths: &BTreeMap<usize, u32>) -> Vec<usize> {
    let count = rng.range(1, 4);
    let mut places: Vec<usize> = (0..count).map(|_| rng.below(town.nodes.into())).collect();
    let one = rng.pick(&places);
    let tied = |node: &usize| lengths.get(node) == lengths.get(&one);
    match rng.below(3) {
        0 => places.push(one),
        1 => places.extend(lengths.keys().copied().filter(tied)),
        _ => {}
    }
    rng.shuffle(&mut places);
    places
}

/// Asks for the nearest place, and holds the answer to the oracle's; its
/// length, where there is one.
fn nearest(
    town: &Town,
    ways: &mut Ways,
    from: usize,
    tolerance: usize,
    places: &[usize],
) -> Option<u32> {
    let mut marks = vec![0; town.nodes.into()];
    places.iter().for_each(|place| marks[*place] = 1);
    let mut due = |tolerance| ways.nearest(from, tolerance, &marks).expect("no refusal");
    let mut words = vec!["nearest".into(), "--json".into(), "-".into()];
    words.extend([from, tolerance].map(|number| number.to_string()));
    words.extend(places.iter().map(usize::to_string));
    let (status, answer) = ask(town, &words);
    let told = (status, answer.get("answer").text());
    let asked = answer
        .get("places")
        .list()
        .iter()
        .map(|place| place.get("node").number());
    let given = (0..marks.len()).filter(|node| marks[*node] == 1);
    assert!(asked.eq(given), "{words:?}: {answer:?}");
    if let Some(entry) = due(tolerance) {
        assert_eq!(told, (Some(0), "found"));
        same(&answer, entry);
        return Some(entry.1);
    }
    assert_eq!(told, (Some(1), "none"));
    let least = answer.get("least");
    match (tolerance + 1..=4).find_map(|higher| Some((higher, due(higher)?))) {
        None => assert_eq!(least.text(), "null"),
        Some((higher, entry)) => {
            assert_eq!(least.get("tolerance").number(), higher);
            same(least, entry);
        }
    }
    None
}

/// An answer has this node and this length.
fn same(answer: &Json, (node, feet): (usize, u32)) {
    assert_eq!(answer.get("nearest").get("node").number(), node);
    assert_eq!(answer.get("feet").number(), feet as usize);
}

/// Places by name, and pages: their rows are those for scripts.
#[test]
fn names_and_numbers_say_the_same() {
    for (mut rng, town) in some_towns(2) {
        let described = table(&town, None);
        let from = rng.below(town.nodes.into());
        let (place, tolerance) = (format!("place {from}"), rng.range(1, 4).to_string());
        let asked = ["-", &place, &tolerance, "3000"];
        let page = run(&[&["reach"], &asked[..]].concat(), described.as_bytes());
        let told = run(
            &[&["reach", "--json"], &asked[..]].concat(),
            described.as_bytes(),
        );
        assert_eq!((page.status, told.status), (Some(0), Some(0)));
        let answer = Json::read(&told.out);
        let rows = page
            .out
            .lines()
            .skip_while(|line| !line.starts_with("  Node"));
        let rows = rows.skip(1).take_while(|line| !line.is_empty());
        let cells = |row: &str| {
            row.split_whitespace()
                .map(str::to_string)
                .collect::<Vec<_>>()
        };
        let due = answer.get("reached").list().iter().map(|row| {
            let words = ["node", "place", "feet", "miles"].map(|field| row.get(field).text());
            cells(&words.join(" "))
        });
        assert!(rows.map(cells).eq(due), "{}", page.out);
        let words = ["nearest", "-", "0", "4", &place, &place.to_uppercase()];
        let named = run(&words, described.as_bytes());
        let plain = run(
            &["nearest", "-", "0", "4", &from.to_string()],
            described.as_bytes(),
        );
        assert_eq!((named.status, named.out), (plain.status, plain.out));
    }
}
