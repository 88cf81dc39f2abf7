//! Pictures of random towns: well formed, every street drawn once at its level,
//! every one-way street with its arrow, and the route where there is one.

mod common;

use common::xml::{Point, Xml};
use common::{GRID, Json, run, table};
use oracle::Net;
use towns::Town;
use towns::draw::{Rng, Shape, town_of};
use towns::edition::EDITIONS;
use towns::town::Segment;

/// Names that a careless writer would let out of their place.
const NAMES: [&str; 5] = ["A & B", "<b>", "\"quoted\"", "it's \\| \\", "]]>"];

/// Random towns of every shape as tables, some of their names odd ones; and a
/// question about each.
fn described(map: bool) -> impl Iterator<Item = (Town, String, [String; 3])> {
    (0..4 * Shape::ALL.len() as u64).map(move |seed| {
        let mut rng = Rng::new(seed);
        let size = rng.range(1, 40);
        let shape = Shape::ALL[seed as usize % Shape::ALL.len()];
        let edition = EDITIONS[seed as usize / Shape::ALL.len() % EDITIONS.len()];
        let town = town_of(edition, shape, 300 + seed, size);
        let mut table = table(&town, map.then_some(GRID));
        for (place, name) in NAMES.iter().enumerate() {
            table = table.replace(&format!("| Place {place} |"), &format!("| {name} |"));
            table = table.replace(&format!("| Street {place} |"), &format!("| {name} |"));
        }
        let nodes = usize::from(town.nodes);
        let asked =
            [rng.below(nodes), rng.below(nodes), rng.range(1, 4)].map(|number| number.to_string());
        (town, table, asked)
    })
}

/// The answer's status, and the nodes that each run of the route leaves and
/// reaches.
fn ridden(table: &str, [from, to, tolerance]: &[String; 3]) -> (Option<i32>, Vec<[usize; 2]>) {
    let said = run(
        &["route", "-", from, to, tolerance, "--json"],
        table.as_bytes(),
    );
    let answer = Json::read(&said.out);
    let runs = match said.status {
        Some(0) => answer.get("runs").list(),
        _ => &[],
    };
    let ends = |run: &Json| ["from", "to"].map(|end| run.get(end).number());
    (said.status, runs.iter().map(ends).collect())
}

#[test]
fn maps_show_every_street_and_the_route() {
    let mut drawn = 0;
    for (town, table, asked) in described(true) {
        let [from, to, tolerance] = &asked;
        let said = run(&["draw", "-", from, to, tolerance], table.as_bytes());
        let (status, runs) = ridden(&table, &asked);
        assert_eq!((said.status, said.err.as_str()), (status, ""));
        let picture = Xml::read(&said.out);
        let nodes = picture.group("nodes").circles;
        assert_eq!(nodes.len(), usize::from(town.nodes));
        streets(&town, &picture, &nodes);
        let one_way = town.segments.iter().filter(|segment| segment.ways != 3);
        let one_way = one_way.map(|segment| match (nodes_of(segment), segment.ways) {
            ([a, b], 1) => [a, b],
            ([a, b], _) => [b, a],
        });
        arrows(
            &picture.group("one-way").paths,
            &one_way.collect::<Vec<_>>(),
            &nodes,
        );
        // The line twice, from the one node to the other, and an arrow for each run.
        let route = picture.group("route").paths;
        if let [border, line, heads @ ..] = &route[..] {
            let asked = [from, to].map(|node| nodes[node.parse::<usize>().expect("a node")]);
            assert_eq!([border, line].map(|line| ends(line)), [asked, asked]);
            arrows(heads, &runs, &nodes);
        }
        assert_eq!(route.is_empty(), runs.is_empty());
        drawn += usize::from(!runs.is_empty());
    }
    assert!(drawn > 10, "{drawn} routes");
}

/// The nodes of a segment's ends.
fn nodes_of(segment: &Segment) -> [usize; 2] {
    [segment.a, segment.b].map(|end| usize::from(end.node))
}

/// Each street is drawn once, from its A end to its B end, as the oracle's
/// level is drawn.
fn streets(town: &Town, picture: &Xml, nodes: &[Point]) {
    let oracle = Net::parse(&town.bytes()).expect("a network");
    for level in 1..=4 {
        let drawn = picture.group(&format!("level-{level}")).paths;
        let judged = |s: &usize| oracle.segment(*s).expect("a segment").0 == level;
        let due = (0..town.segments.len()).filter(judged);
        let due = due.map(|s| nodes_of(&town.segments[s]).map(|node| nodes[node]));
        assert!(drawn.iter().map(|path| ends(path)).eq(due), "level {level}");
    }
}

/// Each arrow points from the one node to the other, where they are two that
/// lie apart: its tip comes first, and what is behind its middle third.
fn arrows(drawn: &[Vec<Point>], due: &[[usize; 2]], nodes: &[Point]) {
    assert_eq!(drawn.len(), due.len());
    for (arrow, [from, to]) in drawn.iter().zip(due) {
        let (tip, notch, start, end) = (arrow[0], arrow[2], nodes[*from], nodes[*to]);
        let along = (tip.0 - notch.0) * (end.0 - start.0) + (tip.1 - notch.1) * (end.1 - start.1);
        assert!(along > 0.0 || start == end, "{arrow:?}");
    }
}

/// The first and the last point of a path.
fn ends(path: &[Point]) -> [Point; 2] {
    [path[0], path[path.len() - 1]]
}

#[test]
fn graphs_have_an_edge_for_every_street_and_run() {
    for (town, table, asked) in described(false) {
        let [from, to, tolerance] = &asked;
        let said = run(&["draw", "-", from, to, tolerance], table.as_bytes());
        let (status, runs) = ridden(&table, &asked);
        let runs = runs.len();
        assert_eq!((said.status, said.err.as_str()), (status, ""));
        let bare = without_strings(&said.out);
        // The legend has four.
        assert_eq!(bare.matches(" -> ").count(), town.segments.len() + runs + 4);
        assert_eq!(bare.matches("peripheries").count(), usize::from(from != to));
        let arrows = |way: &str| bare.matches(&format!("dir={way}")).count();
        let one_way = town
            .segments
            .iter()
            .filter(|segment| segment.ways != 3)
            .count();
        assert_eq!(arrows("forward") + arrows("back"), one_way + runs);
        assert_eq!(
            (bare.matches('{').count(), bare.matches('}').count()),
            (2, 2)
        );
    }
}

/// A text of DOT without what stands between quotes.
fn without_strings(dot: &str) -> String {
    let mut bare = String::new();
    let (mut inside, mut escaped) = (false, false);
    for character in dot.chars() {
        let quote = character == '"' && !escaped;
        escaped = inside && character == '\\' && !escaped;
        inside ^= quote;
        assert!(
            !inside || character != '\n',
            "a string that does not end in its line"
        );
        if !inside && !quote {
            bare.push(character);
        }
    }
    assert!(!inside && !bare.contains('\\'));
    bare
}
