//! The program reads the largest county that there is, as a text and as a table,
//! and answers every command about it as arithmetic does, within seconds.

mod common;
#[path = "../../splicereel/tests/county/mod.rs"]
mod county;

use common::{Json, SEGMENTS, Said, run};
use county::{FEET, OutAndBack};
use std::time::{Duration, Instant};

const COUNTY: OutAndBack = OutAndBack::LARGEST;

/// The county as a table, its nodes on a map, a hundred in a row.
fn table() -> String {
    let (end, last) = (COUNTY.end(), COUNTY.last());
    let mut table = "| edition |\n|---|\n| 03 |\n\n".to_string();
    table += "| node | place | x | y |\n|---|---|---|---|\n";
    for node in 0..=end {
        let (x, y) = (node % 100 * 90_000, node / 100 * 100_000);
        table += &format!("| {node} | Mile {node} | {x} | {y} |\n");
    }
    table += &format!("\n{SEGMENTS}");
    let mut row = |segment: usize, a: [usize; 2], b: [usize; 2], ways: &str, at_b: &str| {
        let [a, b] = [a, b].map(|[node, leg]| format!("{node} | {leg}"));
        table += &format!(
            "| {segment} | Long Road | {a} | {b} | 264,000 | path | {ways} | - | - | - | - | {at_b} | nothing |\n"
        );
    };
    row(0, [0, 0], [1, 4], "A to B", "no island 12 lanes 85 mph");
    for node in 1..last {
        row(node, [node, 2], [node + 1, 6], "both", "nothing");
    }
    row(last, [last, 0], [last, 4], "both", "nothing");
    row(end, [1, 0], [end, 4], "A to B", "nothing");
    table
}

/// What the program says of the county's text.
fn said(words: &[&str]) -> Said {
    said_of(words, &COUNTY.text())
}

/// What the program says of a file, within a time that no busy machine needs.
fn said_of(words: &[&str], file: &[u8]) -> Said {
    let start = Instant::now();
    let said = run(words, file);
    let took = start.elapsed();
    println!("{took:?} {words:?}");
    assert!(took < Duration::from_secs(10), "{words:?} took {took:?}");
    assert_eq!(said.err, "");
    said
}

fn json(words: &[&str]) -> Json {
    Json::read(&said(&[words, &["--json"]].concat()).out)
}

#[test]
fn a_county_is_in_order() {
    let page = said(&["check", "-"]).out;
    let due = "standard input: in order, edition 03, nodes 8000, segments 8000\n";
    assert_eq!(page, due);
    let levels = json(&["levels", "-"]);
    let rows = levels.get("segments").list();
    assert_eq!(rows.len(), 8_000);
    for (number, row) in rows.iter().enumerate() {
        assert_eq!(row.get("segment").number(), number);
        assert_eq!(row.get("feet").number(), FEET as usize);
        let told = ["level", "measure"].map(|field| row.get(field).text());
        assert_eq!(told, ["1", "separate path"]);
    }
}

/// The quiet way is longer than 31 bits tell.
#[test]
fn routes_are_out_and_back() {
    let (start, end) = ("0", COUNTY.end().to_string());
    let [out, back] = COUNTY.halves();
    for tolerance in ["1", "least"] {
        let answer = json(&["route", "-", start, &end, tolerance]);
        let told = ["feet", "miles", "level"].map(|field| answer.get(field).text());
        assert_eq!(told, ["4223208000", "799850.00", "1"]);
        let runs = answer.get("runs").list();
        let numbers = runs.iter().map(|run| run.get("run").number());
        let turned = COUNTY.last();
        let row: Vec<usize> = numbers.filter(|run| run / 2 != turned).collect();
        assert_eq!(row, [&out[..], &back].concat());
        assert_eq!(runs.len(), COUNTY.runs());
        let corners = answer.get("corners").list();
        assert_eq!(corners.len(), COUNTY.runs() - 1);
        let level = |corner: &Json| corner.get("level").number();
        assert!(corners.iter().all(|corner| level(corner) == 1));
    }
    let page = said(&["route", "-", start, &end, "3"]).out;
    assert!(page.contains("\nLength     4223208000 ft, 799850.00 mi\n"));
    assert!(page.contains("\nRuns       15997\n"));
}

/// Straight on at the corner is level 4; there is no way back to the start.
#[test]
fn corners_and_nothing() {
    let end = COUNTY.end().to_string();
    let answer = json(&["route", "-", "0", &end, "4"]);
    assert_eq!(answer.get("feet").number(), 2 * FEET as usize);
    let [corner] = answer.get("corners").list() else {
        panic!("{answer:?}");
    };
    assert_eq!(corner.get("level").number(), 4);
    assert_eq!(corner.get("right_hand_exit").text(), "false");
    let [decided] = corner.get("decided_by").list() else {
        panic!("{corner:?}");
    };
    assert_eq!(decided.text(), "crossing");
    let none = said(&["route", "-", &end, "0", "least"]);
    assert_eq!(none.status, Some(1));
    let words = "No way leads from the one to the other, at any tolerance.\n";
    assert!(none.out.ends_with(words), "{}", none.out);
}

#[test]
fn reach_and_the_nearest() {
    let end = COUNTY.end();
    let answer = json(&["reach", "-", "0", "3", "4223207999"]);
    let entries = answer.get("reached").list();
    assert_eq!(entries.len(), end);
    for (node, entry) in entries.iter().enumerate() {
        assert_eq!(entry.get("node").number(), node);
        assert_eq!(entry.get("feet").number(), node * FEET as usize);
    }
    let page = said(&["reach", "-", "0", "3", "4223208000", "--nearest-first"]).out;
    assert!(page.contains("\nGreatest   4223208000 ft, 799850.00 mi\n"));
    assert!(
        page.contains("  7999  -      4223208000  799850.00\n\nNodes      8000 of 8000, 100 %\n")
    );
    assert!(page.contains("\nStreets    2112000000 of 2112000000 ft, 100 %"));
    let words = ["nearest", "-", "0", "3", &end.to_string()];
    let nearest = json(&words);
    assert_eq!(nearest.get("feet").number(), 4_223_208_000);
}

/// A graph of the text, and a map of the table.
#[test]
fn pictures() {
    let end = COUNTY.end().to_string();
    for words in [
        &["draw", "-", "0", &end, "3"][..],
        &["draw", "--reach", "-", "0", "4", "4294967295"],
    ] {
        let graph = said(words).out;
        assert!(graph.starts_with("digraph") && graph.ends_with("}\n"));
        let map = said_of(words, table().as_bytes()).out;
        assert!(map.starts_with("<svg") && map.ends_with("</svg>\n"));
    }
}

#[test]
fn the_table_is_the_text() {
    let text = said_of(&["text", "-"], table().as_bytes()).out;
    assert!(text.as_bytes() == COUNTY.text());
    let words = ["route", "-", "mile 0", "Mile 7999", "2", "--json"];
    let answer = Json::read(&said_of(&words, table().as_bytes()).out);
    assert_eq!(answer.get("feet").number(), 4_223_208_000);
}

#[test]
fn a_county_has_no_move() {
    for file in [&COUNTY.text()[..], table().as_bytes()] {
        for (edition, due) in [
            (
                "02",
                "17: 8000 nodes: edition 02 has 1 to 1000; edition 03 has 1 to 8000",
            ),
            ("03", "16: the network is of edition 03 already"),
        ] {
            let moved = run(&["convert", "-", edition], file);
            let due = format!("splicereel: standard input: refused, number {due}\n");
            assert_eq!((moved.status, moved.err), (Some(2), due));
        }
    }
}

/// The last line of the largest text, line 8,001, and a line too many.
#[test]
fn the_last_line_is_shown() {
    let text = COUNTY.text();
    let (before, last) = text.split_at(text.len() - 65);
    let wrong = [before, &last[..14], b"00040741", &last[22..]].concat();
    let checked = run(&["check", "-"], &wrong);
    let due = "refused, number 2, line 8001: the check is";
    assert!(checked.err.contains(due), "{}", checked.err);
    assert!(checked.err.contains("\n  8001 | 020001001F3F"));
    let more = [&text[..], last].concat();
    let counted = run(&["levels", "-"], &more);
    let due = "refused, number 5, line 8002: one segment more than the 8000 that the head counts\n";
    assert!(counted.err.contains(due), "{}", counted.err);
}
