//! Each kind of mistake, in a table, in a text or in the call, gets one line on
//! standard error that says what to mend, and status 2. Below it stands the
//! refused line of a text.

mod common;

use common::{SEGMENTS, run};
use std::fs::File;
use std::process::{Command, Stdio};

const NODES: &str = "| node | place |\n|---|---|\n| 0 | here |\n| 1 | there |\n";
const ROW: &str =
    "| 0 | Elm Street | 0 | 2 | 1 | 6 | 500 | path | both | - | - | - | - | nothing | nothing |\n";

/// A description with this row; its rows begin at line 8.
fn with(row: &str) -> String {
    format!("{NODES}\n{SEGMENTS}{row}")
}

/// The row with a cell in place of another.
fn row(old: &str, new: &str) -> String {
    assert!(ROW.contains(old), "{old}");
    with(&ROW.replacen(old, new, 1))
}

/// A street of mixed traffic in place of the path.
fn mixed(old: &str, new: &str) -> String {
    let street = ROW.replace("path | both | - | - | - |", "mixed | both | 2 | 25 | - |");
    assert!(street.contains(old), "{old}");
    with(&street.replacen(old, new, 1))
}

fn says(words: &[&str], input: &[u8], due: &str) {
    shows(words, input, due, &[]);
}

/// The same, with these lines below the one.
fn shows(words: &[&str], input: &[u8], due: &str, below: &[&str]) {
    let said = run(words, input);
    assert_eq!(
        (said.status, said.out.as_str()),
        (Some(2), ""),
        "{}",
        said.err
    );
    let first = format!("splicereel: {due}");
    let due: Vec<&str> = [&[first.as_str()], below].concat();
    assert_eq!(said.err.split_terminator('\n').collect::<Vec<_>>(), due);
    assert!(said.err.ends_with('\n'));
}

fn table_says(table: &str, due: &str) {
    says(
        &["text", "-"],
        table.as_bytes(),
        &format!("standard input: {due}"),
    );
    says(
        &["check", "-"],
        table.as_bytes(),
        &format!("standard input: {due}"),
    );
}

#[test]
fn the_table_without_mistakes_is_taken() {
    let lane = row("nothing |\n", "island 1 lane 25 mph |\n");
    for good in [with(ROW), mixed("| 2 |", "| 2 |"), with(""), lane] {
        assert_eq!(
            run(&["check", "-"], good.as_bytes()).status,
            Some(0),
            "{good}"
        );
    }
}

#[test]
fn tables_that_are_missing_or_broken() {
    let nodes = "there is no table of nodes: a heading that begins with | node | is due";
    let segments = "there is no table of segments: a heading that begins with | segment | is due";
    table_says("| from | to |\n|---|---|\n", nodes);
    table_says(
        &with(ROW).replace("| node |", "| nodes |"),
        &format!("line 1: {nodes}"),
    );
    table_says(NODES, segments);
    table_says(&format!("```\n{}```\n| a |\n", with(ROW)), nodes);
    table_says(
        &with(ROW).replace("| mph |", "| kmh |"),
        "line 6: column 11 of the heading is 'kmh', and mph is due there",
    );
    table_says(
        &with(ROW).replace("| node | place |", "| node | place | x |"),
        "line 1: the heading has 3 columns, and must be | node | place | x | y |",
    );
    table_says(
        &with(ROW).replace("|---|---|\n|", "|"),
        "line 1: a row of dashes, as in |---|---|, is due below this heading",
    );
    table_says(
        &format!("{}\n{NODES}", with(ROW)),
        "line 10: a second table of nodes: its rows belong into the one at line 1",
    );
}

/// The description with a table of its edition above, so that its row begins at
/// line 12.
fn of_edition(row: &str, description: &str) -> String {
    format!("| edition |\n|---|\n{row}\n{description}")
}

#[test]
fn editions_are_taken() {
    let street = mixed("- | - | nothing", "- | turn lane | improved signal");
    for (table, edition) in [
        (with(ROW), "01"),
        (of_edition("| 01 |\n", &with(ROW)), "01"),
        (of_edition("| 1 |\n", &with(ROW)), "01"),
        (of_edition("| 02 |\n", &with(ROW)), "02"),
        (of_edition("| 2 |\n", &street), "02"),
        (of_edition("| 03 |\n", &street), "03"),
        (of_edition("| 3 |\n", &row("500", "264,000")), "03"),
        (format!("{street}\n| edition |\n| --- |\n| 02 |\n"), "02"),
        (
            format!(
                "{street}\n```\n| edition |\n```\n\n{}",
                of_edition("| 02 |\n", "")
            ),
            "02",
        ),
    ] {
        let said = run(&["check", "-"], table.as_bytes());
        let due = format!("standard input: in order, edition {edition}, nodes 2, segments 1\n");
        assert_eq!((said.out, said.err), (due, String::new()));
        let text = run(&["text", "-"], table.as_bytes());
        assert!(
            text.out.starts_with(&format!("01{edition}00020001")),
            "{}",
            text.out
        );
    }
}

#[test]
fn editions_that_are_none() {
    let none = |row: &str, due: &str| table_says(&of_edition(row, &with(ROW)), due);
    none("", "line 1: a row is due in this table: 01, 02 or 03");
    none(
        "| 02 |\n| 01 |\n",
        "line 4: a second edition: a town has one",
    );
    for row in ["0", "04", "30", "-1", "", "two", "-", "99999999999"] {
        let words = format!("line 3: edition is '{row}', and must be 01, 02 or 03");
        none(&format!("| {row} |\n"), &words);
    }
    none("| 02 | new |\n", "line 3: 2 cells, and the heading has 1");
    let two = of_edition("| 02 |\n", &of_edition("| 02 |\n", &with(ROW)));
    table_says(
        &two,
        "line 5: a second table of editions: the edition stands in the one at line 1",
    );
    let named = of_edition("| 02 |\n", &with(ROW));
    table_says(
        &named.replace("|---|\n| 02 |", "| 02 |"),
        "line 1: a row of dashes, as in |---|---|, is due below this heading",
    );
    table_says(
        &named.replace("| 02 |", "\n| 02 |"),
        "line 4: a row of no table: an empty line, or another text, parts it from its heading",
    );
    table_says(
        &named.replace("| edition |", "| Edition |"),
        "line 1: column 1 of the heading is 'Edition', and edition is due there",
    );
    table_says(
        &named.replace("| edition |", "| edition | since |"),
        "line 1: the heading has 2 columns, and must be | edition |",
    );
}

/// The town has to name edition 02 for what only that has.
#[test]
fn words_of_edition_02_alone() {
    let due = "which needs edition 02: a table | edition | with the row | 02 | is due";
    let lane = mixed("- | - | nothing", "- | residential, turn lane | nothing");
    table_says(&lane, &format!("line 8: a mark is 'turn lane', {due}"));
    let [at_b, at_a] = ["nothing | nothing |\n", "nothing |\n"]
        .map(|cells| row(cells, &cells.replacen("nothing", "improved signal", 1)));
    table_says(&at_b, &format!("line 8: at B is 'improved signal', {due}"));
    table_says(&at_a, &format!("line 8: at A is 'improved signal', {due}"));
    table_says(
        &of_edition("| 01 |\n", &at_a),
        &format!("line 12: at A is 'improved signal', {due}"),
    );
    let words = |table: &str, due: &str| table_says(&of_edition("| 02 |\n", table), due);
    words(
        &mixed("- | - | nothing", "- | turnlane | nothing"),
        "line 12: a mark is 'turnlane', and must be one of: centreline, residential, median, blocked, turn lane; did you mean turn lane?",
    );
    words(
        &row("nothing |\n", "improved |\n"),
        "line 12: at A is 'improved', and must be one of: nothing, signal, no island, island, one-way, improved signal",
    );
    words(
        &row("nothing |\n", "improved signal 4 lanes 30 mph |\n"),
        "refused, number 4, line 12: lanes crossed at A is 4 and must be 0 at an improved signal",
    );
    words(
        &row("- | nothing", "turn lane | nothing"),
        "refused, number 4, line 12: marks is 16 and must be 0 on a separate path",
    );
}

#[test]
fn rows_that_would_be_lost() {
    let parted = with(ROW).replace("| 1 | there", "\n| 1 | there");
    table_says(
        &parted,
        "line 5: a row of no table: an empty line, or another text, parts it from its heading",
    );
    table_says(
        &with(ROW).replace("| there |", "| there"),
        "line 4: the row does not end with a bar, |: '| 1 | there'",
    );
    table_says(
        &with(ROW).replace("| 1 | there", "1 | there"),
        "line 4: the row does not begin with a bar, |: '1 | there |'",
    );
    table_says(
        &format!("{}```\n{ROW}", with(ROW)),
        "line 9: the fenced block that begins here does not end",
    );
}

#[test]
fn rows_and_numbers() {
    table_says(
        &with("| 0 | a |\n"),
        "line 8: 2 cells, and the heading has 15",
    );
    table_says(
        &row("| 0 | Elm", "| 1 | Elm"),
        "line 8: the row is numbered '1', and 0 is due",
    );
    table_says(
        &row("500", "long"),
        "line 8: feet is 'long', and must be a whole number",
    );
    table_says(
        &row("500", "12,5"),
        "line 8: feet is '12,5', and must be a whole number",
    );
    table_says(
        &row("500", "99999999999"),
        "line 8: feet is '99999999999', and must be a whole number",
    );
    table_says(
        &row("| 0 | 2 |", "| - | 2 |"),
        "line 8: A is '-', and must be a whole number",
    );
    table_says(
        &mixed("| 2 | 25 |", "| two | 25 |"),
        "line 8: lanes is 'two', and must be a whole number or -",
    );
}

#[test]
fn words_of_cells() {
    table_says(
        &row("path", "tram"),
        "line 8: form is 'tram', and must be one of: mixed, beside parking, bike lane, path",
    );
    table_says(
        &row("path", "bikelane"),
        "line 8: form is 'bikelane', and must be one of: mixed, beside parking, bike lane, path; did you mean bike lane?",
    );
    table_says(
        &row("both", "a to b"),
        "line 8: ways is 'a to b', and must be one of: A to B, B to A, both; did you mean A to B?",
    );
    table_says(
        &mixed("- | - | nothing", "- | centerline | nothing"),
        "line 8: a mark is 'centerline', and must be one of: centreline, residential, median, blocked; did you mean centreline?",
    );
}

#[test]
fn approaches() {
    table_says(
        &row("nothing |\n", "bridge |\n"),
        "line 8: at A is 'bridge', and must be one of: nothing, signal, no island, island, one-way",
    );
    table_says(
        &row("nothing |\n", "island 4 lanes |\n"),
        "line 8: at A: 'island 4 lanes' must be a name, a number of lanes and a number of mph",
    );
    table_says(
        &row("nothing |\n", "nothing; straight 150 ft |\n"),
        "line 8: at A: 'straight 150 ft' must be a name, a number of ft and a number of mph",
    );
    table_says(
        &row("nothing |\n", "nothing; strait 150 ft 15 mph |\n"),
        "line 8: at A is 'strait', and must be one of: none, straight, shifts left, no bike lane; did you mean straight?",
    );
}

#[test]
fn fields_against_the_rules() {
    let refused = |words: &str| format!("refused, number 4, line 8: {words}");
    table_says(
        &row("| 6 |", "| 600 |"),
        &refused("B leg is 600 and must be 0 to 7"),
    );
    table_says(
        &row("| 1 | 6 |", "| 2 | 6 |"),
        &refused("B node is 2 and must be 0 to 1"),
    );
    table_says(
        &row("500", "52,801"),
        &refused("length is 52801 and must be 1 to 52800; edition 03 has 1 to 264000"),
    );
    table_says(
        &row("500", "70000"),
        &refused("length is 70000 and must be 1 to 52800; edition 03 has 1 to 264000"),
    );
    table_says(
        &row("500", "264,001"),
        &refused("length is 264001 and must be 1 to 52800"),
    );
    table_says(
        &mixed("| 2 | 25 |", "| - | 25 |"),
        &refused("lanes is 0 and must be 1 to 12 in mixed traffic"),
    );
    table_says(
        &mixed("| 2 | 25 | - |", "| 2 | 25 | 9 |"),
        &refused("reach is 9 and must be 0 in mixed traffic"),
    );
    table_says(
        &row("path | both | -", "path | both | 2"),
        &refused("lanes is 2 and must be 0 on a separate path"),
    );
}

#[test]
fn approaches_against_the_rules() {
    let refused = |words: &str| format!("refused, number 4, line 8: {words}");
    table_says(
        &row("nothing |\n", "island |\n"),
        &refused("lanes crossed at A is 0 and must be 1 to 12 where lanes are crossed"),
    );
    table_says(
        &row("nothing |\n", "signal 4 lanes 30 mph |\n"),
        &refused("lanes crossed at A is 4 and must be 0 at a signal"),
    );
    table_says(
        &row("nothing |\n", "nothing; straight |\n"),
        &refused("turn-lane length at A is 0 and must be 1 to 2000 with a turn lane"),
    );
}

#[test]
fn counts() {
    let refused = |words: &str| format!("refused, number 4, line 1: {words}");
    let of = |nodes: u32| {
        let rows: String = (0..nodes).map(|node| format!("| {node} | a |\n")).collect();
        with(ROW).replace("| 0 | here |\n| 1 | there |\n", &rows)
    };
    let later = "edition 01 has 1 to 1000; edition 03 has 1 to 8000";
    table_says(&of(0), &refused("0 nodes: edition 01 has 1 to 1000"));
    table_says(&of(1_001), &refused(&format!("1001 nodes: {later}")));
    table_says(
        &of(70_000),
        &refused("70000 nodes: edition 01 has 1 to 1000"),
    );
    table_says(
        &of_edition("| 03 |\n", &of(8_001)),
        "refused, number 4, line 5: 8001 nodes: edition 03 has 1 to 8000",
    );
    let county = of_edition("| 03 |\n", &of(8_000));
    let said = run(&["check", "-"], county.as_bytes());
    let due = "standard input: in order, edition 03, nodes 8000, segments 1\n";
    assert_eq!((said.out.as_str(), said.err.as_str()), (due, ""));
    let rows: String = (0..1_001)
        .map(|number| ROW.replacen("| 0 |", &format!("| {number} |"), 1))
        .collect();
    table_says(
        &with(&rows),
        "refused, number 4, line 6: 1001 segments: edition 01 has 0 to 1000; edition 03 has 0 to 8000",
    );
}

/// What edition 03 refuses in a table: the lengths are its own, the marks and
/// controls those of edition 02.
#[test]
fn fields_against_the_rules_of_edition_03() {
    let refused = |table: &str, words: &str| {
        let due = format!("refused, number 4, line 12: {words}");
        table_says(&of_edition("| 03 |\n", table), &due);
    };
    for feet in ["0", "264,001", "4294967295"] {
        let plain = feet.replace(',', "");
        let words = format!("length is {plain} and must be 1 to 264000");
        refused(&row("500", feet), &words);
    }
    refused(
        &row("- | nothing", "turn lane | nothing"),
        "marks is 16 and must be 0 on a separate path",
    );
    refused(
        &row("nothing |\n", "improved signal 4 lanes 30 mph |\n"),
        "lanes crossed at A is 4 and must be 0 at an improved signal",
    );
}

/// A table of edition 03 with so many places and paths in a row; at each place
/// two paths begin, and at the next they end.
fn county(places: usize, paths: usize, feet: &str) -> String {
    let nodes: String = (0..places)
        .map(|node| format!("| {node} | a |\n"))
        .collect();
    let path = |number: usize| {
        let (node, leg) = (number / 2, number % 2);
        ROW.replacen("| 0 |", &format!("| {number} |"), 1).replace(
            "| 0 | 2 | 1 | 6 | 500 |",
            &format!("| {node} | {leg} | {} | {} | {feet} |", node + 1, leg + 4),
        )
    };
    let paths: String = (0..paths).map(path).collect();
    let county = with(&paths).replace("| 0 | here |\n| 1 | there |\n", &nodes);
    of_edition("| 03 |\n", &county)
}

/// What does not move to edition 02: nodes are told before segments, and those
/// before lengths.
#[test]
fn counties_above_the_limits() {
    let back = |county: &str, due: &str| {
        let due = format!("standard input: refused, number 17: {due}");
        says(&["convert", "-", "02"], county.as_bytes(), &due);
        let text = run(&["text", "-"], county.as_bytes()).out;
        let due = due.replace("Elm Street (segment 2)", "segment 2");
        says(&["convert", "-", "2"], text.as_bytes(), &due);
    };
    let has = "edition 02 has 1 to 1000; edition 03 has 1 to 8000";
    back(&county(1_001, 0, ""), &format!("1001 nodes: {has}"));
    let both = county(2_000, 1_001, "52,801");
    back(&both, &format!("2000 nodes: {has}"));
    let has = "edition 02 has 0 to 1000; edition 03 has 0 to 8000";
    let segments = county(600, 1_001, "52,801");
    back(&segments, &format!("1001 segments: {has}"));

    let short = county(9, 5, "52,800");
    let third = short.match_indices("52,800").nth(2).expect("a third").0;
    let (start, end) = (&short[..third], &short[third + "52,800".len()..]);
    let long = format!("{start}52,801{}", end.replace("52,800", "264,000"));
    let due = "Elm Street (segment 2): length is 52801 and must be 1 to 52800; edition 03 has 1 to 264000";
    back(&long, due);
}

/// As large as edition 02 allows, a county moves; and no network moves to the edition
/// that it has.
#[test]
fn counties_within_the_limits() {
    let county = county(1_000, 1_000, "52,800");
    let moved = run(&["convert", "-", "02"], county.as_bytes());
    assert_eq!((moved.status, moved.err.as_str()), (Some(0), ""));
    assert!(moved.out.starts_with("010203E803E8"));
    for (file, edition) in [(&moved.out, "02"), (&county, "03")] {
        let due = format!(
            "standard input: refused, number 16: the network is of edition {edition} already"
        );
        says(&["convert", "-", edition], file.as_bytes(), &due);
    }
}

#[test]
fn legs_that_are_taken() {
    table_says(
        &row("| 1 | 6 |", "| 0 | 2 |"),
        "refused, number 6, line 8: both ends have leg 2 of node 0, here",
    );
    let second = ROW.replace(
        "| 0 | Elm Street | 0 | 2 | 1 | 6 |",
        "| 1 | Oak Street | 0 | 3 | 1 | 6 |",
    );
    table_says(
        &with(&format!("{ROW}{second}")),
        "refused, number 6, line 9: the B end has leg 6 of node 1, there, which the B end of segment 0, Elm Street (line 8) has already",
    );
}

#[test]
fn places_on_the_map() {
    let map = |x: &str| {
        let nodes = format!(
            "| node | place | x | y |\n|---|---|---|---|\n| 0 | here | {x} | -1,200 |\n| 1 | there | 0 | 0 |\n"
        );
        with(ROW).replace(NODES, &nodes)
    };
    assert_eq!(run(&["check", "-"], map("-20").as_bytes()).status, Some(0));
    table_says(
        &map("-"),
        "line 3: x is '-', and must be whole feet, at most 10000000",
    );
    table_says(
        &map("1.5"),
        "line 3: x is '1.5', and must be whole feet, at most 10000000",
    );
    table_says(
        &map("10000001"),
        "line 3: x is '10000001', and must be whole feet, at most 10000000",
    );
}

#[test]
fn files_in_another_encoding() {
    let latin = with(ROW).replace("Elm", "\u{FFFF}").into_bytes();
    let latin: Vec<u8> = latin.into_iter().filter(|byte| *byte != 0xBF).collect();
    says(
        &["check", "-"],
        &latin,
        "standard input: line 8: the line is not in UTF-8: save the file as UTF-8",
    );
    let marked = format!("\u{FEFF}{}", with(ROW)).replace('\n', "\r\n");
    assert_eq!(run(&["check", "-"], marked.as_bytes()).status, Some(0));
    let wide = [
        b"\xFF\xFE".to_vec(),
        with(ROW).bytes().flat_map(|byte| [byte, 0]).collect(),
    ]
    .concat();
    says(
        &["text", "-"],
        &wide,
        "standard input: line 1: the file is in UTF-16: save it as UTF-8",
    );
}

/// Network texts, what is said of each, and the lines below that.
const TEXTS: [(&[u8], &str, &[&str]); 21] = [
    (
        b"",
        "number 3, line 1: the file is empty: a head is due",
        &[],
    ),
    (
        b"\n",
        "number 1, line 1: the line is empty: take it out",
        &["  1 | ", "    | ^"],
    ),
    (
        b"\xEF\xBB\xBF010100010000FD\n",
        "number 1, line 1: a byte order mark (EF BB BF) stands before the first digit: save the file without one",
        &["  1 | \u{FFFD}\u{FFFD}\u{FFFD}010100010000FD", "    | ^"],
    ),
    (
        b"\xFF\xFE0\x001\x00\n",
        "number 1, line 1: the file is in UTF-16: save it as plain text, a byte for each digit",
        &["  1 | \u{FFFD}\u{FFFD}0\u{FFFD}1\u{FFFD}", "    | ^"],
    ),
    (
        b"010100010000FD\r\n",
        "number 1, line 1: a carriage return stands before the line feed: save the file with line feeds alone",
        &["  1 | 010100010000FD\u{FFFD}", "    |               ^"],
    ),
    (
        b"010100010000FD",
        "number 1, line 1: the line feed after the last line is missing",
        &["  1 | 010100010000FD", "    |               ^"],
    ),
    (
        b"010100010000F",
        "number 1, line 1: the file ends after 13 digits of this line: it was cut",
        &["  1 | 010100010000F", "    |              ^"],
    ),
    (
        b"010100010000F\n",
        "number 1, line 1: the line has 13 digits: two make a byte, so one is missing or too many",
        &["  1 | 010100010000F", "    |             ^"],
    ),
    (
        b"010100010000fd\n",
        "number 1, line 1: the small letter f at column 13 is no digit: digits are 0 to 9 and A to F",
        &["  1 | 010100010000fd", "    |             ^"],
    ),
    (
        b"0101 0001\n",
        "number 1, line 1: a blank at column 5 is no digit: digits are 0 to 9 and A to F",
        &["  1 | 0101 0001", "    |     ^"],
    ),
    (
        b"0101\x070001\n",
        "number 1, line 1: byte 07 at column 5 is no digit: digits are 0 to 9 and A to F",
        &["  1 | 0101\u{FFFD}0001", "    |     ^"],
    ),
    (
        b"010100010000FC\n",
        "number 2, line 1: the check is FC, and the bytes before it need FD: one of the digits is wrong",
        &["  1 | 010100010000FC", "    |             ^^"],
    ),
    (
        b"0202FC\n",
        "number 3, line 1: this is a segment, and the first line must be a head",
        &["  1 | 0202FC", "    | ^^"],
    ),
    (
        b"0101FE\n",
        "number 3, line 1: the line has 3 bytes, and a head has 7: digits are missing",
        &["  1 | 0101FE"],
    ),
    (
        b"010100010000FD\n010100010000FD\n",
        "number 3, line 2: this is a head, and only the first line is one",
        &["  2 | 010100010000FD", "    | ^^"],
    ),
    (
        b"010900010000F5\n",
        "number 4, line 1: edition 09 is not known: 01, 02 and 03 are",
        &["  1 | 010900010000F5", "    |   ^^", "    |     Digits  Field     Number", "    |     01      kind           1", "    |  >  09      edition        9", "    |     0001    nodes          1", "    |     0000    segments       0", "    |     F5      check        245"],
    ),
    (
        b"010100000000FE\n",
        "number 4, line 1: 0 nodes: edition 01 has 1 to 1000",
        &["  1 | 010100000000FE", "    |     ^^^^", "    |     Digits  Field     Number", "    |     01      kind           1", "    |     01      edition        1", "    |  >  0000    nodes          0", "    |     0000    segments       0", "    |     FE      check        254"],
    ),
    (
        b"0101000103E911\n",
        "number 4, line 1: 1001 segments: edition 01 has 0 to 1000; edition 03 has 0 to 8000",
        &["  1 | 0101000103E911", "    |         ^^^^", "    |     Digits  Field     Number", "    |     01      kind           1", "    |     01      edition        1", "    |     0001    nodes          1", "    |  >  03E9    segments    1001", "    |     11      check         17"],
    ),
    (
        b"010100030003F8\n",
        "number 5, line 2: the text ends after 0 of the 3 segments that the head counts: lines are missing",
        &[],
    ),
    (
        b"01FF0000000000000000000000000000000000000000000000000000000000000000000000000000000000000000000000000000000000000000000000000000000000000000000000000000000000000000000000000000000000000000000000000000\n",
        "number 3, line 1: the line has 100 bytes, and a head has 7: digits are too many",
        &["  1 | 01FF000000000000000000000000000000000000000000000000000000000000000000000000000000000000000000000000..", "    |               ^^^^^^^^^^^^^^^^^^^^^^^^^^^^^^^^^^^^^^^^^^^^^^^^^^^^^^^^^^^^^^^^^^^^^^^^^^^^^^^^^^^^^^"],
    ),
    (
        b"010100010000FD\n0200FE\n",
        "number 3, line 2: the line has 3 bytes, and a segment of edition 01 has 30: digits are missing",
        &["  2 | 0200FE"],
    ),
];

#[test]
fn texts_that_are_refused() {
    for (text, due, below) in TEXTS {
        let due = format!("standard input: refused, {due}");
        for words in [
            &["check", "-"][..],
            &["levels", "-"],
            &["route", "-", "0", "0", "1"],
            &["reach", "-", "0", "1", "9"],
            &["nearest", "-", "0", "1", "0"],
            &["draw", "-"],
            &["draw", "--reach", "-", "0", "1", "9"],
            &["convert", "-", "03"],
        ] {
            shows(words, text, &due, below);
        }
    }
}

/// Calls about the table without mistakes, and what is said of each.
const CALLS: [(&[&str], &str); 16] = [
    (
        &[],
        "a command is missing: check, levels, route, reach, nearest, draw, text, convert; see splicereel --help",
    ),
    (
        &["rout"],
        "'rout' is no command; expected one of check, levels, route, reach, nearest, draw, text, convert; did you mean route?",
    ),
    (
        &["--json"],
        "a command is missing: check, levels, route, reach, nearest, draw, text, convert; see splicereel --help",
    ),
    (
        &["\u{E9}"],
        "'\u{E9}' is no command; expected one of check, levels, route, reach, nearest, draw, text, convert",
    ),
    (
        &["x\u{1b}[31m"],
        "'x\u{FFFD}[31m' is no command; expected one of check, levels, route, reach, nearest, draw, text, convert",
    ),
    (
        &["check"],
        "check: its words are missing; expected: splicereel check FILE",
    ),
    (
        &["check", "-", "more"],
        "check: 2 words are given; expected: splicereel check FILE",
    ),
    (
        &["route", "-"],
        "route: only a file is given; expected: splicereel route FILE FROM TO TOLERANCE|least",
    ),
    (
        &["check", "-", "--jsn"],
        "'--jsn' is no option; expected one of --json, --nearest-first, --reach, --help, --version; did you mean --json?",
    ),
    (
        &["draw", "-", "--json"],
        "draw has no --json; expected: splicereel draw FILE [FROM TO TOLERANCE|least]",
    ),
    (
        &["route", "-", "0", "1", "5"],
        "route: TOLERANCE is '5', and must be 1, 2, 3, 4 or least",
    ),
    (
        &["route", "-", "0", "1", "Least"],
        "route: TOLERANCE is 'Least', and must be 1, 2, 3, 4 or least; did you mean least?",
    ),
    (
        &["route", "-", "0", "ther", "1"],
        "standard input: no place is called 'ther'; did you mean there?",
    ),
    (
        &["route", "-", "0", "-1", "1"],
        "standard input: no place is called '-1'",
    ),
    (
        &["route", "-", "0", "2", "1"],
        "standard input: refused, number 9: there is no node '2': nodes are 0 to 1",
    ),
    (
        &["draw", "-", "7", "1", "1"],
        "standard input: refused, number 9: there is no node '7': nodes are 0 to 1",
    ),
];

/// Calls about what is reached and what is nearest.
const REACHES: [(&[&str], &str); 24] = [
    (
        &["reach"],
        "reach: its words are missing; expected: splicereel reach FILE FROM TOLERANCE FEET",
    ),
    (
        &["reach", "-", "0", "1"],
        "reach: 3 words are given; expected: splicereel reach FILE FROM TOLERANCE FEET",
    ),
    (
        &["reach", "-", "0", "1", "5", "1"],
        "reach: 5 words are given; expected: splicereel reach FILE FROM TOLERANCE FEET",
    ),
    (
        &["reach", "-", "0", "0", "5"],
        "reach: TOLERANCE is '0', and must be 1, 2, 3 or 4",
    ),
    (
        &["reach", "-", "0", "least", "5"],
        "reach: TOLERANCE is 'least', and must be 1, 2, 3 or 4",
    ),
    (
        &["reach", "-", "0", "1", "1,500"],
        "reach: FEET is '1,500', and must be a whole number of feet, without commas or units",
    ),
    (
        &["reach", "-", "0", "1", "1500ft"],
        "reach: FEET is '1500ft', and must be a whole number of feet, without commas or units",
    ),
    (
        &["reach", "-", "0", "1", "-1"],
        "reach: FEET is '-1', and must be a whole number of feet, without commas or units",
    ),
    (
        &["reach", "-", "0", "1", "+1"],
        "reach: FEET is '+1', and must be a whole number of feet, without commas or units",
    ),
    (
        &["reach", "-", "0", "1", ""],
        "reach: FEET is '', and must be a whole number of feet, without commas or units",
    ),
    (
        &["reach", "-", "0", "1", "18446744073709551616"],
        "reach: FEET is '18446744073709551616', and must be at most 18446744073709551615",
    ),
    (
        &["reach", "-", "ther", "1", "5"],
        "standard input: no place is called 'ther'; did you mean there?",
    ),
    (
        &["reach", "-", "2", "1", "5"],
        "standard input: refused, number 9: there is no node '2': nodes are 0 to 1",
    ),
    (
        &["reach", "-", "0", "1", "5", "--nearest"],
        "'--nearest' is no option; expected one of --json, --nearest-first, --reach, --help, --version",
    ),
    (
        &["levels", "-", "--nearest-first"],
        "levels has no --nearest-first; expected: splicereel levels FILE",
    ),
    (
        &["reach", "--reach", "-", "0", "1", "5"],
        "reach has no --reach; expected: splicereel reach FILE FROM TOLERANCE FEET",
    ),
    (
        &["nearest", "-", "0", "1"],
        "nearest: 3 words are given; expected: splicereel nearest FILE FROM TOLERANCE PLACE..",
    ),
    (
        &["nearest", "-", "0", "there", "1"],
        "nearest: TOLERANCE is 'there', and must be 1, 2, 3 or 4",
    ),
    (
        &["nearest", "-", "0", "1", "there", "her"],
        "standard input: no place is called 'her'; did you mean here?",
    ),
    (
        &["nearest", "-", "0", "1", "1", "99999999999999999999"],
        "standard input: refused, number 9: there is no node '99999999999999999999': nodes are 0 to 1",
    ),
    (
        &["nearest", "-", "4", "1", "1", "3"],
        "standard input: refused, number 9: there is no node '4': nodes are 0 to 1",
    ),
    (
        &["draw", "--reach", "-"],
        "draw: only a file is given; expected: splicereel draw --reach FILE FROM TOLERANCE FEET",
    ),
    (
        &["draw", "--reach", "-", "0", "1", "far"],
        "draw: FEET is 'far', and must be a whole number of feet, without commas or units",
    ),
    (
        &["draw", "--json", "--reach", "-", "0", "1", "5"],
        "draw has no --json; expected: splicereel draw --reach FILE FROM TOLERANCE FEET",
    ),
];

/// Calls about a move to another edition. The table is of edition 01.
const MOVES: [(&[&str], &str); 10] = [
    (
        &["convert"],
        "convert: its words are missing; expected: splicereel convert FILE 02|03",
    ),
    (
        &["convert", "-"],
        "convert: only a file is given; expected: splicereel convert FILE 02|03",
    ),
    (
        &["convert", "-", "03", "02"],
        "convert: 3 words are given; expected: splicereel convert FILE 02|03",
    ),
    (
        &["convert", "-", "01"],
        "convert: the edition is '01', and must be 02 or 03: edition 01 has no move, since its levels would change",
    ),
    (
        &["convert", "-", "04"],
        "convert: the edition is '04', and must be 02 or 03",
    ),
    (
        &["convert", "-", ""],
        "convert: the edition is '', and must be 02 or 03",
    ),
    (
        &["convert", "-", "+3"],
        "convert: the edition is '+3', and must be 02 or 03",
    ),
    (
        &["convert", "-", "03", "--json"],
        "convert has no --json; expected: splicereel convert FILE 02|03",
    ),
    (
        &["convert", "-", "03"],
        "standard input: refused, number 16: edition 01 has no move, since its levels would change",
    ),
    (
        &["convert", "-", "2"],
        "standard input: refused, number 16: edition 01 has no move, since its levels would change",
    ),
];

#[test]
fn wrong_calls() {
    let table = with(ROW);
    let input = table.as_bytes();
    for (words, due) in CALLS.into_iter().chain(REACHES).chain(MOVES) {
        says(words, input, due);
    }
    says(
        &["check", "no/such/file"],
        b"",
        "no/such/file: cannot be read: No such file or directory (os error 2)",
    );
    says(
        &["check", "/"],
        b"",
        "/: cannot be read: Is a directory (os error 21)",
    );
    says(
        &["check", "/dev/zero"],
        b"",
        "/dev/zero: has more than 16 MiB: no town's file is so large",
    );
    says(
        &["route", "-", "here", "0", "1"],
        b"010100010000FD\n",
        "standard input: 'here' is no number, and a network text has no names for its nodes",
    );
    let twins = table.replace("| there |", "| Here |");
    says(
        &["route", "-", "HERE", "0", "1"],
        twins.as_bytes(),
        "standard input: 2 places are called 'HERE', nodes 0 and 1 among them: give the number",
    );
    assert_eq!(
        run(&["route", "-", "Here", "0", "1"], twins.as_bytes()).status,
        Some(0)
    );
    assert_eq!(run(&["check", "--", "-"], input).status, Some(0));
}

/// Help on a command is one text, however it is asked for, and begins with how
/// the command is called.
#[test]
fn help_on_each_command() {
    for words in [
        &["route"][..],
        &["reach"],
        &["nearest"],
        &["draw"],
        &["draw", "--reach"],
        &["convert"],
    ] {
        let help = run(&[&["help"], words].concat(), b"");
        let due = format!("splicereel {} FILE", words.join(" "));
        assert!(help.out.starts_with(&due), "{}", help.out);
        for option in ["-h", "--help"] {
            let asked = run(&[words, &[option]].concat(), b"");
            assert_eq!((help.status, &help.out), (asked.status, &asked.out));
        }
    }
}

/// An answer that cannot be written is a fault; one that nobody reads on is
/// none.
#[test]
fn outputs_that_take_nothing() {
    let levels = |out: Stdio| {
        let mut program = Command::new(env!("CARGO_BIN_EXE_splicereel"));
        let town = concat!(env!("CARGO_MANIFEST_DIR"), "/../../towns/osterbeck.md");
        let said = program
            .args(["levels", town])
            .stdout(out)
            .output()
            .expect("the program");
        (
            said.status.code(),
            String::from_utf8(said.stderr).expect("text"),
        )
    };
    let full = File::options()
        .write(true)
        .open("/dev/full")
        .expect("/dev/full");
    let due = "splicereel: the answer cannot be written: No space left on device (os error 28)\n";
    assert_eq!(levels(full.into()), (Some(2), due.to_string()));
    let (reader, writer) = std::io::pipe().expect("a pipe");
    drop(reader);
    assert_eq!(levels(writer.into()), (Some(0), String::new()));
}
