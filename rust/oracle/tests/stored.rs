//! Every output that is stored is the oracle's, byte by byte.

use oracle::{levels, refused, route, routes};
use std::fs;
use std::path::{Path, PathBuf};
use towns::town::{linden, westerby};

/// A file or folder of the repository.
fn stored(path: &str) -> PathBuf {
    Path::new(env!("CARGO_MANIFEST_DIR"))
        .join("../..")
        .join(path)
}

/// Holds a stored output to the answer to its stored input.
fn hold<A: AsRef<[u8]>>(input: &Path, output: &Path, answer: fn(&[u8]) -> A) {
    let read = |path: &Path| fs::read(path).unwrap_or_else(|_| panic!("{}", path.display()));
    let same = answer(&read(input)).as_ref() == read(output);
    assert!(same, "{}", output.display());
}

/// Holds every output of a folder that ends so; an input without one fails too.
fn hold_all<A: AsRef<[u8]>>(folder: &str, end: &str, answer: fn(&[u8]) -> A) {
    let entries = fs::read_dir(stored(folder)).expect(folder);
    let files: Vec<PathBuf> = entries.map(|entry| entry.expect(folder).path()).collect();
    assert!(!files.is_empty(), "{folder} has no files");
    for file in files {
        if file.extension().is_some_and(|kind| kind == "in") {
            hold(&file, &file.with_extension(end), answer);
        } else {
            assert!(file.with_extension("in").exists(), "{}", file.display());
        }
    }
}

#[test]
fn levels_are_the_oracles() {
    hold_all("tests/levels", "out", levels);
    let program = stored("crates/levels");
    hold(&program.join("stdin"), &program.join("stdout"), levels);
}

#[test]
fn refused_lines_are_the_oracles() {
    hold_all("tests/levels", "refused", refused);
    let program = stored("crates/examples_refused");
    hold(&program.join("stdin"), &program.join("stdout"), refused);
}

/// By hand: a line with bytes that are no letters, and a text in order.
#[test]
fn refused_lines_are_printed() {
    let text = b"010100020001FB\n02\xFF\r\n";
    assert_eq!(
        refused(text),
        b"7 0 14\n010100020001FB\n1 15 4\n02\xFF\r\n1 15 4\n02\xFF\r\n"
    );
    let text = fs::read(stored("towns/block-town.txt")).expect("a text");
    let (head, end) = ("7 0 14\n010100030003F8\n", "14 198 0\n\n");
    assert_eq!(refused(&text), [head, head, end].concat().as_bytes());
}

#[test]
fn routes_are_the_oracles() {
    hold_all("tests/routes", "out", routes);
    let program = stored("crates/examples_routes");
    hold(&program.join("stdin"), &program.join("stdout"), routes);
}

/// By hand: the town `twice` leads round one block at level 1, and round a
/// second one, past a turn lane, at level 2.
#[test]
fn twice_leads_round_two_blocks() {
    let text = fs::read(stored("tests/routes/twice.in")).expect("a text");
    assert_eq!(route(&text, 0, 4, None), "found 1180 1\n");
    assert_eq!(route(&text, 0, 7, None), "found 2135 2\n");
}

/// By hand: in `linden` Note 2 of document 02 opens the residential street and
/// the slow one at tolerance 2. In `linden-busy`, which has the same levels by
/// document 01, the way goes round, or there is none.
#[test]
fn narrow_parking_lanes_shorten_a_route() {
    let text = |name: &str| fs::read(stored("tests/routes").join(name)).expect("a text");
    let (quiet, busy) = (text("linden.in"), text("linden-busy.in"));
    let described = fs::read(stored("towns/linden.txt")).expect("a text");
    assert_eq!((&quiet, &described), (&linden().text(), &quiet));
    for (to, tolerance, now, before) in [
        (2, 1, "found 1200\n", "found 1200\n"),
        (2, 2, "found 800\n", "found 1200\n"),
        (2, 3, "found 800\n", "found 800\n"),
        (4, 1, "none\n", "none\n"),
        (4, 2, "found 1100\n", "none\n"),
        (4, 3, "found 1100\n", "found 1100\n"),
        (5, 2, "none\n", "none\n"),
        (5, 3, "found 1150\n", "found 1150\n"),
    ] {
        assert_eq!(
            route(&quiet, 0, to, Some(tolerance)),
            now,
            "{to} {tolerance}"
        );
        assert_eq!(
            route(&busy, 0, to, Some(tolerance)),
            before,
            "{to} {tolerance}"
        );
    }
}

/// By hand: `there-and-back-03` goes out by 997 streets of 264,000 feet after the
/// first, round a loop and back; `westerby-03` is `westerby` once more.
#[test]
fn edition_03_has_longer_streets_and_the_newer_rules() {
    let text = |name: &str| fs::read(stored("tests/routes").join(name)).expect("a text");
    let back = text("there-and-back-03.in");
    let all = (1 + 997 + 1 + 997 + 1) * 264_000;
    assert_eq!(route(&back, 0, 2, Some(3)), format!("found {all}\n"));
    assert_eq!(route(&back, 0, 2, None), format!("found {all} 1\n"));
    assert_eq!(route(&back, 0, 2, Some(4)), "found 528000\n");
    assert_eq!(text("westerby-03.out"), text("westerby.out"));
    assert_ne!(text("westerby-03.in"), text("westerby.in"));
}

/// By hand: `westerby` is of edition 02 and `westerby-01` the same town of
/// edition 01. Within a tolerance one has another route, or none, and so has the
/// other.
#[test]
fn the_edition_decides_a_route_and_a_none() {
    let text = |name: &str| fs::read(stored("tests/routes").join(name)).expect("a text");
    let (newer, older) = (text("westerby.in"), text("westerby-01.in"));
    let described = fs::read(stored("towns/westerby.txt")).expect("a text");
    assert_eq!((&newer, &described), (&westerby().text(), &newer));
    assert_eq!(newer[15..], older[15..]);
    for (from, to, tolerance, now, before) in [
        (0, 2, 1, "found 1200\n", "found 1200\n"),
        (0, 2, 2, "found 800\n", "found 1200\n"),
        (0, 2, 3, "found 800\n", "found 800\n"),
        (0, 4, 2, "found 1100\n", "none\n"),
        (2, 5, 2, "none\n", "found 650\n"),
        (2, 5, 3, "none\n", "found 650\n"),
        (2, 5, 4, "found 650\n", "found 650\n"),
        (2, 7, 1, "found 700\n", "found 700\n"),
        (2, 9, 2, "none\n", "none\n"),
    ] {
        let asked = format!("{from} {to} {tolerance}");
        assert_eq!(route(&newer, from, to, Some(tolerance)), now, "{asked}");
        assert_eq!(route(&older, from, to, Some(tolerance)), before, "{asked}");
    }
}
