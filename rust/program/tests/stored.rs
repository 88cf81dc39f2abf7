//! The pages that tests/splicereel stores say what the slow oracle says: which
//! answer, its length and levels, each run, each corner and each segment; each
//! node that is reached, and the nearest; and which line of a text is refused.
//! What is moved to another edition is the file's network.

mod common;

use common::MEASURES;
use common::shown::Refused;
use oracle::{Net, Ways};
use std::collections::BTreeMap;
use std::fs;
use std::path::{Path, PathBuf};

/// A file of the repository.
fn file(path: &str) -> PathBuf {
    Path::new(env!("CARGO_MANIFEST_DIR"))
        .join("../..")
        .join(path)
}

/// The words of each stored call, and where what it says is stored.
fn calls() -> impl Iterator<Item = (Vec<String>, PathBuf)> {
    let entries = fs::read_dir(file("tests/splicereel")).expect("stored runs");
    let calls = entries.map(|entry| entry.expect("a file").path());
    let calls = calls.filter(|path| path.extension().is_some_and(|kind| kind == "args"));
    calls.map(|path| (words(&fs::read_to_string(&path).expect("words")), path))
}

/// The words of each stored call of a command, and the page.
fn pages(command: &str) -> Vec<(Vec<String>, String)> {
    let pages = calls().filter_map(|(words, path)| {
        let page = fs::read_to_string(path.with_extension("out")).unwrap_or_default();
        let other = |word: &String| ["--json", "--help", "--reach"].contains(&word.as_str());
        let told = !page.is_empty() && !words.iter().any(other);
        (told && words.first().is_some_and(|word| word == command)).then_some((words, page))
    });
    pages.collect()
}

/// Words as a shell parts them, those in quotes whole.
fn words(line: &str) -> Vec<String> {
    let parts = line.trim_end().split('\'').enumerate();
    let words = parts.flat_map(|(place, part)| match place % 2 {
        0 => part.split_whitespace().map(str::to_string).collect(),
        _ => vec![part.to_string()],
    });
    words.collect()
}

/// The kept bytes of a file; of a town's description, those of its text.
fn kept(path: &str) -> Vec<u8> {
    let text = fs::read(file(&path.replace(".md", ".txt"))).expect(path);
    oracle::read(&text, usize::MAX).expect("a network")
}

/// The network of a file.
fn network(path: &str) -> Net {
    Net::parse(&kept(path)).expect("a network")
}

/// The words after a heading at the beginning of a line.
fn after<'p>(page: &'p str, heading: &str) -> Option<&'p str> {
    let line = page.lines().find_map(|line| line.strip_prefix(heading))?;
    Some(line.trim_start())
}

/// The first number of some words.
fn number(words: &str) -> u32 {
    let digits = words.trim_start_matches(|letter: char| !letter.is_ascii_digit());
    let end = digits.find(|letter: char| !letter.is_ascii_digit());
    digits[..end.unwrap_or(digits.len())].parse().expect(words)
}

/// The nodes of a page's first line.
fn nodes(page: &str) -> (usize, usize) {
    let (from, to) = page.split_once(" to ").expect("two nodes");
    let node = |words: &str| number(words.split("node ").nth(1).expect(words)) as usize;
    (node(from), node(to))
}

/// The level in a row: the number in the column that ends where the heading's
/// word does.
fn level(row: &str, heading: &str) -> u8 {
    let end = heading.find("Level").expect("a heading") + "Level".len();
    number(row.get(..end).expect(row).rsplit(' ').next().expect(row)) as u8
}

/// The run of a row: `.. segment 5, A to B ..`.
fn run(row: &str) -> u16 {
    let (_, words) = row.split_once("segment ").expect(row);
    2 * number(words) as u16 + u16::from(words.contains(", B to A"))
}

#[test]
fn routes_are_the_oracles() {
    let (mut found, mut none) = (0, 0);
    for (words, page) in pages("route") {
        match answer(&words, &page) {
            true => found += 1,
            false => none += 1,
        }
    }
    assert!(found > 12 && none > 3, "{found} found, {none} none");
}

/// Holds a page to the oracle; whether a route is found.
fn answer(words: &[String], page: &str) -> bool {
    let (from, to) = nodes(page);
    let mut ways = Ways::over(network(&words[1]));
    let least = ways.least_stress(from, to).expect("no refusal");
    let due = match words[4].parse::<u8>() {
        Ok(tolerance) => {
            let feet = ways.route(from, to, tolerance.into()).expect("no refusal");
            feet.map(|feet| (feet, tolerance))
        }
        Err(_) => least,
    };
    let first = page.lines().next().expect("a line");
    let Some((feet, tolerance)) = due else {
        assert!(first.ends_with(": none"), "{page}");
        let instead = after(page, "The least tolerance that has a route is ");
        let instead = instead.and_then(|words| words.split_once(':'));
        let instead = instead.map(|(level, feet)| (number(feet), number(level) as u8));
        assert_eq!(instead, least, "{page}");
        return false;
    };
    assert!(first.ends_with(": found"), "{page}");
    let told = ["Tolerance", "Length", "Level", "Runs"]
        .map(|heading| number(after(page, heading).expect(heading)));
    assert_eq!(told[..2], [u32::from(tolerance), feet]);
    let oracle = network(&words[1]);
    let runs = rows(page, &oracle);
    let checked = oracle.check_route(
        from,
        to,
        tolerance,
        &runs,
        told[3] as usize,
        feet,
        told[2] as u8,
    );
    checked.expect(page);
    true
}

/// The runs of a page; the level of each, and of each corner, is the oracle's.
fn rows(page: &str, oracle: &Net) -> Vec<u16> {
    let mut lines = page.lines().skip_while(|line| !line.contains("Decided by"));
    let heading = lines.next().unwrap_or_default();
    let (mut runs, mut corner) = (Vec::<u16>::new(), None);
    for row in lines {
        if row.contains("  corner at ") {
            corner = Some(level(row, heading));
            continue;
        }
        let run = run(row);
        let (judged, _) = oracle.segment(usize::from(run / 2)).expect("a segment");
        assert_eq!(level(row, heading), judged, "{row}");
        let movement = |before: &u16| oracle.movement((*before).into(), run.into());
        let turned = runs
            .last()
            .map(|before| movement(before).expect("a movement"));
        assert_eq!(corner.take(), turned, "{row}");
        runs.push(run);
    }
    runs
}

#[test]
fn reach_maps_are_the_oracles() {
    let pages = pages("reach");
    assert!(pages.len() >= 8, "{}", pages.len());
    for (mut words, page) in pages {
        let first = words.iter().position(|word| word == "--nearest-first");
        let by_length = first.map(|place| words.remove(place)).is_some();
        let [tolerance, greatest] = [&words[3], &words[4]].map(|word| word.parse().expect(word));
        let from = number(page.split("node ").nth(1).expect("a node")) as usize;
        let mut ways = Ways::over(network(&words[1]));
        let map = ways.reach_map(from, tolerance, greatest, usize::MAX);
        let mut due = map.expect("no refusal");
        totals(&page, &words[1], tolerance, &due);
        if by_length {
            due.sort_by_key(|(node, feet)| (*feet, *node));
        }
        let rows = page.lines().skip_while(|line| !line.starts_with("  Node"));
        let rows = rows.skip(1).take_while(|line| !line.is_empty());
        let told = rows.map(|row| {
            let mut cells = row.rsplit("  ").filter(|cell| !cell.is_empty());
            let feet = cells.nth(1).expect("feet");
            (number(row) as usize, number(feet))
        });
        assert!(told.eq(due), "{page}");
        let head = ["Tolerance", "Greatest"].map(|heading| after(&page, heading).expect(heading));
        assert!(head[0] == words[3] && head[1].starts_with(&format!("{} ft", words[4])));
    }
}

/// What a page says below its rows: how many nodes, and how many feet of
/// street of a level within the tolerance that join two of them.
fn totals(page: &str, path: &str, tolerance: usize, map: &[(usize, u32)]) {
    let (oracle, bytes) = (network(path), kept(path));
    let map: BTreeMap<usize, u32> = map.iter().copied().collect();
    let (mut within, mut all) = (0, 0);
    let wide = bytes[1] == 3;
    for (s, frame) in bytes[7..].chunks(if wide { 32 } else { 30 }).enumerate() {
        let field = |at: usize| usize::from(frame[at]) * 256 + usize::from(frame[at + 1]);
        let joined = map.contains_key(&field(1)) && map.contains_key(&field(4));
        let level = usize::from(oracle.segment(s).expect("a segment").0);
        let feet = if wide {
            field(7) << 16 | field(9)
        } else {
            field(7)
        };
        all += feet;
        within += usize::from(joined && level <= tolerance) * feet;
    }
    let (reached, nodes) = (map.len(), oracle.nodes());
    let share = |part: usize, whole: usize| match whole {
        0 => String::new(),
        _ => format!(", {} %", part * 100 / whole),
    };
    let due = format!("{reached} of {nodes}{}", share(reached, nodes));
    assert_eq!(after(page, "Nodes"), Some(due.as_str()));
    let due = format!(
        "{within} of {all} ft{}: those of level {tolerance} or below with both ends reached",
        share(within, all)
    );
    assert_eq!(after(page, "Streets"), Some(due.as_str()));
    let proved = page.ends_with("No other node has a route within both: this is proved.\n");
    assert_eq!(proved, reached < nodes, "{page}");
}

#[test]
fn nearest_places_are_the_oracles() {
    let (mut found, mut none) = (0, 0);
    for (words, page) in pages("nearest") {
        match nearest(&words, &page) {
            true => found += 1,
            false => none += 1,
        }
    }
    assert!(found >= 4 && none >= 3, "{found} found, {none} none");
}

/// Holds a page to the oracle; whether a place is found. Where a page has
/// names, so has its town, which lists the places in the order of their nodes.
fn nearest(words: &[String], page: &str) -> bool {
    let (path, tolerance) = (&words[1], words[3].parse().expect("a tolerance"));
    let mut marks = vec![0; network(path).nodes()];
    for word in &words[4..] {
        marks[node(path, word)] = 1;
    }
    let from = node(path, &words[2]);
    let mut ways = Ways::over(network(path));
    let mut due = |tolerance| ways.nearest(from, tolerance, &marks).expect("no refusal");
    // The title's last node and the length, which stand one after the other.
    let told = |words: &str, feet: &str| {
        let node = words.rsplit("node ").next().expect(words);
        (number(node) as usize, number(feet))
    };
    let (title, _) = page.split_once('\n').expect("a title");
    let places = marks.iter().filter(|mark| **mark == 1).count() as u32;
    assert_eq!(number(title), places, "{page}");
    if let Some(entry) = due(tolerance) {
        let feet = after(page, "Length").expect(page);
        assert_eq!(told(title, feet), entry, "{page}");
        return true;
    }
    assert!(title.ends_with(": none"), "{page}");
    let least = (tolerance + 1..=4).find_map(|higher| Some((higher, due(higher)?)));
    let instead = after(page, "The least tolerance that has a route is ");
    let instead = instead.map(|words| {
        let (before, length) = words.split_once("), ").expect(words);
        (number(words) as usize, told(before, length))
    });
    assert_eq!(instead, least, "{page}");
    false
}

/// The node that a word names: its number, or its row in a town's description.
fn node(path: &str, word: &str) -> usize {
    word.parse().unwrap_or_else(|_| {
        let rows = fs::read_to_string(file(path)).expect(path);
        let cell = format!("| {word} |").to_lowercase();
        let row = rows.lines().find(|row| row.to_lowercase().contains(&cell));
        number(row.expect(word)) as usize
    })
}

/// What check says of a file stands in its head.
#[test]
fn heads_are_the_files() {
    let pages = pages("check");
    assert!(pages.len() >= 5);
    for (words, page) in pages {
        let head = &kept(words.last().expect("a file"))[..7];
        let count = |at: usize| usize::from(head[at]) * 256 + usize::from(head[at + 1]);
        let (edition, nodes, segments) = (head[1], count(2), count(4));
        let due = format!(": in order, edition {edition:02}, nodes {nodes}, segments {segments}\n");
        assert!(page.ends_with(&due), "{page}");
    }
}

/// Westerby and its text of edition 01 have the same streets, and at tolerance
/// 2 other ways: a longer one, or one where the other has none.
#[test]
fn editions_answer_otherwise() {
    let [newer, older] = ["towns/westerby.txt", "tests/splicereel/westerby-01.txt"];
    let [text, other] = [newer, older].map(|path| fs::read(file(path)).expect(path));
    let differ = |place: &usize| text[*place] != other[*place];
    assert_eq!(text.len(), other.len());
    // A digit of the edition, and one of the head's check.
    assert_eq!((0..text.len()).filter(differ).collect::<Vec<_>>(), [3, 13]);
    for (from, to, feet) in [
        (0, 2, [Some(800), Some(1_200)]),
        (0, 4, [Some(1_100), None]),
        (2, 5, [None, Some(650)]),
        (2, 7, [Some(700), Some(700)]),
        (2, 9, [None, None]),
    ] {
        let route = |path| Ways::over(network(path)).route(from, to, 2);
        assert_eq!([newer, older].map(route), feet.map(Ok), "{from} {to}");
    }
}

#[test]
fn levels_are_the_oracles() {
    let pages = pages("levels");
    assert!(pages.len() >= 7);
    for (words, page) in pages {
        let oracle = network(&words[1]);
        let edition = format!("Edition  {:02}\n\n", kept(&words[1])[1]);
        let rows = page.strip_prefix(&edition).expect(&edition);
        let (heading, rows) = rows.split_once('\n').expect("a heading");
        assert_eq!(rows.lines().count(), oracle.segments());
        for (s, row) in rows.lines().enumerate() {
            let (judged, measure) = oracle.segment(s).expect("a segment");
            assert_eq!((number(row) as usize, level(row, heading)), (s, judged));
            assert!(row.ends_with(MEASURES[usize::from(measure) - 1]), "{row}");
        }
    }
}

/// The kept bytes of a network moved to edition 2 or 3, frame by frame, or the
/// number of the refusal.
fn moved(net: &[u8], edition: u8) -> Result<Vec<u8>, u8> {
    if net[1] == 1 || net[1] == edition {
        return Err(16);
    }
    let count = |at: usize| usize::from(net[at]) * 256 + usize::from(net[at + 1]);
    let mut above = edition == 2 && (count(2) > 1_000 || count(4) > 1_000);
    let mut moved = [&[1, edition], &net[2..6], &[0]].concat();
    let sum = moved.iter().fold(0u8, |sum, byte| sum.wrapping_add(*byte));
    moved[6] = sum.wrapping_neg();
    let (width, frame) = if edition == 2 { (4, 32) } else { (2, 30) };
    for frame in net[7..].chunks(frame) {
        let (length, rest) = frame[7..].split_at(width);
        let feet = length
            .iter()
            .fold(0, |feet, byte| feet * 256 + u32::from(*byte));
        above |= edition == 2 && feet > 52_800;
        let length = &feet.to_be_bytes()[width - 2..];
        moved = [&moved, &frame[..7], length, rest].concat();
    }
    if above { Err(17) } else { Ok(moved) }
}

/// What convert prints is the network of the file, moved, or it is refused.
#[test]
fn moves_are_the_files() {
    let mut met = [0; 2];
    let called = |words: &[String]| words.first().is_some_and(|word| word == "convert");
    for (words, path) in calls().filter(|(words, _)| called(words)) {
        let edition = words.iter().find_map(|word| word.parse::<u8>().ok());
        let named = words.iter().find(|word| file(word).is_file());
        let option = words.iter().any(|word| word.starts_with("--"));
        let (Some(edition @ 2..=3), Some(named), false) = (edition, named, option) else {
            continue;
        };
        let [page, fault] = ["out", "err"]
            .map(|kind| fs::read_to_string(path.with_extension(kind)).unwrap_or_default());
        let due = moved(&kept(named), edition);
        met[usize::from(due.is_err())] += 1;
        match due {
            Ok(net) => assert_eq!(oracle::read(page.as_bytes(), usize::MAX), Ok(net)),
            Err(number) => {
                assert_eq!(page, "");
                let due = format!("splicereel: {named}: refused, number {number}: ");
                assert!(fault.starts_with(&due), "{fault}");
            }
        }
    }
    assert!(met[0] >= 6 && met[1] >= 8, "{met:?}");
}

/// Westerby as text of edition 02, and moved to 03: the pages differ in the line
/// that names the edition.
#[test]
fn pages_of_a_moved_town_are_the_same() {
    let page = |name: &str| {
        let out = file(&format!("tests/splicereel/{name}.out"));
        fs::read_to_string(out).expect(name)
    };
    let levels = ["text", "03"].map(|of| page(&format!("levels-westerby-{of}")));
    assert_eq!(levels[0].replace("Edition  02", "Edition  03"), levels[1]);
    for question in ["to-library-2", "to-station-2"] {
        let [text, moved] = ["text", "03"].map(|of| page(&format!("westerby-{of}-{question}")));
        assert_eq!(text, moved);
    }
}

/// Where a call names a text that the oracle refuses, that line is shown.
#[test]
fn refused_lines_are_the_oracles() {
    let mut seen = 0;
    for (words, path) in calls() {
        let mut named = words.iter().filter(|word| !word.ends_with(".md"));
        let text = named.find_map(|word| fs::read(file(word)).ok());
        let Some(refused) = text.as_deref().and_then(Refused::of) else {
            continue;
        };
        let fault = fs::read_to_string(path.with_extension("err")).expect("a fault");
        let (first, below) = fault.split_once('\n').expect("a line");
        let due = format!("number {}, line {}: ", refused.refusal, refused.number);
        assert!(first.contains(&due), "{fault}");
        refused.mark(below).expect(&fault);
        seen += 1;
    }
    assert!(seen >= 10, "{seen}");
}

/// docs/JSON.md names every field of the stored answers for scripts.
#[test]
fn fields_are_documented() {
    let named = fs::read_to_string(file("docs/JSON.md")).expect("docs/JSON.md");
    for name in [
        "check-json",
        "levels-json",
        "levels-json-coldwell",
        "levels-json-tarnmoor",
        "json-found",
        "json-found-tarnmoor",
        "json-none",
        "json-reach",
        "json-reach-tarnmoor",
        "json-nearest",
        "json-nearest-none",
        "json-refused",
        "json-refused-1",
        "json-refused-4",
        "json-refused-4-length-03",
        "json-refused-4-turn-lane",
    ] {
        let stored = file(&format!("tests/splicereel/{name}.out"));
        let answer = fs::read_to_string(stored).expect(name);
        let fields = answer
            .split("\":")
            .filter_map(|part| part.rsplit('"').next());
        let fields: Vec<&str> = fields.filter(|field| !field.ends_with('\n')).collect();
        assert!(fields.len() > 4, "{name}");
        for field in fields {
            assert!(named.contains(&format!("`{field}`")), "{name}: {field}");
        }
    }
}
