//! Damaged files: random bytes, cut and mixed texts and tables, up to 10 MB.
//! Each gets exit status 0, 1 or 2 within a second, never a panic, and nothing
//! is half printed. A refused text's line is shown, the one that the oracle
//! refuses, and no byte of it upsets a terminal.
//!
//! The variable FILES says how many (3,500 where it is not set), and SEED which;
//! without it the clock chooses one. The seed is printed, and a file that fails
//! is kept.

mod common;

use common::shown::Refused;
use common::{GRID, Place, SEGMENTS, output, table};
use std::fs;
use std::path::PathBuf;
use std::process::Output;
use std::sync::Mutex;
use std::sync::atomic::{AtomicU64, Ordering};
use std::time::{Duration, Instant, SystemTime};
use towns::draw::{Rng, Shape, Spot, change, damage, town_of};
use towns::edition::EDITIONS;

/// Makes a file.
type Damaged = fn(&mut Rng) -> Vec<u8>;

/// Each kind of damage, by name.
const KINDS: [(&str, Damaged); 12] = [
    ("random bytes", random_bytes),
    ("random digits and lines", random_digits),
    ("a whole text", whole_text),
    ("a whole table", whole_table),
    ("a text with one fault", faulty_text),
    ("a cut text", |rng| cut(rng, whole_text)),
    ("a cut table", |rng| cut(rng, whole_table)),
    ("a changed text", |rng| changed(rng, whole_text)),
    ("a changed table", |rng| changed(rng, whole_table)),
    ("another cell", other_cells),
    ("lines of both, mixed", mixed_lines),
    ("a large file", large),
];

fn random_bytes(rng: &mut Rng) -> Vec<u8> {
    let length = rng.below(3_000);
    (0..length).map(|_| rng.bits() as u8).collect()
}

fn random_digits(rng: &mut Rng) -> Vec<u8> {
    let length = rng.below(3_000);
    let letters = b"0123456789ABCDEF0123456789ABCDEF0123456789ABCDEF\n\n |-\r\tabcdef";
    (0..length).map(|_| rng.pick(letters)).collect()
}

/// A town, now and then with as many segments as there may be in its edition.
fn some_town(rng: &mut Rng) -> towns::Town {
    let (edition, shape) = (rng.pick(&EDITIONS), rng.pick(&Shape::ALL));
    let most = if edition < 3 { 1_000 } else { 8_000 };
    let size = if rng.chance(4) { most } else { rng.below(40) };
    town_of(edition, shape, rng.bits(), size)
}

fn whole_text(rng: &mut Rng) -> Vec<u8> {
    some_town(rng).text()
}

/// Maps, most of which no town has: every node at one place, or at two that
/// are as far apart as may be, or wherever.
const MAPS: [Place; 5] = [
    GRID,
    |_| (0, 0),
    |node| (node % 2 * 10_000_000, -10_000_000),
    |node| (node, node / 3),
    |node| (node * 7_919 % 10_000_000, node * node * 31 % 9_999_991),
];

fn whole_table(rng: &mut Rng) -> Vec<u8> {
    let map = rng.chance(75).then(|| rng.pick(&MAPS));
    table(&some_town(rng), map).into_bytes()
}

fn faulty_text(rng: &mut Rng) -> Vec<u8> {
    let town = some_town(rng);
    let (number, spot) = (rng.range(1, 6) as u8, rng.pick(&Spot::ALL));
    match damage(rng, &town, number, spot) {
        Some(damaged) => damaged.text,
        None => town.text(),
    }
}

fn cut(rng: &mut Rng, whole: Damaged) -> Vec<u8> {
    let mut file = whole(rng);
    let (from, to) = (rng.below(file.len() + 1), rng.below(file.len() + 1));
    match rng.chance(50) {
        true => file.truncate(from),
        false => drop(file.drain(from.min(to)..from.max(to))),
    }
    file
}

fn changed(rng: &mut Rng, whole: Damaged) -> Vec<u8> {
    let mut file = whole(rng);
    for _ in 0..rng.range(1, 4) {
        change(rng, &mut file);
    }
    file
}

/// A table with some cells that hold something else.
fn other_cells(rng: &mut Rng) -> Vec<u8> {
    const WORDS: [&str; 31] = [
        "",
        "-",
        "-1",
        "0",
        "255",
        "256",
        "65536",
        "264,000",
        "264001",
        "4294967296",
        "99999999999999999999",
        "1,000",
        "1,00",
        "1.5",
        "\u{1F6B2}",
        "\\|",
        "\\",
        "; ",
        "island",
        "island 4 lanes 30 mph",
        "signal; straight 1 ft 5 mph",
        "edition",
        "02",
        "03",
        "turn lane",
        "improved signal",
        "both",
        "path",
        "mixed",
        "<&\"'>",
        "\u{202E}\u{7}",
    ];
    let file = String::from_utf8(whole_table(rng)).expect("text");
    let mut cells: Vec<&str> = file.split('|').collect();
    for _ in 0..rng.range(1, 5) {
        let place = rng.below(cells.len());
        cells[place] = rng.pick(&WORDS);
    }
    cells.join("|").into_bytes()
}

/// Lines of a text and of a table, in any order, some twice and some left out.
fn mixed_lines(rng: &mut Rng) -> Vec<u8> {
    let file = [
        whole_text(rng),
        whole_table(rng),
        SEGMENTS.into(),
        b"| edition |\n|---|\n| 02 |\n\n".to_vec(),
        b"| edition |\n|---|\n| 03 |\n\n".to_vec(),
        b"```\n\n\r\n".to_vec(),
    ]
    .concat();
    let lines: Vec<&[u8]> = file.split_inclusive(|&byte| byte == b'\n').collect();
    let count = rng.below(lines.len() + 1);
    (0..count).flat_map(|_| rng.pick(&lines).to_vec()).collect()
}

/// A file of up to 10 MB that repeats another, or its middle, over and over.
fn large(rng: &mut Rng) -> Vec<u8> {
    let (_, small) = rng.pick(&KINDS[..KINDS.len() - 1]);
    let mut part = small(rng);
    if rng.chance(30) {
        part.retain(|&byte| byte != b'\n');
    }
    part.push(rng.bits() as u8);
    let length = rng.below(10_000_000);
    part.into_iter().cycle().take(length).collect()
}

/// The commands, those that search more often.
const COMMANDS: [&str; 13] = [
    "check",
    "levels",
    "route",
    "route",
    "reach",
    "reach",
    "nearest",
    "nearest",
    "draw",
    "draw --reach",
    "draw --reach",
    "text",
    "convert",
];

/// Greatest lengths, and words that are none.
const FEET: [&str; 11] = [
    "0",
    "1",
    "500",
    "2000",
    "20000",
    "2147483648",
    "4224000000",
    "4294967295",
    "18446744073709551615",
    "18446744073709551616",
    "1,5",
];

/// Words that ask nothing.
const ODD: [&str; 14] = [
    "",
    "-",
    "--",
    "-1",
    "--json",
    "--nearest-first",
    "--reach",
    "--hlep",
    "least",
    "Plaza",
    "99999999999999999999",
    "\u{E9}",
    "-\u{E9}",
    "\u{1F6B2}\u{202E}\u{7}\n",
];

/// The words of a call about a file.
fn words(rng: &mut Rng, file: &str) -> Vec<String> {
    let place = |rng: &mut Rng| match rng.below(12) {
        0 => rng.pick(&ODD).to_string(),
        1 | 2 => format!("Place {}", rng.below(12)),
        3 => rng.below(1_200).to_string(),
        _ => rng.below(6).to_string(),
    };
    let command = rng.pick(&COMMANDS);
    let mut words: Vec<String> = command.split(' ').map(str::to_string).collect();
    words.push(file.to_string());
    if command == "route" || (command == "draw" && rng.chance(50)) {
        let limit = rng.pick(&["1", "2", "3", "4", "4", "least", "least", "9"]);
        words.extend([place(rng), place(rng), limit.to_string()]);
    }
    if ["reach", "nearest", "draw --reach"].contains(&command) {
        let tolerance = rng.pick(&["1", "2", "3", "4", "4", "4", "least"]);
        words.extend([place(rng), tolerance.to_string()]);
        match command {
            "nearest" => {
                let places = rng.below(4);
                words.extend((0..places).map(|_| place(rng)));
            }
            _ => words.push(rng.pick(&FEET).into()),
        }
    }
    if command == "convert" {
        words.push(
            rng.pick(&["01", "02", "03", "02", "03", "2", "3", "4"])
                .into(),
        );
    }
    if !["draw", "draw --reach", "text", "convert"].contains(&command) && rng.chance(30) {
        words.push("--json".into());
    }
    if rng.chance(3) {
        let place = rng.below(words.len() + 1);
        words.insert(place, rng.pick(&ODD).into());
    }
    words
}

/// One file: how it was damaged, where it is written, its bytes, and the call
/// about it.
struct Trial {
    kind: usize,
    path: String,
    file: Vec<u8>,
    words: Vec<String>,
}

impl Trial {
    fn new(seed: u64, number: u64, worker: usize) -> Trial {
        let mut rng = Rng::new(seed.wrapping_mul(1_000_003).wrapping_add(number));
        // Large files are rare, since each is many times another.
        let last = KINDS.len() - 1;
        let kind = if rng.chance(1) { last } else { rng.below(last) };
        let file = KINDS[kind].1(&mut rng);
        // A name that ends in .md makes a table of any file.
        let path = place(&format!("damaged-{worker}{}", rng.pick(&["", ".md"])));
        let name = if rng.chance(30) { "-" } else { &path };
        let words = words(&mut rng, name);
        Trial {
            kind,
            path,
            file,
            words,
        }
    }

    /// Runs the program; it may take a second, and where the machine was busy
    /// it is asked again.
    fn run(&self) -> Result<Output, String> {
        fs::write(&self.path, &self.file).expect("a file");
        let mut took = Duration::ZERO;
        for _ in 0..3 {
            let start = Instant::now();
            let output = output(&self.words, &self.file);
            took = start.elapsed();
            if took < Duration::from_secs(1) {
                return Ok(output);
            }
        }
        Err(format!("it took {took:?}"))
    }

    /// What is wrong with what the program said.
    fn wrong(&self, output: &Output) -> Option<&'static str> {
        let (out, err) = (&output.stdout, &output.stderr);
        // An object or a graph, a picture, lines.
        let ends: [(&[u8], &[u8]); 3] =
            [(b"{", b"}\n"), (b"digraph", b"}\n"), (b"<svg", b"</svg>\n")];
        let end = ends
            .iter()
            .find(|(start, _)| out.starts_with(start))
            .map_or(&b"\n"[..], |(_, end)| end);
        let whole = out.is_empty() || out.ends_with(end);
        match output.status.code() {
            _ if !whole => Some("an answer that ends in the middle"),
            Some(0 | 1) if !err.is_empty() => Some("an answer with an error"),
            Some(0 | 1) => None,
            Some(2) if !out.is_empty() && !out.starts_with(b"{") => Some("a fault with an answer"),
            Some(2) => self.wrong_fault(err).err(),
            _ => Some("another status"),
        }
    }

    /// One line says what is wrong; below it stands the refused line of a text,
    /// and nothing else.
    fn wrong_fault(&self, err: &[u8]) -> Result<(), &'static str> {
        let err = str::from_utf8(err).map_err(|_| "a fault that is no text")?;
        let (first, below) = err.split_once('\n').ok_or("a fault that is no line")?;
        if !first.starts_with("splicereel: ") {
            return Err("a fault that does not say whose it is");
        }
        let bare = |sign: char| sign.is_control() && sign != '\n';
        if err.contains(bare) || !err.ends_with('\n') {
            return Err("a control character, or a line that does not end");
        }
        if self.is_table() || !first.contains(": refused, number ") || !first.contains(", line ") {
            let alone = below.is_empty().then_some(());
            return alone.ok_or("a fault that is not one line");
        }
        let refused = Refused::of(&self.file).ok_or("a refusal where none is due")?;
        let due = format!(
            ": refused, number {}, line {}: ",
            refused.refusal, refused.number
        );
        if !first.contains(&due) {
            return Err("another refusal");
        }
        refused.mark(below).map(|_| ())
    }

    /// Whether the program takes the file for a table.
    fn is_table(&self) -> bool {
        let mut lines = self.file.split(|&byte| byte == b'\n');
        self.named().is_some_and(|name| name.ends_with(".md"))
            || lines.any(|line| line.trim_ascii_start().starts_with(b"|"))
    }

    /// The word that names the file, the second that is no option: an odd word
    /// may make it standard input, and the path a place.
    fn named(&self) -> Option<&String> {
        let is_option = |word: &str| {
            let second = word.strip_prefix('-').and_then(|rest| rest.chars().next());
            second.is_some_and(|letter| !letter.is_ascii_digit())
        };
        self.words.iter().filter(|word| !is_option(word)).nth(1)
    }
}

/// How many files of each kind there were, how many got each status, and how
/// many refused lines were shown.
#[derive(Default)]
struct Count {
    kinds: [usize; KINDS.len()],
    statuses: [usize; 3],
    shown: usize,
}

/// A number from the environment.
fn variable(name: &str) -> Option<u64> {
    std::env::var(name).ok()?.parse().ok()
}

#[test]
fn damaged_files_get_an_answer_or_a_fault() {
    let files = variable("FILES").unwrap_or(3_500);
    let clock = || SystemTime::now().duration_since(SystemTime::UNIX_EPOCH);
    let seed = variable("SEED").unwrap_or_else(|| clock().map_or(1, |time| time.as_secs()));
    println!("damage: {files} files, SEED={seed}");
    let (next, count) = (AtomicU64::new(0), Mutex::new(Count::default()));
    std::thread::scope(|scope| {
        for worker in 0..2 {
            let (next, count) = (&next, &count);
            let numbers = std::iter::from_fn(|| {
                let number = next.fetch_add(1, Ordering::Relaxed);
                (number < files).then_some(number)
            });
            scope.spawn(move || numbers.for_each(|number| attempt(seed, number, worker, count)));
        }
    });
    let Count {
        kinds,
        statuses,
        shown,
    } = count.into_inner().expect("no panic");
    for ((name, _), count) in KINDS.iter().zip(kinds) {
        println!("damage: {count} of {name}");
        assert!(count > 0 || files < 1_000, "{name} never came");
    }
    println!("damage: {statuses:?} with status 0, 1 and 2");
    assert!(statuses.iter().all(|&count| count > 0) || files < 1_000);
    println!("damage: {shown} refused lines shown");
    assert!(shown as u64 > files / 10 || files < 1_000);
}

/// The longest lines: with each mark that one can have, early, in the middle and
/// late.
#[test]
fn a_line_of_10_mb_is_shown() {
    const LENGTH: usize = 10_000_000;
    let digits = |start: &[u8], end: &[u8]| {
        let zeros = vec![b'0'; LENGTH - start.len() - end.len()];
        [start, &zeros, end].concat()
    };
    let mut wrong = digits(b"", b"\n");
    wrong[LENGTH / 2] = b'g';
    let files = [
        (1, wrong),
        (1, digits(b"\x1B[2J", b"\n")),
        (1, digits(b"", b"\x07\n")),
        (1, digits(b"", b"")),
        (1, digits(b"0", b"\n")),
        (2, digits(b"01", b"\n\n")),
        (3, digits(b"01FF", b"\n\n")),
        (3, digits(b"", b"\n\n")),
    ];
    for (number, file) in files {
        assert_eq!(
            Refused::of(&file).map(|refused| refused.refusal),
            Some(number)
        );
        let trial = Trial {
            kind: KINDS.len() - 1,
            path: place("line"),
            words: ["check".into(), place("line"), "--json".into()].into(),
            file,
        };
        let output = trial.run().expect("an answer in time");
        assert_eq!(
            (output.status.code(), trial.wrong(&output)),
            (Some(2), None)
        );
    }
}

fn place(name: &str) -> String {
    let path = PathBuf::from(env!("CARGO_TARGET_TMPDIR")).join(name);
    path.to_str().expect("a path").to_string()
}

fn attempt(seed: u64, number: u64, worker: usize, count: &Mutex<Count>) {
    let trial = Trial::new(seed, number, worker);
    let answer = trial.run();
    let wrong = match &answer {
        Ok(output) => trial.wrong(output).map(str::to_string),
        Err(wrong) => Some(wrong.clone()),
    };
    if let Some(wrong) = wrong {
        let kept = place(&format!("fails-{seed}-{number}"));
        fs::write(&kept, &trial.file).expect("a file");
        panic!(
            "{wrong}: splicereel {:?} on {}, kept as {kept}; SEED={seed}, file {number}",
            trial.words, KINDS[trial.kind].0
        );
    }
    let mut count = count.lock().expect("no panic");
    count.kinds[trial.kind] += 1;
    if let Ok(output) = answer {
        let lines = output.stderr.split(|&byte| byte == b'\n');
        count.shown += usize::from(lines.count() > 2);
        count.statuses[output.status.code().unwrap_or(2) as usize] += 1;
    }
}
