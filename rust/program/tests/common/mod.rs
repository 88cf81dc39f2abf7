//! What the tests of the program share: running it, reading its JSON, finding
//! a refused line on the screen, random towns, and a town as a table.

#![allow(dead_code)] // each test uses a part

pub mod shown;
pub mod xml;

use std::ffi::OsStr;
use std::io::Write;
use std::process::{Command, Output, Stdio};
use towns::Town;
use towns::draw::{Rng, Shape, town_of};
use towns::edition::EDITIONS;
use towns::town::{Approach, OLDER, Segment};

/// What the program said.
#[derive(Debug)]
pub struct Said {
    /// The exit status; none where a signal ended it.
    pub status: Option<i32>,
    pub out: String,
    pub err: String,
}

/// Runs the program with these words and this standard input.
pub fn run(words: &[&str], input: &[u8]) -> Said {
    let output = output(words, input);
    Said {
        status: output.status.code(),
        out: String::from_utf8(output.stdout).expect("text"),
        err: String::from_utf8(output.stderr).expect("text"),
    }
}

/// The same, with what it said as bytes.
pub fn output<W: AsRef<OsStr>>(words: &[W], input: &[u8]) -> Output {
    let mut program = Command::new(env!("CARGO_BIN_EXE_splicereel"))
        .args(words)
        .stdin(Stdio::piped())
        .stdout(Stdio::piped())
        .stderr(Stdio::piped())
        .spawn()
        .expect("the program");
    let mut stdin = program.stdin.take().expect("its input");
    std::thread::scope(|scope| {
        // A program that does not read its input closes it early.
        scope.spawn(move || drop(stdin.write_all(input)));
        program.wait_with_output().expect("its output")
    })
}

/// Towns of every shape and edition, with a generator of random numbers for
/// each.
pub fn some_towns(times: u64) -> impl Iterator<Item = (Rng, Town)> {
    let seeds = 0..times * Shape::ALL.len() as u64;
    let kinds = seeds.flat_map(|seed| EDITIONS.map(|edition| (seed, edition)));
    kinds.map(|(seed, edition)| {
        let mut rng = Rng::new(seed);
        let size = rng.range(1, 30);
        let shape = Shape::ALL[seed as usize % Shape::ALL.len()];
        (rng, town_of(edition, shape, 800 + seed, size))
    })
}

/// The measures' names, in the order of their numbers.
pub const MEASURES: [&str; 6] = [
    "lanes",
    "reach",
    "speed",
    "blocking",
    "mixed traffic",
    "separate path",
];

/// A value of JSON.
#[derive(Clone, Debug, PartialEq)]
pub enum Json {
    /// null, true, false or a number, as it is written.
    Plain(String),
    Text(String),
    List(Vec<Json>),
    Object(Vec<(String, Json)>),
}

impl Json {
    /// Reads one value that is all of a line.
    pub fn read(line: &str) -> Json {
        let mut rest = line.strip_suffix('\n').expect("a line");
        let value = value(&mut rest);
        assert_eq!(rest, "", "more than one value");
        value
    }

    /// The field of an object.
    pub fn get(&self, name: &str) -> &Json {
        let Json::Object(fields) = self else {
            panic!("no object: {self:?}");
        };
        let field = fields.iter().find(|(other, _)| other == name);
        &field
            .unwrap_or_else(|| panic!("no field {name}: {self:?}"))
            .1
    }

    pub fn list(&self) -> &[Json] {
        match self {
            Json::List(items) => items,
            other => panic!("no list: {other:?}"),
        }
    }

    pub fn text(&self) -> &str {
        match self {
            Json::Text(words) | Json::Plain(words) => words,
            other => panic!("no text: {other:?}"),
        }
    }

    pub fn number(&self) -> usize {
        self.text().parse().expect("a number")
    }
}

fn expect(rest: &mut &str, what: &str) {
    *rest = rest
        .strip_prefix(what)
        .unwrap_or_else(|| panic!("{what} is due at {rest}"));
}

fn value(rest: &mut &str) -> Json {
    match rest.as_bytes()[0] {
        b'{' => Json::Object(items(rest, '{', '}', |rest| {
            let name = string(rest);
            expect(rest, ":");
            (name, value(rest))
        })),
        b'[' => Json::List(items(rest, '[', ']', value)),
        b'"' => Json::Text(string(rest)),
        _ => {
            let end = rest.find([',', ']', '}']).unwrap_or(rest.len());
            let (word, after) = rest.split_at(end);
            let number = word.parse::<f64>().is_ok() && !word.starts_with('+');
            assert!(
                number || ["null", "true", "false"].contains(&word),
                "{word}"
            );
            *rest = after;
            Json::Plain(word.into())
        }
    }
}

fn items<T>(rest: &mut &str, open: char, close: char, item: impl Fn(&mut &str) -> T) -> Vec<T> {
    expect(rest, &open.to_string());
    let mut items = Vec::new();
    while !rest.starts_with(close) {
        if !items.is_empty() {
            expect(rest, ",");
        }
        items.push(item(rest));
    }
    expect(rest, &close.to_string());
    items
}

fn string(rest: &mut &str) -> String {
    expect(rest, "\"");
    let mut words = String::new();
    let mut characters = rest.chars();
    loop {
        match characters.next().expect("the string's end") {
            '"' => break,
            '\\' => match characters.next().expect("an escape") {
                'u' => {
                    let digits: String = characters.by_ref().take(4).collect();
                    let number = u32::from_str_radix(&digits, 16).expect("digits");
                    words.extend(char::from_u32(number));
                }
                'n' => words.push('\n'),
                other => words.push(other),
            },
            control if control.is_ascii_control() => panic!("a bare control character"),
            other => words.push(other),
        }
    }
    *rest = characters.as_str();
    words
}

/// The heading of a table of segments.
pub const SEGMENTS: &str = "| segment | street | A | A leg | B | B leg | feet | form | ways | lanes | mph | reach | marks | at B | at A |\n\
     |---|---|---|---|---|---|---|---|---|---|---|---|---|---|---|\n";

/// Where a node lies on a map.
pub type Place = fn(i32) -> (i32, i32);

/// A map of thirty nodes in a row.
pub const GRID: Place = |node| (node % 30 * 400 - 3_000, node / 30 * 300);

/// A town as a description with tables; node n is `Place n`, and lies on a map
/// if there is one.
pub fn table(town: &Town, map: Option<Place>) -> String {
    let mut table = "# Some town\n\nWords that say nothing.\n\n".to_string();
    // A town without it is of edition 01.
    if town.edition != OLDER || town.nodes.is_multiple_of(2) {
        table += &format!("| edition |\n|---|\n| {:02} |\n\n", town.edition);
    }
    table += match map {
        Some(_) => "| node | place | x | y |\n|---|---|---|---|\n",
        None => "| node | place |\n|---|---|\n",
    };
    for node in 0..i32::from(town.nodes) {
        let place = map.map(|place| place(node));
        let place = place.map_or_else(String::new, |(x, y)| format!(" {x} | {y} |"));
        table += &format!("| {node} | Place {node} |{place}\n");
    }
    table += "\n";
    table += SEGMENTS;
    for (number, segment) in town.segments.iter().enumerate() {
        table += &row(number, segment);
    }
    table + "\nAnd more words.\n"
}

fn row(number: usize, segment: &Segment) -> String {
    let Segment {
        a,
        b,
        length,
        lanes,
        speed,
        reach,
        ..
    } = segment;
    let form = ["mixed", "beside parking", "bike lane", "path"][usize::from(segment.form)];
    let ways = ["A to B", "B to A", "both"][usize::from(segment.ways) - 1];
    let names = [
        "centreline",
        "residential",
        "median",
        "blocked",
        "turn lane",
    ];
    let marked = (0..names.len()).filter(|bit| segment.marks >> bit & 1 == 1);
    let marks: Vec<&str> = marked.map(|bit| names[bit]).collect();
    let marks = if marks.is_empty() {
        "-".into()
    } else {
        marks.join(", ")
    };
    format!(
        "| {number} | Street {} | {} | {} | {} | {} | {length} | {form} | {ways} | {lanes} | {speed} | {reach} | {marks} | {} | {} |\n",
        number % 7,
        a.node,
        a.leg,
        b.node,
        b.leg,
        approach(&segment.at_b),
        approach(&segment.at_a)
    )
}

fn approach(met: &Approach) -> String {
    let controls = [
        "nothing",
        "signal",
        "no island",
        "island",
        "one-way",
        "improved signal",
    ];
    let control = controls[usize::from(met.control)];
    let crossed = match met.control {
        0 | 1 | 5 => control.to_string(),
        _ => format!("{control} {} lanes {} mph", met.lanes, met.speed),
    };
    let kind = ["", "straight", "shifts left", "no bike lane"][usize::from(met.turn)];
    match met.turn {
        0 => crossed,
        _ => format!(
            "{crossed}; {kind} {} ft {} mph",
            met.turn_length, met.turn_speed
        ),
    }
}
