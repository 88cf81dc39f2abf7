//! A town's tables as a network text, with the names that they give.

use crate::edition::{EDITIONS, Edition, listed};
use crate::explain;
use crate::fault::{Fault, quoted};
use crate::markdown::{self, Row, Table};
use crate::near::meant;
use crate::segment::{self, Head, Segment};
use crate::segment::{
    A_LEG, A_NODE, B_LEG, B_NODE, FORM, LANES, LENGTH, MARKS, REACH, SPEED, WAYS,
};
use crate::segment::{AT_A, AT_B, CONTROL, CROSSED, CROSSED_SPEED, TURN, TURN_LENGTH, TURN_SPEED};
use splicereel::{Network, ReadRefusal, Refusal};
use std::borrow::Cow;

const EDITION: &str = "edition";
const NODES: [&str; 4] = ["node", "place", "x", "y"];
const SEGMENTS: [&str; 15] = [
    "segment", "street", "A", "A leg", "B", "B leg", "feet", "form", "ways", "lanes", "mph",
    "reach", "marks", "at B", "at A",
];

const FORMS: [&str; 4] = ["mixed", "beside parking", "bike lane", "path"];
const WAYS_OPEN: [&str; 3] = ["A to B", "B to A", "both"];
/// Each mark is a bit, the first the lowest. Edition 01 lacks the last.
const MARKED: [&str; 5] = [
    "centreline",
    "residential",
    "median",
    "blocked",
    "turn lane",
];
/// Edition 01 lacks the last.
pub const CONTROLS: [&str; 6] = [
    "nothing",
    "signal",
    "no island",
    "island",
    "one-way",
    "improved signal",
];
pub const TURNS: [&str; 4] = ["none", "straight", "shifts left", "no bike lane"];

/// The most feet from the middle of a map.
const FAR: i32 = 10_000_000;

/// A town as its tables describe it.
#[derive(Debug)]
pub struct Described {
    pub name: Option<String>,
    pub places: Vec<String>,
    /// Feet to the east and to the north, where the table gives them.
    pub map: Option<Vec<(i32, i32)>>,
    pub streets: Vec<String>,
    pub text: String,
    pub network: Network,
}

/// Reads a description.
pub fn read(file: &[u8]) -> Result<Described, Fault> {
    let file = utf8(file)?;
    let tables = markdown::tables(file)?;
    let nodes = the_table(&tables, "node")?;
    let with_map = nodes.heading.cells.len() > 2;
    heading(nodes, &NODES[..if with_map { 4 } else { 2 }])?;
    let segments = the_table(&tables, "segment")?;
    heading(segments, &SEGMENTS)?;
    let edition = edition(&tables)?;
    let (node_rows, segment_rows) = (nodes.numbered()?, segments.numbered()?);
    let map = with_map.then(|| node_rows.iter().map(place).collect());
    let streets = segment_rows
        .iter()
        .map(|row| street(row, edition))
        .collect::<Result<Vec<_>, Fault>>()?;
    let made = Made {
        edition,
        headings: [nodes.heading.line, segments.heading.line],
        places: &node_rows,
        rows: &segment_rows,
        streets: &streets,
    };
    let text = made.text();
    let network = Network::read(text.as_bytes()).map_err(|refused| made.fault(refused))?;
    let second = |rows: &[Row<'_>]| rows.iter().map(|row| row.cells[1].to_string()).collect();
    Ok(Described {
        name: markdown::title(file).map(str::to_string),
        places: second(&node_rows),
        map: map.transpose()?,
        streets: second(&segment_rows),
        text,
        network,
    })
}

/// The file as text, a byte order mark left out.
fn utf8(file: &[u8]) -> Result<&str, Fault> {
    if file.starts_with(b"\xFF\xFE") || file.starts_with(b"\xFE\xFF") {
        return Err(Fault::at(1, "the file is in UTF-16: save it as UTF-8"));
    }
    let file = file.strip_prefix(b"\xEF\xBB\xBF").unwrap_or(file);
    std::str::from_utf8(file).map_err(|error| {
        let before = &file[..error.valid_up_to()];
        let line = 1 + before.iter().filter(|&&byte| byte == b'\n').count();
        Fault::at(line, "the line is not in UTF-8: save the file as UTF-8")
    })
}

/// The one table whose heading begins with this word.
fn the_table<'a, 't>(tables: &'a [Table<'t>], first: &str) -> Result<&'a Table<'t>, Fault> {
    if let Some(table) = only_table(tables, first, "its rows belong into the one")? {
        return Ok(table);
    }
    let words =
        format!("there is no table of {first}s: a heading that begins with | {first} | is due");
    Err(match tables.iter().find(|table| is_near(table, first)) {
        Some(table) => Fault::at(table.heading.line, words),
        None => Fault::new(words),
    })
}

/// The table whose heading begins with this word, if there is one; `instead`
/// says what is wrong with a second.
fn only_table<'a, 't>(
    tables: &'a [Table<'t>],
    first: &str,
    instead: &str,
) -> Result<Option<&'a Table<'t>>, Fault> {
    let mut named = tables
        .iter()
        .filter(|table| table.heading.cells[0] == first);
    match (named.next(), named.next()) {
        (Some(one), Some(other)) => {
            let line = one.heading.line;
            let words = format!("a second table of {first}s: {instead} at line {line}");
            Err(Fault::at(other.heading.line, words))
        }
        (table, _) => Ok(table),
    }
}

/// Whether a table's heading could mean this word.
fn is_near(table: &Table<'_>, first: &str) -> bool {
    !meant(&table.heading.cells[0], [first]).is_empty()
}

/// The town's edition: 01 where no table names one. A table that seems to, and
/// would be passed over, is a fault: no edition is lost in silence.
fn edition(tables: &[Table<'_>]) -> Result<Edition, Fault> {
    let Some(table) = only_table(tables, EDITION, "the edition stands in the one")? else {
        let could = |table: &&Table<'_>| table.heading.cells.len() == 1 && is_near(table, EDITION);
        return match tables.iter().find(could) {
            Some(table) => heading(table, &[EDITION]).map(|()| EDITIONS[0]),
            None => Ok(EDITIONS[0]),
        };
    };
    heading(table, &[EDITION])?;
    let known = listed(&EDITIONS, "or");
    match &table.rows()?[..] {
        [] => {
            let words = format!("a row is due in this table: {known}");
            Err(Fault::at(table.heading.line, words))
        }
        [row] => Edition::named(&row.cells[0]).ok_or_else(|| {
            let cell = quoted(&row.cells[0]);
            Fault::at(
                row.line,
                format!("{EDITION} is {cell}, and must be {known}"),
            )
        }),
        [_, second, ..] => Err(Fault::at(second.line, "a second edition: a town has one")),
    }
}

fn heading(table: &Table<'_>, due: &[&str]) -> Result<(), Fault> {
    let cells = &table.heading.cells;
    let wrong = (1..)
        .zip(cells.iter().zip(due))
        .find(|(_, (cell, due))| cell != due);
    let words = match wrong {
        Some((column, (cell, due))) => {
            format!(
                "column {column} of the heading is {}, and {due} is due there",
                quoted(cell)
            )
        }
        None if cells.len() != due.len() => {
            format!(
                "the heading has {} columns, and must be | {} |",
                cells.len(),
                due.join(" | ")
            )
        }
        None => return Ok(()),
    };
    Err(Fault::at(table.heading.line, words))
}

/// A node's place on the map.
fn place(row: &Row<'_>) -> Result<(i32, i32), Fault> {
    let feet = |column: usize| {
        let cell = &*row.cells[column];
        let (digits, sign) = cell
            .strip_prefix('-')
            .map_or((cell, 1), |digits| (digits, -1));
        let feet = whole(digits).and_then(|feet| i32::try_from(feet).ok());
        feet.filter(|feet| *feet <= FAR)
            .map(|feet| sign * feet)
            .ok_or_else(|| {
                let words = format!(
                    "{} is {}, and must be whole feet, at most {FAR}",
                    NODES[column],
                    quoted(cell)
                );
                Fault::at(row.line, words)
            })
    };
    Ok((feet(2)?, feet(3)?))
}

/// A number without sign, commas between its thousands or none.
fn whole(cell: &str) -> Option<u32> {
    let mut groups = cell.split(',');
    let first = groups.next()?;
    let grouped = cell.contains(',');
    let digits = |group: &str| !group.is_empty() && group.bytes().all(|byte| byte.is_ascii_digit());
    if !digits(first) || (grouped && first.len() > 3) {
        return None;
    }
    let in_threes = groups.all(|group| digits(group) && group.len() == 3);
    in_threes.then(|| cell.replace(',', "").parse().ok())?
}

/// The fields of a segment's row.
fn street(row: &Row<'_>, edition: Edition) -> Result<Segment, Fault> {
    fields(&row.cells, edition).map_err(|words| Fault::at(row.line, words))
}

fn fields(cells: &[Cow<'_, str>], edition: Edition) -> Result<Segment, String> {
    let mut segment = Segment::default();
    let due = [
        (A_NODE, 2),
        (A_LEG, 3),
        (B_NODE, 4),
        (B_LEG, 5),
        (LENGTH, 6),
    ];
    for (field, column) in due {
        segment.set(field, number(SEGMENTS[column], &cells[column])?);
    }
    for (field, column) in [(LANES, 9), (SPEED, 10), (REACH, 11)] {
        segment.set(field, number_or_none(SEGMENTS[column], &cells[column])?);
    }
    segment.set(FORM, word("form", &cells[7], &FORMS)?);
    segment.set(WAYS, 1 + word("ways", &cells[8], &WAYS_OPEN)?);
    segment.set(MARKS, marks(&cells[12], edition)?);
    for (at, column) in [(AT_B, 13), (AT_A, 14)] {
        let (crossed, turn) = cells[column]
            .split_once(';')
            .unwrap_or((&cells[column], "none"));
        crossing(&mut segment, at, SEGMENTS[column], crossed.trim(), edition)?;
        turn_lane(&mut segment, at, SEGMENTS[column], turn.trim())?;
    }
    Ok(segment)
}

fn number(what: &str, cell: &str) -> Result<u32, String> {
    whole(cell).ok_or_else(|| format!("{what} is {}, and must be a whole number", quoted(cell)))
}

/// A number; `-` is 0.
fn number_or_none(what: &str, cell: &str) -> Result<u32, String> {
    match cell {
        "-" => Ok(0),
        _ => number(what, cell).map_err(|words| words + " or -"),
    }
}

/// The place of a word among those that may stand there.
fn word(what: &str, cell: &str, words: &[&str]) -> Result<u32, String> {
    let place = (0..).zip(words).find(|(_, word)| **word == cell);
    place.map(|(place, _)| place).ok_or_else(|| {
        let near = meant(cell, words.iter().copied());
        format!(
            "{what} is {}, and must be one of: {}{near}",
            quoted(cell),
            words.join(", ")
        )
    })
}

/// The same of words of which edition 01 lacks the last.
fn word_of(edition: Edition, what: &str, cell: &str, words: &[&str]) -> Result<u32, String> {
    let oldest = edition == EDITIONS[0];
    match words.split_last() {
        Some((last, _)) if oldest && *last == cell => Err(format!(
            "{what} is {}, which needs edition 02: a table | {EDITION} | with the row | 02 | is due",
            quoted(cell)
        )),
        Some((_, older)) if oldest => word(what, cell, older),
        _ => word(what, cell, words),
    }
}

/// A sum of marks, named with commas between; `-` is none.
fn marks(cell: &str, edition: Edition) -> Result<u32, String> {
    if cell == "-" {
        return Ok(0);
    }
    let mut sum = 0;
    for mark in cell.split(',') {
        sum |= 1 << word_of(edition, "a mark", mark.trim(), &MARKED)?;
    }
    Ok(sum)
}

/// What is crossed.
fn crossing(
    segment: &mut Segment,
    at: usize,
    what: &str,
    words: &str,
    edition: Edition,
) -> Result<(), String> {
    let (name, [lanes, speed]) = measured(what, words, ["lanes", "mph"])?;
    segment.set(at + CONTROL, word_of(edition, what, name, &CONTROLS)?);
    segment.set(at + CROSSED, lanes);
    segment.set(at + CROSSED_SPEED, speed);
    Ok(())
}

fn turn_lane(segment: &mut Segment, at: usize, what: &str, words: &str) -> Result<(), String> {
    let (name, [length, speed]) = measured(what, words, ["ft", "mph"])?;
    segment.set(at + TURN, word(what, name, &TURNS)?);
    segment.set(at + TURN_LENGTH, length);
    segment.set(at + TURN_SPEED, speed);
    Ok(())
}

/// A name with two numbers and their units after it, as in `island 4 lanes 30
/// mph`; a name alone has zeros.
fn measured<'c>(
    what: &str,
    words: &'c str,
    units: [&str; 2],
) -> Result<(&'c str, [u32; 2]), String> {
    let Some(from) = words.find(|character: char| character.is_ascii_digit()) else {
        return Ok((words, [0, 0]));
    };
    let (name, numbers) = words.split_at(from);
    let numbers: Vec<&str> = numbers.split_whitespace().collect();
    // One lane is a lane.
    let is = |word: &str, unit: &str| word == unit || (word == "lane" && unit == "lanes");
    let (first, second) = match numbers[..] {
        [first, one, second, other] if is(one, units[0]) && is(other, units[1]) => {
            (whole(first), whole(second))
        }
        _ => (None, None),
    };
    match (first, second) {
        (Some(first), Some(second)) => Ok((name.trim(), [first, second])),
        _ => Err(format!(
            "{what}: {} must be a name, a number of {} and a number of {}",
            quoted(words),
            units[0],
            units[1]
        )),
    }
}

/// What a text is made of.
struct Made<'t> {
    edition: Edition,
    /// The lines of the headings of nodes and of segments.
    headings: [usize; 2],
    places: &'t [Row<'t>],
    rows: &'t [Row<'t>],
    streets: &'t [Segment],
}

impl Made<'_> {
    /// A count that is too large for its bytes becomes the largest, which Read
    /// refuses.
    fn head(&self) -> Head {
        let count = |number: usize| u32::try_from(number).unwrap_or(u32::MAX);
        Head {
            edition: self.edition,
            nodes: count(self.places.len()),
            segments: count(self.streets.len()),
        }
    }

    /// The network text.
    fn text(&self) -> String {
        let mut text = segment::line(&self.head().frame());
        for street in self.streets {
            text += &segment::line(&street.frame(self.edition));
        }
        text
    }

    /// What to mend in the tables where Read refuses their text.
    fn fault(&self, refused: ReadRefusal) -> Fault {
        let segment = (refused.line as usize).checked_sub(2);
        let row = segment.and_then(|segment| self.rows.get(segment));
        let Head {
            edition,
            nodes,
            segments,
        } = self.head();
        let count = explain::counts(edition, [nodes, segments]);
        let heading = self.headings[count.as_ref().map_or(1, |(which, _)| *which)];
        let words = match segment {
            Some(segment) => self.segment_words(segment, refused.refusal),
            None => count.map(|(_, words)| words),
        };
        Fault {
            line: Some(row.map_or(heading, |row| row.line)),
            refusal: Some(refused.refusal),
            words: words.unwrap_or_else(|| refused.refusal.to_string()),
            cursor: None,
        }
    }

    fn segment_words(&self, number: usize, refusal: Refusal) -> Option<String> {
        let segments = self.streets.get(..=number)?;
        let segment = &segments[number];
        if refusal == Refusal::LegTaken {
            let taken = segment::taken(segments)?;
            let Row { line, cells } = self.rows.get(taken.by)?;
            let by = format!("segment {}, {} (line {line})", taken.by, cells[1]);
            let place = &self.places.get(taken.node as usize)?.cells[1];
            let node = format!("node {}, {place}", taken.node);
            return Some(taken.words(taken.by == number, &by, &node));
        }
        segment::wrong(segment, self.head())
    }
}
