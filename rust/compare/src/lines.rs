//! What is asked about a text: Read, and the line that it refuses.

use crate::question::Question;
use crate::rounds::{Done, Subject};
use crate::{Comparer, Mismatch};
use splicereel::ffi::Part;
use std::ops::Range;
use towns::draw::Rng;
use towns::town::{Town, line};

/// The kinds of output length that refused lines are asked for.
pub const LENGTHS: [&str; 9] = [
    "exact",
    "longer",
    "one short",
    "shorter",
    "0",
    "one below 2^32",
    "2^32",
    "one above 2^32",
    "the greatest",
];

/// Lengths that no memory has, by the names of [`LENGTHS`]; two of them are
/// shorter than any network where a narrower number holds them.
const HUGE: [(usize, &str); 4] = [
    ((1 << 32) - 1, "one below 2^32"),
    (1 << 32, "2^32"),
    ((1 << 32) + 1, "one above 2^32"),
    (usize::MAX, "the greatest"),
];

/// Read with an output of so many bytes, and the line that it refuses for that
/// length; and for a far greater one, which alters nothing but 7. Gives Read's
/// number.
pub fn text(
    comparer: &mut Comparer<'_>,
    rng: &mut Rng,
    text: &[u8],
    room: usize,
) -> Result<u32, Box<Mismatch>> {
    let read = comparer.compare(rng, None, text, Question::Read { room })?;
    let read = (read.number, read.told()[0] as usize);
    let slow = oracle::refused_line(text, room);
    let mut lengths = vec![room];
    if read.0 != 7 {
        let (huge, kind) = rng.pick(&HUGE);
        comparer.reached.count(format!("output length: {kind}"));
        lengths.push(huge);
    }
    for output_length in lengths {
        let question = Question::RefusedLine { output_length };
        let told = comparer.compare(rng, None, text, question)?;
        if let Err(complaint) = held(text, read, &slow, told.number, told.part()) {
            let question =
                format!("{question:?}, told {told}; Read's number and line or bytes: {read:?}");
            return Err(comparer.disagreement(text, question, complaint));
        }
    }
    Ok(read.0)
}

/// The line where a part of a text begins, counted from 1.
pub fn line_of(text: &[u8], [start, _]: Part) -> usize {
    let before = text.iter().take(start);
    1 + before.filter(|&&byte| byte == b'\n').count()
}

/// Holds number and part to Read's number and line on the same side, and to the
/// slow implementation's.
fn held(
    text: &[u8],
    read: (u32, usize),
    slow: &(u8, Range<usize>),
    number: u32,
    part: Part,
) -> Result<(), &'static str> {
    let (refused, line) = read;
    match refused {
        0 if number != 14 => return Err("a refused line though Read accepts"),
        0 if part != [text.len(), 0] => return Err("14 without the empty part at the end"),
        1.. if number != refused => return Err("another number than Read's"),
        1.. if line_of(text, part) != line => return Err("another line than Read's"),
        _ => {}
    }
    if (number, part) == (slow.0.into(), [slow.1.start, slow.1.len()]) {
        Ok(())
    } else {
        Err("another part than the slow implementation's")
    }
}

/// Texts that are drawn too seldom, or never, where faults are laid at random.
pub const EDGES: [&str; 13] = [
    "empty",
    "0A alone",
    "no last 0A",
    "an empty line in the middle",
    "carriage returns",
    "a carriage return in the middle",
    "S 0",
    "a line after S 0",
    "a million digits",
    "a million zeros",
    "a million digits, an early one bad",
    "a million digits, a late one bad",
    "a million digits and no 0A",
];

/// How many of [`EDGES`] are short; the others are asked in few rounds.
const SHORT: usize = 8;
/// One round in so many asks about long lines.
const LONG_ROUNDS: u64 = 500;
const MILLION: usize = 1_000_000;

/// A text for each of [`EDGES`], made of the town's.
pub fn edges(comparer: &mut Comparer<'_>, rng: &mut Rng, subject: &Subject) -> Done {
    let long = comparer.round % LONG_ROUNDS == LONG_ROUNDS - 1;
    let asked = if long { EDGES.len() } else { SHORT };
    for edge in &EDGES[..asked] {
        if let Some(edgy) = edge_text(rng, &subject.town, edge) {
            comparer.reached.count(format!("text: {edge}"));
            let size = subject.bytes.len();
            let room = rng.pick(&[size, size + 1]);
            text(comparer, rng, &edgy, room)?;
        }
    }
    Ok(())
}

/// The text of an edge; none where the town has too few lines for it.
fn edge_text(rng: &mut Rng, town: &Town, edge: &str) -> Option<Vec<u8>> {
    let mut lines: Vec<Vec<u8>> = town.frames().iter().map(|frame| line(frame)).collect();
    // With a line before it and one after it, where there are three.
    let middle = lines.len() / 2;
    let inner = lines.len() > 2;
    let head = Town::new(town.nodes).edition(town.edition).text();
    match edge {
        "empty" => lines.clear(),
        "0A alone" => lines = vec![vec![b'\n']],
        "no last 0A" => _ = lines.last_mut()?.pop(),
        "an empty line in the middle" if inner => lines.insert(middle, vec![b'\n']),
        "carriage returns" => lines.iter_mut().for_each(return_carriage),
        "a carriage return in the middle" if inner => return_carriage(&mut lines[middle]),
        "S 0" => lines = vec![head],
        "a line after S 0" if inner => lines = vec![head, lines[middle].clone()],
        _ if edge.starts_with("a million") => long_line(rng, &mut lines, edge),
        _ => return None,
    }
    Some(lines.concat())
}

/// Puts a carriage return before a line's 0A.
fn return_carriage(line: &mut Vec<u8>) {
    line.insert(line.len() - 1, b'\r');
}

/// Puts a line of a million digits before one of the lines, or after the last.
fn long_line(rng: &mut Rng, lines: &mut Vec<Vec<u8>>, edge: &str) {
    let place = rng.below(lines.len() + 1);
    let mut long: Vec<u8> = (0..MILLION)
        .map(|_| rng.pick(b"0123456789ABCDEF"))
        .collect();
    let near = rng.below(3);
    match edge {
        "a million zeros" => long.fill(b'0'),
        "a million digits, an early one bad" => long[near] = b'x',
        "a million digits, a late one bad" => long[MILLION - 1 - near] = b'x',
        _ => {}
    }
    if edge == "a million digits and no 0A" {
        lines.truncate(place);
    } else {
        long.push(b'\n');
    }
    lines.insert(place, long);
}

#[cfg(test)]
mod tests {
    use super::held;

    #[test]
    fn a_refused_line_is_held_to_read() {
        let text = b"head\n\nlast";
        let refused = |number, part| held(text, (1, 2), &(1, 5..5), number, part);
        assert_eq!(refused(1, [5, 0]), Ok(()));
        for (number, part) in [
            (2, [5, 0]),
            (14, [10, 0]),
            (1, [0, 4]),
            (1, [6, 4]),
            (1, [5, 1]),
            (1, [10, 0]),
        ] {
            assert!(refused(number, part).is_err(), "{number} {part:?}");
        }
        let accepted = |number, part| held(text, (0, 37), &(14, 10..10), number, part);
        assert_eq!(accepted(14, [10, 0]), Ok(()));
        for (number, part) in [(14, [0, 0]), (14, [9, 1]), (1, [10, 0])] {
            assert!(accepted(number, part).is_err(), "{number} {part:?}");
        }
    }
}
