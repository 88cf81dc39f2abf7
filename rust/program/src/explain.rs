//! What is wrong with a network text that Read refused, in words.
//!
//! Read says the number and the line, and the archive which part of the text
//! that line is. The words, and the digits that they are about, are found by
//! looking at that part again, and where nothing is found the words are the
//! refusal's own.

use crate::cursor::Cursor;
use crate::edition::{EDITIONS, Edition, listed};
use crate::fault::Fault;
use crate::segment::{self, Field, Head, Segment};
use crate::segment::{A_LEG, A_NODE, B_LEG, B_NODE};
use crate::segment::{HEAD_BYTES, HEAD_KIND, SEGMENT_KIND};
use splicereel::{Network, ReadRefusal, Refusal};
use std::ops::Range;

/// The fault of a text that was refused.
pub fn fault(text: &[u8], refused: ReadRefusal) -> Fault {
    let line = Line::refused(text, refused.line as usize);
    let found = line
        .as_ref()
        .and_then(|line| look(line, refused.refusal))
        .unwrap_or_else(|| Found::anywhere(refused.refusal.to_string()));
    Fault {
        line: Some(refused.line as usize),
        refusal: Some(refused.refusal),
        cursor: line.map(|line| Box::new(line.cursor(refused.refusal, found.mark))),
        words: found.words,
    }
}

/// The refused line, and where it stands.
struct Line<'t> {
    text: &'t [u8],
    /// Counted from 1.
    number: usize,
    /// Its bytes without the line feed; none where lines are missing.
    part: &'t [u8],
    /// The bytes of the text before it.
    start: usize,
    /// The edition of the segment that is due; none where a head is.
    segment: Option<Edition>,
}

impl<'t> Line<'t> {
    fn refused(text: &'t [u8], number: usize) -> Option<Line<'t>> {
        let part = Network::refused_line(text)?.part;
        // The part is lent by the text: its address tells its place.
        let start = part.as_ptr().addr().checked_sub(text.as_ptr().addr())?;
        let head = head(text).filter(|_| number > 1);
        Some(Line {
            text,
            number,
            part,
            start,
            segment: head.map(|head| head.edition),
        })
    }

    /// Whether there is such a line: the empty part at the text's end is none.
    fn is_there(&self) -> bool {
        self.start < self.text.len()
    }

    /// Whether a line feed ends it.
    fn is_ended(&self) -> bool {
        self.text.get(self.start + self.part.len()) == Some(&b'\n')
    }

    /// What a frame in its place must be: kind, bytes, and what it is called.
    fn due(&self) -> (u8, usize, &'static str) {
        match self.segment {
            None => (HEAD_KIND, HEAD_BYTES, "a head"),
            Some(edition) => (SEGMENT_KIND, edition.segment_bytes(), "a segment"),
        }
    }

    fn fields(&self) -> Vec<Field> {
        match self.segment {
            None => segment::head_fields(&frame(self.part)),
            Some(edition) => segment::segment_fields(edition, &frame(self.part)),
        }
    }

    /// The line for the screen; its fields help where one of them is wrong.
    fn cursor(&self, refusal: Refusal, mark: Option<Range<usize>>) -> Cursor {
        Cursor {
            start: self.start,
            part: self.part.to_vec(),
            mark,
            fields: (refusal == Refusal::WrongField).then(|| self.fields()),
        }
    }
}

/// What is wrong with a line, and the bytes of it where that is seen; the place
/// after its last byte is that of its line feed.
struct Found {
    words: String,
    mark: Option<Range<usize>>,
}

impl Found {
    fn at(mark: Range<usize>, words: impl Into<String>) -> Found {
        Found {
            words: words.into(),
            mark: Some(mark),
        }
    }

    /// Of no bytes rather than others.
    fn anywhere(words: impl Into<String>) -> Found {
        Found {
            words: words.into(),
            mark: None,
        }
    }
}

fn look(line: &Line<'_>, refusal: Refusal) -> Option<Found> {
    match refusal {
        Refusal::NotDigits => not_digits(line),
        Refusal::WrongCheck => wrong_check(line.part),
        Refusal::WrongFrame => wrong_frame(line),
        Refusal::WrongField if line.number == 1 => head_field(line),
        Refusal::WrongField => segment_field(line),
        Refusal::WrongCount => wrong_count(line),
        Refusal::LegTaken => leg_taken(line),
        _ => None,
    }
}

/// The lines without their line feeds.
fn lines(text: &[u8]) -> impl Iterator<Item = &[u8]> {
    text.split(|&byte| byte == b'\n')
}

/// The bytes of a line of whole pairs of digits.
fn frame(line: &[u8]) -> Vec<u8> {
    let value = |digit: u8| char::from(digit).to_digit(16).unwrap_or(0) as u8;
    let (pairs, _) = line.as_chunks();
    pairs
        .iter()
        .map(|[high, low]| value(*high) << 4 | value(*low))
        .collect()
}

fn not_digits(line: &Line<'_>) -> Option<Found> {
    let digits = line.part;
    let at = |column: usize, words: String| Some(Found::at(column..column + 1, words));
    if let Some(words) = encoding(line) {
        return at(0, words.into());
    }
    if digits.is_empty() {
        return at(0, "the line is empty: take it out".into());
    }
    let count = digits.len();
    if let Some(column) = digits.iter().position(|&byte| !is_digit(byte)) {
        let last = line.is_ended() && column + 1 == count;
        return at(column, bad_digit(digits[column], column + 1, last));
    }
    if !line.is_ended() {
        return at(count, cut(count, line.due().1));
    }
    let words = "digits: two make a byte, so one is missing or too many";
    match count % 2 {
        1 => at(count - 1, format!("the line has {count} {words}")),
        _ => None,
    }
}

/// What is wrong with all of a file whose first line begins so.
fn encoding(line: &Line<'_>) -> Option<&'static str> {
    let begins = |bytes: &[u8]| line.number == 1 && line.part.starts_with(bytes);
    if begins(b"\xFF\xFE") || begins(b"\xFE\xFF") {
        return Some("the file is in UTF-16: save it as plain text, a byte for each digit");
    }
    begins(b"\xEF\xBB\xBF").then_some(
        "a byte order mark (EF BB BF) stands before the first digit: save the file without one",
    )
}

fn is_digit(byte: u8) -> bool {
    matches!(byte, b'0'..=b'9' | b'A'..=b'F')
}

/// `last` says that the line feed comes next.
fn bad_digit(byte: u8, column: usize, last: bool) -> String {
    let what = match byte {
        b'\r' if last => {
            return "a carriage return stands before the line feed: save the file with line feeds alone".into();
        }
        b'a'..=b'f' => format!("the small letter {}", char::from(byte)),
        b' ' => "a blank".into(),
        b'\t' => "a tab".into(),
        b'\r' => "a carriage return".into(),
        0x21..=0x7E => format!("'{}'", char::from(byte)),
        _ => format!("byte {byte:02X}"),
    };
    format!("{what} at column {column} is no digit: digits are 0 to 9 and A to F")
}

/// The last line has no line feed, and a frame in its place has so many bytes.
fn cut(digits: usize, bytes: usize) -> String {
    match digits == 2 * bytes {
        true => "the line feed after the last line is missing".into(),
        false => format!("the file ends after {digits} digits of this line: it was cut"),
    }
}

fn wrong_check(line: &[u8]) -> Option<Found> {
    let frame = frame(line);
    let (check, body) = frame.split_last()?;
    let due = segment::check(body);
    let words = format!(
        "the check is {check:02X}, and the bytes before it need {due:02X}: one of the digits is wrong"
    );
    Some(Found::at(2 * body.len()..2 * frame.len(), words))
}

fn wrong_frame(line: &Line<'_>) -> Option<Found> {
    let frame = frame(line.part);
    let Some(&first) = frame.first() else {
        let empty = line.number == 1 && !line.is_there();
        return empty.then(|| Found::anywhere("the file is empty: a head is due"));
    };
    let (kind, _, what) = line.due();
    if first == kind {
        return Some(wrong_length(line, frame.len()));
    }
    let words = match (line.number, first) {
        (1, SEGMENT_KIND) => "this is a segment, and the first line must be a head".into(),
        (2.., HEAD_KIND) => "this is a head, and only the first line is one".into(),
        _ => format!("the kind is {first:02X}, and {what} has kind {kind:02X}"),
    };
    Some(Found::at(0..2, words))
}

/// Digits that are too many can be seen; where some are missing cannot.
fn wrong_length(line: &Line<'_>, length: usize) -> Found {
    let (_, bytes, what) = line.due();
    let (of, other) = match line.segment {
        None => Default::default(),
        Some(edition) => (format!(" of edition {edition}"), as_long(length)),
    };
    let words = format!("the line has {length} bytes, and {what}{of} has {bytes}: digits are");
    match length < bytes {
        true => Found::anywhere(format!("{words} missing{other}")),
        false => Found::at(2 * bytes..2 * length, format!("{words} too many{other}")),
    }
}

/// `; one of edition 01 or 02 has 30`: the editions whose segments are so long;
/// nothing where there are none.
fn as_long(length: usize) -> String {
    let mut editions = EDITIONS.to_vec();
    editions.retain(|edition| edition.segment_bytes() == length);
    match editions.is_empty() {
        true => String::new(),
        false => format!("; one of edition {} has {length}", listed(&editions, "or")),
    }
}

fn head_field(line: &Line<'_>) -> Option<Found> {
    let [_, edition, nodes, segments, _] = &line.fields()[..] else {
        return None;
    };
    let Some(known) = Edition::numbered(edition.number) else {
        let known = listed(&EDITIONS, "and");
        let words = format!("edition {:02X} is not known: {known} are", edition.number);
        return Some(Found::at(edition.digits.clone(), words));
    };
    let fields = [nodes, segments];
    let (which, words) = counts(known, fields.map(|field| field.number))?;
    Some(Found::at(fields[which].digits.clone(), words))
}

/// What is wrong with the counts of nodes and of segments, in a head or in
/// tables of an edition, and which of the two it is.
pub fn counts(edition: Edition, counts: [u32; 2]) -> Option<(usize, String)> {
    let range = |edition: Edition, which| match which {
        0 => 1..=edition.nodes,
        _ => 0..=edition.segments,
    };
    let holds = |edition: Edition, which| range(edition, which).contains(&counts[which]);
    let which = (0..2).find(|which| !holds(edition, *which))?;
    let later = edition.later().find(|later| holds(*later, which));
    let has = |edition| {
        let span = segment::span(&range(edition, which));
        format!("edition {edition} has {span}")
    };
    let has: Vec<String> = [edition].into_iter().chain(later).map(has).collect();
    let (count, name) = (counts[which], ["nodes", "segments"][which]);
    Some((which, format!("{count} {name}: {}", has.join("; "))))
}

fn head(text: &[u8]) -> Option<Head> {
    Head::decode(&frame(lines(text).next()?))
}

fn segment_field(line: &Line<'_>) -> Option<Found> {
    let head = head(line.text)?;
    let segment = Segment::decode(head.edition, &frame(line.part));
    let rule = segment::broken(&segment, head)?;
    let digits = segment::digits(head.edition, rule.field..=rule.field);
    let (first, last) = (digits.start + 1, digits.end);
    let words = rule.words(segment.get(rule.field));
    let later = segment::later(&segment, head, rule.field);
    let words = format!("{words} (digits {first} to {last}){later}");
    Some(Found::at(digits, words))
}

fn wrong_count(line: &Line<'_>) -> Option<Found> {
    let Head { segments, .. } = head(line.text)?;
    let words = match line.is_there() {
        true => format!("one segment more than the {segments} that the head counts"),
        false => format!(
            "the text ends after {} of the {segments} segments that the head counts: lines are missing",
            line.number.checked_sub(2)?
        ),
    };
    Some(Found::anywhere(words))
}

fn leg_taken(line: &Line<'_>) -> Option<Found> {
    let (before, edition) = (line.number.checked_sub(2)?, line.segment?);
    let frames = lines(line.text).skip(1).take(before).chain([line.part]);
    let decode = |line| Segment::decode(edition, &frame(line));
    let segments: Vec<Segment> = frames.map(decode).collect();
    let taken = segment::taken(&segments)?;
    let by = format!("segment {} (line {})", taken.by, taken.by + 2);
    let node = format!("node {}", taken.node);
    let words = taken.words(taken.by == before, &by, &node);
    let fields = match taken.end {
        'A' => A_NODE..=A_LEG,
        _ => B_NODE..=B_LEG,
    };
    Some(Found::at(segment::digits(edition, fields), words))
}

#[cfg(test)]
mod tests {
    use super::*;
    use crate::segment::{AT_A, AT_B, CONTROL, CROSSED, CROSSED_SPEED};
    use crate::segment::{FORM, LANES, LENGTH, MARKS, SPEED, WAYS};
    use crate::segment::{TURN, TURN_LENGTH, TURN_SPEED};

    /// The fault of a text that Read refuses with this number.
    fn refused(number: u32, text: &[u8]) -> Fault {
        let refused = Network::read(text).expect_err("a refusal");
        assert_eq!(refused.refusal.number(), number);
        fault(text, refused)
    }

    fn mark(fault: &Fault) -> Option<Range<usize>> {
        fault.cursor.as_ref()?.mark.clone()
    }

    fn line(frame: &[u8]) -> String {
        let digits = frame.iter().map(|byte| format!("{byte:02X}"));
        digits.chain(["\n".into()]).collect()
    }

    /// A text of an edition, with two nodes and these segments.
    fn text_of(edition: Edition, segments: &[Segment]) -> Vec<u8> {
        let head = Head {
            edition,
            nodes: 2,
            segments: segments.len() as u32,
        };
        let lines = segments.iter().map(|segment| line(&segment.frame(edition)));
        [line(&head.frame())]
            .into_iter()
            .chain(lines)
            .collect::<String>()
            .into()
    }

    fn text(segments: &[Segment]) -> Vec<u8> {
        text_of(EDITIONS[0], segments)
    }

    /// A street in mixed traffic with a crossing and a turn lane at each end.
    fn street() -> Segment {
        let mut segment = Segment::default();
        let own = [
            (B_NODE, 1),
            (LENGTH, 600),
            (FORM, 0),
            (WAYS, 3),
            (LANES, 2),
            (SPEED, 25),
        ];
        let met = [(CONTROL, 2), (CROSSED, 4), (CROSSED_SPEED, 30)];
        let turn = [(TURN, 1), (TURN_LENGTH, 150), (TURN_SPEED, 20)];
        let ends =
            [AT_B, AT_A].map(|at| met.into_iter().chain(turn).map(move |(f, n)| (at + f, n)));
        for (field, number) in own.into_iter().chain(ends.into_iter().flatten()) {
            segment.set(field, number);
        }
        segment
    }

    #[test]
    fn the_first_wrong_digit_is_marked() {
        let after_head: [(&[u8], usize); 12] = [
            (b"\n", 0),
            (b"\r\n", 0),
            (b"02 0\n", 2),
            (b"020a\n", 3),
            (b"020G0x\n", 3),
            (b"02\xFF\xFE\n", 2),
            (b"0200FE \n", 6),
            (b"0200FE\r\n", 6),
            (b"0 00FE\r\n", 1),
            (b"0200F\n", 4),
            (b"0200F", 5),
            (b"0200FE", 6),
        ];
        for (line, place) in after_head {
            let text = [b"010100010000FD\n", line].concat();
            let fault = refused(1, &text);
            assert_eq!(fault.line, Some(2));
            assert_eq!(mark(&fault), Some(place..place + 1), "{}", fault.words);
            let cursor = fault.cursor.expect("a line");
            assert_eq!((cursor.start, cursor.fields), (15, None));
            let digits = line.strip_suffix(b"\n").unwrap_or(line);
            assert_eq!(cursor.part, digits);
        }
        for first in ["\u{FEFF}010100010000FD\n", "\n010100010000FD\n", "g\n"] {
            assert_eq!(mark(&refused(1, first.as_bytes())), Some(0..1));
        }
        assert_eq!(mark(&refused(1, b"\xFE\xFF\x000\x001\x00\n")), Some(0..1));
    }

    #[test]
    fn checks_and_kinds_are_marked() {
        assert_eq!(mark(&refused(2, b"010100010000FC\n")), Some(12..14));
        assert_eq!(mark(&refused(2, b"01\n")), Some(0..2));
        assert_eq!(mark(&refused(3, b"0202FC\n")), Some(0..2));
        assert_eq!(mark(&refused(3, b"010100010000FD\n00\n")), Some(0..2));
        assert_eq!(mark(&refused(3, b"0101FE\n")), None);
        assert_eq!(mark(&refused(3, b"010100010000FD00\n")), Some(14..16));
    }

    #[test]
    fn wrong_fields_of_a_head_are_marked() {
        for (head, place, due) in [
            (b"010400010000FA\n", 1, 2..4),
            (b"010200000000FD\n", 2, 4..8),
            (b"010100000000FE\n", 2, 4..8),
            (b"010103E9000012\n", 2, 4..8),
            (b"0101000103E911\n", 3, 8..12),
        ] {
            let fault = refused(4, head);
            assert_eq!(mark(&fault), Some(due.clone()));
            let fields = fault.cursor.and_then(|cursor| cursor.fields);
            let fields = fields.expect("fields");
            let names = fields.iter().map(|field| field.name);
            assert!(names.eq(["kind", "edition", "nodes", "segments", "check"]));
            assert_eq!(fields[place].digits, due);
        }
    }

    /// Only the check and the wrong field of these lines have a digit F.
    #[test]
    fn each_wrong_field_of_a_segment_is_marked() {
        for edition in EDITIONS {
            assert!(Network::read(&text_of(edition, &[street()])).is_ok());
            (0..=AT_A + TURN_SPEED).for_each(|field| is_marked(edition, field));
        }
    }

    fn is_marked(edition: Edition, field: usize) {
        let mut wrong = street();
        wrong.set(field, u32::MAX);
        let fault = refused(4, &text_of(edition, &[wrong]));
        let name = segment::name(field);
        assert!(fault.words.starts_with(&format!("{name} is ")), "{name}");
        let mark = mark(&fault).expect(name);
        let cursor = fault.cursor.expect("a line");
        let whole = 2 * edition.segment_bytes();
        let digits = (0..whole - 2).filter(|place| cursor.part[*place] == b'F');
        assert!(mark.clone().eq(digits), "{name}");
        let fields = cursor.fields.expect("fields");
        let marked = fields.iter().filter(|field| field.digits == mark);
        assert!(marked.map(|field| field.name).eq([name]));
        assert_eq!((fields[0].name, fields[24].name), ("kind", "check"));
        assert_eq!((fields[24].digits.end, fields.len()), (whole, 25));
    }

    /// The street with another number in a field, under each edition: either
    /// Read takes it, or the words end so.
    fn ends(field: usize, number: u32, due: [&str; 3]) {
        let mut street = street();
        street.set(field, number);
        if field == AT_B + CONTROL {
            street.set(AT_B + CROSSED, 0);
            street.set(AT_B + CROSSED_SPEED, 0);
        }
        for (edition, due) in EDITIONS.into_iter().zip(due) {
            let text = text_of(edition, &[street.clone()]);
            match due {
                "" => assert!(Network::read(&text).is_ok(), "{number}"),
                _ => assert_eq!(refused(4, &text).words, due),
            }
        }
    }

    #[test]
    fn what_a_later_edition_has_is_said() {
        let marks = |number: u32, most: u32, digits: &str| {
            format!("marks is {number} and must be 0 to {most} in mixed traffic (digits {digits})")
        };
        let later = |number| marks(number, 15, "29 to 30") + "; edition 02 has 0 to 31";
        ends(MARKS, 15, ["", "", ""]);
        ends(MARKS, 16, [&later(16), "", ""]);
        ends(MARKS, 31, [&later(31), "", ""]);
        let beyond = [(15, "29 to 30"), (31, "29 to 30"), (31, "33 to 34")];
        let beyond = beyond.map(|(most, digits)| marks(32, most, digits));
        ends(MARKS, 32, [&beyond[0], &beyond[1], &beyond[2]]);
        let control = |number: u32, most: u32, digits: &str| {
            format!("control at B is {number} and must be 0 to {most} (digits {digits})")
        };
        let later = control(5, 4, "31 to 32") + "; edition 02 has 0 to 5";
        ends(AT_B + CONTROL, 5, [&later, "", ""]);
        let beyond = [(4, "31 to 32"), (5, "31 to 32"), (5, "35 to 36")];
        let beyond = beyond.map(|(most, digits)| control(6, most, digits));
        ends(AT_B + CONTROL, 6, [&beyond[0], &beyond[1], &beyond[2]]);
    }

    /// Lengths that the 2 bytes of editions 01 and 02 do not hold stand in 03
    /// alone.
    #[test]
    fn lengths_are_said_by_their_edition() {
        let length = |number: u32| {
            let words = format!("length is {number} and must be 1 to 52800 (digits 15 to 18)");
            words + "; edition 03 has 1 to 264000"
        };
        ends(LENGTH, 52_800, ["", "", ""]);
        ends(LENGTH, 52_801, [&length(52_801), &length(52_801), ""]);
        ends(LENGTH, 65_535, [&length(65_535), &length(65_535), ""]);
        let none = "length is 0 and must be 1 to 52800 (digits 15 to 18)";
        let wide =
            |number: u32| format!("length is {number} and must be 1 to 264000 (digits 15 to 22)");
        ends(LENGTH, 0, [none, none, &wide(0)]);
        for (number, due) in [
            (65_536, false),
            (264_000, false),
            (264_001, true),
            (1 << 24, true),
        ] {
            let mut street = street();
            street.set(LENGTH, number);
            let text = text_of(EDITIONS[2], &[street]);
            match due {
                true => assert_eq!(refused(4, &text).words, wide(number)),
                false => assert!(Network::read(&text).is_ok(), "{number}"),
            }
        }
    }

    /// A frame of the other length, and one of no edition's.
    #[test]
    fn frames_of_another_edition_are_said() {
        let said = |own: Edition, other: &[u8]| {
            let text = [text_of(own, &[]), line(other).into()].concat();
            let fault = refused(3, &text);
            (fault.words.clone(), mark(&fault))
        };
        let [older, _, counties] = EDITIONS;
        let frames = [older, counties].map(|edition| street().frame(edition));
        let due = "the line has 30 bytes, and a segment of edition 03 has 32: digits are missing; one of edition 01 or 02 has 30";
        assert_eq!(said(counties, &frames[0]), (due.into(), None));
        for edition in &EDITIONS[..2] {
            let due = format!(
                "the line has 32 bytes, and a segment of edition {edition} has 30: digits are too many; one of edition 03 has 32"
            );
            assert_eq!(said(*edition, &frames[1]), (due, Some(60..64)));
        }
        let due = "the line has 3 bytes, and a segment of edition 03 has 32: digits are missing";
        assert_eq!(said(counties, &[2, 0, 0xFE]), (due.into(), None));
    }

    /// A head of an edition with these counts of nodes and segments.
    fn counted(edition: Edition, nodes: u32, segments: u32) -> Vec<u8> {
        let head = Head {
            edition,
            nodes,
            segments,
        };
        line(&head.frame()).into()
    }

    #[test]
    fn counts_are_said_by_their_edition() {
        let [older, _, counties] = EDITIONS;
        for (edition, nodes, segments, due) in [
            (older, 0, 0, "0 nodes: edition 01 has 1 to 1000"),
            (
                older,
                1_001,
                9_999,
                "1001 nodes: edition 01 has 1 to 1000; edition 03 has 1 to 8000",
            ),
            (older, 8_001, 0, "8001 nodes: edition 01 has 1 to 1000"),
            (
                older,
                1,
                8_000,
                "8000 segments: edition 01 has 0 to 1000; edition 03 has 0 to 8000",
            ),
            (counties, 0, 0, "0 nodes: edition 03 has 1 to 8000"),
            (counties, 8_001, 0, "8001 nodes: edition 03 has 1 to 8000"),
            (
                counties,
                8_000,
                65_535,
                "65535 segments: edition 03 has 0 to 8000",
            ),
        ] {
            let fault = refused(4, &counted(edition, nodes, segments));
            assert_eq!(fault.words, due);
            let count = if due.contains("nodes") { 4..8 } else { 8..12 };
            assert_eq!(mark(&fault), Some(count));
        }
        assert!(Network::read(&counted(counties, 8_000, 0)).is_ok());
    }

    /// A street of a form, with a control at B.
    fn street_of(form: u32, control: u32) -> Segment {
        let mut segment = street();
        segment.set(FORM, form);
        segment.set(AT_B + CONTROL, control);
        let traffic = [LANES, SPEED].into_iter().filter(|_| form == 3);
        let crossed = [AT_B + CROSSED, AT_B + CROSSED_SPEED].into_iter();
        let crossed = crossed.filter(|_| [0, 1, 5].contains(&control));
        traffic
            .chain(crossed)
            .for_each(|field| segment.set(field, 0));
        segment
    }

    /// Whether Read refuses the segment with 4, and so does a rule.
    fn is_wrong(edition: Edition, segment: &Segment) -> bool {
        let head = Head {
            edition,
            nodes: 2,
            segments: 1,
        };
        let text = text_of(edition, std::slice::from_ref(segment));
        let refused = Network::refused_line(&text);
        let wrong = refused.is_some_and(|line| line.refusal == Refusal::WrongField);
        let broken = segment::broken(segment, head).is_some();
        assert_eq!(broken, wrong, "{edition} {segment:?}");
        wrong
    }

    /// Whatever number stands in a field, under each edition.
    #[test]
    fn rules_are_reads() {
        let numbers = (0..=37).chain(59..=61).chain(84..=86).chain([128, 255]);
        let lengths = [52_800, 52_801, 65_535, 65_536, 264_000, 264_001, u32::MAX];
        let numbers = numbers.chain(lengths);
        let numbers: Vec<u32> = numbers.collect();
        let met = (0..4).flat_map(|form| (0..6).map(move |control| street_of(form, control)));
        let mut wrong = [0; 2];
        for (edition, street) in met.flat_map(|street| EDITIONS.map(|it| (it, street.clone()))) {
            for field in 0..=AT_A + TURN_SPEED {
                for number in &numbers {
                    let mut segment = street.clone();
                    segment.set(field, *number);
                    wrong[usize::from(is_wrong(edition, &segment))] += 1;
                }
            }
        }
        assert!(wrong.into_iter().all(|count| count > 10_000), "{wrong:?}");
    }

    #[test]
    fn an_improved_signal_crosses_no_lanes() {
        for (field, name) in [(CROSSED, "lanes"), (CROSSED_SPEED, "speed")] {
            let mut street = street();
            for (field, number) in [(CONTROL, 5), (CROSSED, 0), (CROSSED_SPEED, 0)] {
                street.set(AT_A + field, number);
            }
            street.set(AT_A + field, 9);
            let words = refused(4, &text_of(EDITIONS[1], &[street])).words;
            let due = format!("{name} crossed at A is 9 and must be 0 at an improved signal");
            assert!(words.starts_with(&due), "{words}");
        }
    }

    #[test]
    fn taken_legs_are_marked_and_lines_too_many_are_not() {
        let mut loops = street();
        loops.set(B_NODE, 0);
        assert_eq!(mark(&refused(6, &text(&[loops]))), Some(8..14));
        let twice = [street(), street()];
        assert_eq!(mark(&refused(6, &text(&twice))), Some(2..8));
        let mut other = street();
        other.set(A_LEG, 3);
        assert_eq!(mark(&refused(6, &text(&[street(), other]))), Some(8..14));
        let more = [text(&[]), line(&street().frame(EDITIONS[0])).into()].concat();
        assert_eq!(mark(&refused(5, &more)), None);
    }

    #[test]
    fn where_lines_are_missing_nothing_is_shown() {
        for (number, text) in [(3, &b""[..]), (5, b"010100030003F8\n")] {
            let fault = refused(number, text);
            assert_eq!(fault.shown(), "");
            let cursor = fault.cursor.expect("a place");
            assert_eq!((cursor.start, cursor.part.len()), (text.len(), 0));
        }
    }
}
