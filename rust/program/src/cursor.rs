//! The refused line of a network text on the screen: the line, a mark under
//! what is wrong, and its fields.
//!
//! Every byte takes one column, so that a mark stands under its byte, and no
//! byte of a file can upset a terminal.

use crate::json::Json;
use crate::page::{Page, Side};
use crate::segment::Field;
use std::ops::Range;

/// The most bytes of a line that are shown.
const MOST: usize = 100;

/// A refused line.
#[derive(Debug)]
pub struct Cursor {
    /// The bytes of the file before it.
    pub start: usize,
    /// Its bytes without the line feed.
    pub part: Vec<u8>,
    /// The bytes that are wrong, counted from 0 at its first; the place after
    /// its last is that of the line feed.
    pub mark: Option<Range<usize>>,
    /// Its fields, where one of them is against the rules.
    pub fields: Option<Vec<Field>>,
}

impl Cursor {
    /// The line with its number, the mark under it, and below them the fields,
    /// all behind a bar. Nothing where lines are missing: an empty line that is
    /// there has a mark.
    pub fn lines(&self, number: usize) -> String {
        if self.part.is_empty() && self.mark.is_none() {
            return String::new();
        }
        let number = number.to_string();
        let blank = " ".repeat(number.len());
        let window = self.window();
        let mut lines = format!("  {number} | {}\n", self.shown(&window));
        if let Some(mark) = &self.mark {
            lines += &format!("  {blank} | {}\n", under(mark, &window));
        }
        for row in self.table().lines() {
            lines += &format!("  {blank} |{row}\n");
        }
        lines
    }

    /// The bytes that are shown: all, or as many as may be round the mark.
    fn window(&self) -> Range<usize> {
        let length = self.part.len();
        let mark = self.mark.as_ref().map_or(0, |mark| mark.start);
        let start = mark
            .saturating_sub(MOST / 2)
            .min(length.saturating_sub(MOST));
        start..length.min(start + MOST)
    }

    fn shown(&self, window: &Range<usize>) -> String {
        let bytes = self.part.get(window.clone()).unwrap_or(&[]);
        let shown: String = bytes.iter().map(|&byte| column(byte)).collect();
        let after = cut(window.end < self.part.len());
        format!("{}{shown}{after}", cut(window.start > 0))
    }

    /// A row for each field, the wrong one's with an arrow.
    fn table(&self) -> String {
        let Some(fields) = &self.fields else {
            return String::new();
        };
        let mut page = Page::new(&[
            ("", Side::Left),
            ("Digits", Side::Left),
            ("Field", Side::Left),
            ("Number", Side::Right),
        ]);
        for field in fields {
            let wrong = self.mark.as_ref() == Some(&field.digits);
            page.row(vec![
                if wrong { ">" } else { "" }.into(),
                self.digits(field),
                field.name.into(),
                field.number.to_string(),
            ]);
        }
        page.lines()
    }

    fn digits(&self, field: &Field) -> String {
        let digits = self.part.get(field.digits.clone()).unwrap_or(&[]);
        digits.iter().map(|&byte| column(byte)).collect()
    }

    fn fields_json(&self) -> Option<Json> {
        let field = |field: &Field| {
            Json::Object(vec![
                ("field", Json::text(field.name)),
                ("digits", Json::text(self.digits(field))),
                ("number", Json::number(field.number)),
            ])
        };
        let fields = self.fields.as_ref()?;
        Some(Json::List(fields.iter().map(field).collect()))
    }
}

/// The refused line for scripts: where it stands in the file, what of it is
/// marked, and its fields.
pub fn json(cursor: Option<&Cursor>) -> [(&'static str, Json); 3] {
    let bytes = |start: usize, length: usize| {
        Json::Object(vec![
            ("start", Json::number(start)),
            ("length", Json::number(length)),
        ])
    };
    let part = cursor.map(|cursor| bytes(cursor.start, cursor.part.len()));
    let mark = cursor.and_then(|cursor| cursor.mark.as_ref());
    let mark = mark.map(|mark| bytes(mark.start, mark.len()));
    let fields = cursor.and_then(Cursor::fields_json);
    [("part", part), ("mark", mark), ("fields", fields)]
        .map(|(name, value)| (name, value.unwrap_or(Json::Null)))
}

/// A byte as a terminal shows it in one column.
fn column(byte: u8) -> char {
    match byte {
        b' '..=b'~' => char::from(byte),
        _ => '\u{FFFD}',
    }
}

/// What stands where a line is cut.
fn cut(is_cut: bool) -> &'static str {
    if is_cut { ".." } else { "" }
}

/// The mark below the bytes that are shown. The place of the line feed is past
/// them, and is marked all the same.
fn under(mark: &Range<usize>, window: &Range<usize>) -> String {
    let before = cut(window.start > 0).len() + mark.start.saturating_sub(window.start);
    let end = mark.end.min(window.end).max(mark.start + 1);
    format!("{:before$}{}", "", "^".repeat(end - mark.start))
}

#[cfg(test)]
mod tests {
    use super::*;

    fn lines(number: usize, part: &[u8], mark: Option<Range<usize>>) -> String {
        let cursor = Cursor {
            start: 0,
            part: part.to_vec(),
            mark,
            fields: None,
        };
        cursor.lines(number)
    }

    #[test]
    fn marks_stand_under_their_bytes() {
        assert_eq!(lines(7, b"01g1", Some(2..3)), "  7 | 01g1\n    |   ^\n");
        assert_eq!(lines(1_000, b"0", Some(1..2)), "  1000 | 0\n       |  ^\n");
        assert_eq!(lines(3, b"", Some(0..1)), "  3 | \n    | ^\n");
        assert_eq!(lines(3, b"02FE", None), "  3 | 02FE\n");
        assert_eq!(lines(3, b"", None), "");
        let odd = lines(2, b"\t\x1B[\x7F\x80\xC3\xA9 ~\r", Some(9..10));
        let due =
            "  2 | \u{FFFD}\u{FFFD}[\u{FFFD}\u{FFFD}\u{FFFD}\u{FFFD} ~\u{FFFD}\n    |          ^\n";
        assert_eq!(odd, due);
    }

    /// A line of zeros, the wrong byte a letter; where that is past the end, the
    /// line feed is missing.
    fn zeros(length: usize, wrong: usize) -> Vec<u8> {
        let mut line = vec![b'0'; length];
        line.extend(b"g");
        line.swap(wrong, length);
        line.truncate(length);
        line
    }

    #[test]
    fn long_lines_are_cut_round_the_mark() {
        let row = |wrong: usize| lines(1, &zeros(300, wrong), Some(wrong..wrong + 1));
        let under = |columns: usize| format!("    | {}^\n", " ".repeat(columns));
        let some = "0".repeat(50);
        let early = format!("  1 | 0g{some}{}..\n{}", &some[2..], under(1));
        let middle = format!("  1 | ..{some}g{}..\n{}", &some[1..], under(52));
        let late = format!("  1 | ..{some}{}g0\n{}", &some[2..], under(100));
        let after = format!("  1 | ..{some}{some}\n{}", under(102));
        assert_eq!(row(1), early);
        assert_eq!(row(150), middle);
        assert_eq!(row(298), late);
        assert_eq!(row(300), after);
    }

    #[test]
    fn windows_hold_the_mark_and_100_bytes() {
        for length in [1_usize, 99, 100, 101, 102, 149, 150, 151, 1_000, 1_000_000] {
            let middle = [49, 50, 51, 99, 100, 101, length / 2];
            let near = (0..3).flat_map(|step| [step, length.saturating_sub(step)]);
            for wrong in near.chain(middle).filter(|wrong| *wrong <= length) {
                let lines = lines(1, &zeros(length, wrong), Some(wrong..wrong + 1));
                let (row, mark) = lines.split_once('\n').expect("two lines");
                let column = row.find('g').unwrap_or(row.len());
                assert_eq!(mark.find('^'), Some(column), "{length}, {wrong}");
                let bytes = row[6..].replace("..", "").len();
                assert_eq!(bytes, length.min(MOST), "{length}, {wrong}");
            }
        }
    }

    #[test]
    fn long_marks_end_with_the_window() {
        let line = lines(1, &[b'0'; 300], Some(60..300));
        assert_eq!(line.matches('^').count(), 50);
        assert_eq!(lines(1, b"0000", Some(2..4)).matches('^').count(), 2);
    }
}
