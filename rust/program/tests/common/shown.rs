//! The refused line on the screen, held to the file: which line it is, and
//! where its mark may stand.

use std::ops::Range;

/// The widths of the fields in bytes, kind and check too; the sixth of a segment
/// is its length.
const HEAD: [usize; 5] = [1, 1, 2, 2, 1];
const SEGMENT: [usize; 25] = [
    1, 2, 1, 2, 1, 2, 1, 1, 1, 1, 1, 1, 1, 1, 1, 1, 2, 1, 1, 1, 1, 1, 2, 1, 1,
];
const SEGMENT_03: [usize; 25] = [
    1, 2, 1, 2, 1, 4, 1, 1, 1, 1, 1, 1, 1, 1, 1, 1, 2, 1, 1, 1, 1, 1, 2, 1, 1,
];
/// The most bytes of a line that are shown.
const MOST: usize = 100;

/// The refused line of a text as the oracle finds it.
pub struct Refused<'t> {
    /// The refusal's number.
    pub refusal: u8,
    /// The line's number.
    pub number: usize,
    /// The bytes of the text before it.
    pub start: usize,
    /// Its bytes without the line feed.
    pub line: &'t [u8],
    /// The bytes of the text from it on.
    rest: &'t [u8],
    /// The widths of the fields that are due in it.
    widths: &'static [usize],
}

impl<'t> Refused<'t> {
    /// None where the oracle accepts the text.
    pub fn of(text: &'t [u8]) -> Option<Refused<'t>> {
        let (refusal, number) = oracle::read(text, usize::MAX).err()?;
        let feed = |bytes: &[u8]| bytes.iter().position(|&byte| byte == b'\n');
        let mut rest = text;
        for _ in 1..number {
            rest = &rest[feed(rest).expect("a line before it") + 1..];
        }
        Some(Refused {
            refusal,
            number,
            start: text.len() - rest.len(),
            line: &rest[..feed(rest).unwrap_or(rest.len())],
            rest,
            widths: match (number, text.get(2..4)) {
                (1, _) => &HEAD,
                (_, Some(b"03")) => &SEGMENT_03,
                _ => &SEGMENT,
            },
        })
    }

    /// The mark, in bytes of the line, where these lines show the line as they
    /// must; otherwise what is wrong.
    pub fn mark(&self, below: &str) -> Result<Option<Range<usize>>, &'static str> {
        if self.rest.is_empty() {
            let nothing = below.is_empty().then_some(None);
            return nothing.ok_or("a line that is not there");
        }
        let screen = Screen::read(self.number, below).ok_or("lines that show none")?;
        let mut marks = self.marks().into_iter();
        let mark = marks.find(|mark| screen.shows(self.line, mark.as_ref()));
        let mark = mark.ok_or("another line, or another mark")?;
        match self.refusal {
            4 if !self.has_fields(&screen.fields, mark.as_ref()) => Err("other fields"),
            1..=3 | 5.. if !screen.fields.is_empty() => Err("fields that are not due"),
            _ => Ok(mark),
        }
    }

    /// The marks that may stand there: one, or one of these where a field or
    /// an end is wrong.
    fn marks(&self) -> Vec<Option<Range<usize>>> {
        let length = self.line.len();
        match self.refusal {
            1 => vec![Some(self.wrong_digit())],
            2 => vec![Some(length - 2..length)],
            3 => vec![self.wrong_frame()],
            4 => self.fields().into_iter().map(Some).collect(),
            6 => vec![Some(2..8), Some(8..14)],
            _ => vec![None],
        }
    }

    /// The first byte that is no digit, or the last digit, or the place after.
    fn wrong_digit(&self) -> Range<usize> {
        let (line, length) = (self.line, self.line.len());
        let ended = self.rest.len() > length;
        let none = |byte: &u8| !b"0123456789ABCDEF".contains(byte);
        let place = match line.iter().position(none) {
            Some(place) => place,
            None if ended => length.saturating_sub(1),
            None => length,
        };
        place..place + 1
    }

    fn wrong_frame(&self) -> Option<Range<usize>> {
        let kind = if self.number == 1 { b"01" } else { b"02" };
        let digits = 2 * self.widths.iter().sum::<usize>();
        match self.line.starts_with(kind) {
            false => Some(0..2),
            true => (self.line.len() > digits).then_some(digits..self.line.len()),
        }
    }

    /// The digits of each field.
    fn fields(&self) -> Vec<Range<usize>> {
        let ends = self.widths.iter().scan(0, |end, width| {
            *end += 2 * width;
            Some(*end)
        });
        let ends = ends.zip(self.widths);
        ends.map(|(end, width)| end - 2 * width..end).collect()
    }

    /// Whether these rows are the line's fields, with an arrow at the wrong one.
    fn has_fields(&self, rows: &[&str], mark: Option<&Range<usize>>) -> bool {
        let fields = self.fields();
        let Some((heading, rows)) = rows.split_first() else {
            return false;
        };
        let right = |(row, field): (&&str, &Range<usize>)| {
            let mut words = row.split_whitespace().peekable();
            let arrow = words.next_if_eq(&">").is_some();
            let digits = str::from_utf8(&self.line[field.clone()]).expect("digits");
            let number = u32::from_str_radix(digits, 16).expect("digits").to_string();
            arrow == (mark == Some(field))
                && words.next() == Some(digits)
                && words.next_back() == Some(number.as_str())
        };
        heading.split_whitespace().eq(["Digits", "Field", "Number"])
            && rows.len() == fields.len()
            && rows.iter().zip(&fields).all(right)
    }
}

/// The rows of the screen, without what stands before the line.
struct Screen<'e> {
    line: &'e str,
    mark: Option<&'e str>,
    fields: Vec<&'e str>,
}

impl<'e> Screen<'e> {
    fn read(number: usize, below: &'e str) -> Option<Screen<'e>> {
        let number = number.to_string();
        let blank = format!("  {} |", " ".repeat(number.len()));
        let mut rows = below.strip_suffix('\n')?.split('\n');
        let line = rows.next()?.strip_prefix(&format!("  {number} | "))?;
        let rows: Option<Vec<&str>> = rows.map(|row| row.strip_prefix(&blank)).collect();
        let mut rows = rows?;
        let marked = rows.first().is_some_and(|row| row.contains('^'));
        let mark = marked.then(|| rows.remove(0).strip_prefix(' '));
        Some(Screen {
            line,
            mark: mark.flatten(),
            fields: rows,
        })
    }

    /// Whether this is the line with this mark, from its first byte on or cut
    /// before the mark.
    fn shows(&self, line: &[u8], mark: Option<&Range<usize>>) -> bool {
        let column = self.mark.and_then(|row| row.find('^'));
        let later = mark
            .zip(column)
            .and_then(|(mark, column)| (mark.start + 2).checked_sub(column));
        let later = later.filter(|start| start + MOST <= line.len());
        [Some(0), later].into_iter().flatten().any(|start| {
            let due = rows(line, mark, start);
            due.is_some_and(|(line, mark)| {
                (line.as_str(), mark.as_deref()) == (self.line, self.mark)
            })
        })
    }
}

/// A line and its mark as they must stand where this byte is the first shown;
/// none where the mark is out of sight.
fn rows(
    line: &[u8],
    mark: Option<&Range<usize>>,
    start: usize,
) -> Option<(String, Option<String>)> {
    let end = line.len().min(start + MOST);
    let [before, after] = [start > 0, end < line.len()].map(|cut| if cut { ".." } else { "" });
    let shown = line[start..end].iter().map(|byte| match byte {
        0x20..=0x7E => char::from(*byte),
        _ => '\u{FFFD}',
    });
    let row = format!("{before}{}{after}", shown.collect::<String>());
    let Some(mark) = mark else {
        return (start == 0).then_some((row, None));
    };
    let column = before.len() + mark.start.checked_sub(start)?;
    let width = mark.end.min(end).saturating_sub(mark.start).max(1);
    let under = format!("{}{}", " ".repeat(column), "^".repeat(width));
    let seen = mark.start < end || end == line.len();
    seen.then_some((row, Some(under)))
}
