//! The tables of a Markdown file.

use crate::fault::{Fault, quoted};
use std::borrow::Cow;

/// A table's row: its line, counted from 1, and its cells.
#[derive(Debug)]
pub struct Row<'t> {
    pub line: usize,
    pub cells: Vec<Cow<'t, str>>,
}

/// A table: lines that begin with `|`, one after another.
#[derive(Debug)]
pub struct Table<'t> {
    pub heading: Row<'t>,
    /// The lines below the heading, each with its number.
    lines: Vec<(usize, &'t str)>,
}

/// Whether a file has a line that could be a table's.
pub fn has_rows(file: &[u8]) -> bool {
    file.split(|&byte| byte == b'\n')
        .any(|line| line.trim_ascii_start().starts_with(b"|"))
}

/// The tables outside fenced blocks. What a reader would take for a row, and
/// would be passed over here, is a fault: no row is lost in silence.
pub fn tables(text: &str) -> Result<Vec<Table<'_>>, Fault> {
    let mut tables: Vec<Table<'_>> = Vec::new();
    let (mut fence, mut within) = (None, false);
    for (number, line) in (1..).zip(text.lines()) {
        let line = line.trim();
        if line.starts_with("```") {
            fence = fence.xor(Some(number));
        }
        let before = within;
        within = line.starts_with('|') && fence.is_none();
        match tables.last_mut().filter(|_| before) {
            Some(table) if within => table.lines.push((number, line)),
            Some(_) if fence.is_none() && line.contains('|') => {
                let what = format!("the row does not begin with a bar, |: {}", quoted(line));
                return Err(Fault::at(number, what));
            }
            _ if within => tables.push(headed(row(number, line)?)?),
            _ => {}
        }
    }
    match fence {
        Some(line) => Err(Fault::at(
            line,
            "the fenced block that begins here does not end",
        )),
        None => Ok(tables),
    }
}

/// The name of the town: the file's first heading.
pub fn title(text: &str) -> Option<&str> {
    text.lines()
        .find_map(|line| line.strip_prefix("# "))
        .map(str::trim)
}

/// A table with this heading, which is not a row of numbers.
fn headed(heading: Row<'_>) -> Result<Table<'_>, Fault> {
    let first = &heading.cells[0];
    if !first.is_empty() && first.bytes().all(|byte| byte.is_ascii_digit()) {
        let what = "a row of no table: an empty line, or another text, parts it from its heading";
        return Err(Fault::at(heading.line, what));
    }
    Ok(Table {
        heading,
        lines: vec![],
    })
}

/// The cells between bars; `\|` is a bar within a cell.
fn row(line: usize, text: &str) -> Result<Row<'_>, Fault> {
    let inner = text.strip_prefix('|').unwrap_or(text);
    let Some(inner) = inner
        .strip_suffix('|')
        .filter(|inner| !inner.ends_with('\\'))
    else {
        let what = format!("the row does not end with a bar, |: {}", quoted(text));
        return Err(Fault::at(line, what));
    };
    let mut cells = Vec::new();
    let mut start = 0;
    for (bar, _) in inner.match_indices('|') {
        if !inner[..bar].ends_with('\\') {
            cells.push(cell(&inner[start..bar]));
            start = bar + 1;
        }
    }
    cells.push(cell(&inner[start..]));
    Ok(Row { line, cells })
}

fn cell(words: &str) -> Cow<'_, str> {
    let words = words.trim();
    match words.contains("\\|") {
        true => words.replace("\\|", "|").into(),
        false => words.into(),
    }
}

impl<'t> Table<'t> {
    /// The rows below the dashes, each with as many cells as the heading.
    pub fn rows(&self) -> Result<Vec<Row<'t>>, Fault> {
        self.below()?.collect()
    }

    /// The same rows, numbered from 0 in the first cell.
    pub fn numbered(&self) -> Result<Vec<Row<'t>>, Fault> {
        let rows = self.below()?.enumerate();
        rows.map(|(number, row)| in_order(number, row?)).collect()
    }

    /// What stands below the dashes, row by row.
    fn below(&self) -> Result<impl Iterator<Item = Result<Row<'t>, Fault>>, Fault> {
        let mut lines = self.lines.iter().map(|&(line, text)| row(line, text));
        let dashes =
            |cell: &Cow<'_, str>| !cell.is_empty() && cell.chars().all(|sign| "-:".contains(sign));
        if !lines
            .next()
            .transpose()?
            .is_some_and(|row| row.cells.iter().all(dashes))
        {
            let what = "a row of dashes, as in |---|---|, is due below this heading";
            return Err(Fault::at(self.heading.line, what));
        }
        Ok(lines.map(|row| self.whole(row?)))
    }

    /// The row, if it has a cell for each column.
    fn whole(&self, row: Row<'t>) -> Result<Row<'t>, Fault> {
        let (columns, cells) = (self.heading.cells.len(), row.cells.len());
        if cells != columns {
            let what = format!("{cells} cells, and the heading has {columns}");
            return Err(Fault::at(row.line, what));
        }
        Ok(row)
    }
}

/// The row, if it has that number.
fn in_order(number: usize, row: Row<'_>) -> Result<Row<'_>, Fault> {
    if row.cells[0] != number.to_string() {
        let what = format!(
            "the row is numbered {}, and {number} is due",
            quoted(&row.cells[0])
        );
        return Err(Fault::at(row.line, what));
    }
    Ok(row)
}
