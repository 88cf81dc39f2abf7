//! Rows with columns under one another.

use std::fmt::Write as _;

/// Where a column's cells stand.
#[derive(Clone, Copy, Debug, PartialEq, Eq)]
pub enum Side {
    Left,
    Right,
}

/// Rows of cells below a heading.
#[derive(Debug)]
pub struct Page {
    sides: Vec<Side>,
    rows: Vec<Vec<String>>,
}

impl Page {
    /// A page with these columns.
    pub fn new(columns: &[(&str, Side)]) -> Page {
        Page {
            sides: columns.iter().map(|(_, side)| *side).collect(),
            rows: vec![
                columns
                    .iter()
                    .map(|(name, _)| (*name).to_string())
                    .collect(),
            ],
        }
    }

    /// One row more.
    pub fn row(&mut self, cells: Vec<String>) {
        self.rows.push(cells);
    }

    /// The rows as lines; two blanks part the columns, and none end a line.
    pub fn lines(&self) -> String {
        let width = |column: usize| {
            let cells = self.rows.iter().filter_map(|row| row.get(column));
            cells.map(|cell| cell.chars().count()).max().unwrap_or(0)
        };
        let widths: Vec<usize> = (0..self.sides.len()).map(width).collect();
        let mut lines = String::new();
        for row in &self.rows {
            let mut line = String::new();
            for ((cell, &width), side) in row.iter().zip(&widths).zip(&self.sides) {
                // Writing to a string does not fail.
                let _ = match side {
                    Side::Left => write!(line, "  {cell:<width$}"),
                    Side::Right => write!(line, "  {cell:>width$}"),
                };
            }
            lines += line.trim_end();
            lines.push('\n');
        }
        lines
    }
}

/// Feet and miles of 5,280 feet, to the hundredth, half up.
pub fn feet_and_miles(feet: impl Into<u64>) -> String {
    let feet = feet.into();
    format!("{feet} ft, {} mi", miles(feet))
}

/// `0.61`.
pub fn miles(feet: impl Into<u64>) -> String {
    let hundredths = (u128::from(feet.into()) * 100 + 2_640) / 5_280;
    format!("{}.{:02}", hundredths / 100, hundredths % 100)
}

/// `, 57 %`, rounded down, so that 100 is said of all alone; of nothing there
/// is no share.
pub fn share(part: u64, whole: u64) -> String {
    let percent = (part * 100).checked_div(whole);
    percent.map_or_else(String::new, |percent| format!(", {percent} %"))
}
