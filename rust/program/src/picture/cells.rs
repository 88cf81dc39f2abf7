//! Rectangles by the cells of a grid on paper, so that of a county's thousands
//! those that meet another are found without a look at each.

use super::geometry::{Point, Rect};
use std::collections::HashMap;

/// The side of a cell, about as long as a name.
const SIDE: f64 = 100.0;
/// A rectangle over more cells is looked at wherever another is.
const LARGE: usize = 100;
/// Where so many are crowded, no more are looked at.
const CROWD: usize = 200;

/// A cell: its column and its row.
type Cell = (i64, i64);

/// Rectangles, numbered as they came.
#[derive(Debug, Default)]
pub struct Cells {
    rects: Vec<Rect>,
    /// The numbers of the rectangles in each cell.
    cells: HashMap<Cell, Vec<usize>>,
    /// The numbers of those that are over too many.
    large: Vec<usize>,
}

impl Cells {
    /// One rectangle more.
    pub fn add(&mut self, rect: Rect) {
        let number = self.rects.len();
        self.rects.push(rect);
        if under(rect).nth(LARGE).is_some() {
            self.large.push(number);
            return;
        }
        for cell in under(rect) {
            self.cells.entry(cell).or_default().push(number);
        }
    }

    /// The numbers of those that meet a rectangle, each once, in no order.
    pub fn meeting(&self, rect: Rect) -> impl Iterator<Item = usize> + '_ {
        let near = under(rect).flat_map(move |cell| {
            let numbers = self.cells.get(&cell).map_or(&[][..], Vec::as_slice);
            numbers.iter().map(move |number| (Some(cell), *number))
        });
        let large = self.large.iter().map(|number| (None, *number));
        let looked = near.chain(large).take(CROWD);
        let met = looked.filter(move |(cell, number)| {
            let other = self.rects[*number];
            // Where the two share several cells, it counts in the first of them.
            let is_first = |cell| cell == first_shared(rect, other);
            other.meets(rect) && cell.is_none_or(is_first)
        });
        met.map(|(_, number)| number)
    }
}

fn cell(point: Point) -> Cell {
    let [column, row] = [point.x, point.y].map(|place| (place / SIDE).floor() as i64);
    (column, row)
}

/// The cells that a rectangle touches.
fn under(rect: Rect) -> impl Iterator<Item = Cell> {
    let (low, high) = (cell(rect.low), cell(rect.high));
    (low.0..=high.0).flat_map(move |column| (low.1..=high.1).map(move |row| (column, row)))
}

/// The first cell that both touch, if they meet.
fn first_shared(one: Rect, other: Rect) -> Cell {
    let (one, other) = (cell(one.low), cell(other.low));
    (one.0.max(other.0), one.1.max(other.1))
}

#[cfg(test)]
mod tests {
    use super::super::geometry::at;
    use super::*;

    /// A rectangle of a row that goes over the edges of cells, both ways of 0;
    /// some are over many.
    fn rect(number: usize) -> Rect {
        let corner = at(number as f64 * 37.0 - 600.0, 400.0 - number as f64 * 29.0);
        let size = if number % 7 == 3 { 10.0 } else { 1.0 };
        Rect {
            low: corner,
            high: corner + at(90.0 + number as f64, 250.0) * size,
        }
    }

    /// The same as by a look at each.
    #[test]
    fn those_that_meet_are_found() {
        let mut cells = Cells::default();
        let rects: Vec<Rect> = (0..40).map(rect).collect();
        rects.iter().for_each(|rect| cells.add(*rect));
        let mut met = 0;
        for place in 0..40 {
            let asked = rect(place).wider(5.0 * place as f64 - 40.0);
            let due: Vec<usize> = (0..40).filter(|n| rects[*n].meets(asked)).collect();
            let mut found: Vec<usize> = cells.meeting(asked).collect();
            found.sort_unstable();
            assert_eq!(found, due);
            met += due.len();
        }
        assert!(met > 100 && cells.large.len() == 6, "{met}");
    }
}
