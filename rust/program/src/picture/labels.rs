//! Where the nodes' names stand: beside their nodes, over as little as may be.

use super::cells::Cells;
use super::geometry::{Line, Point, Rect, at};
use super::map::Map;
use super::scene::Scene;

pub const SIZE: f64 = 11.0;
/// From one line of a name to the next.
pub const LEADING: f64 = 12.5;
/// The most characters of a name, and of a line of it where its words allow.
const MOST: usize = 60;
const WIDE: usize = 15;
/// A name over so many streets, nodes or names is covered anyhow: no more are
/// looked at.
const MANY: usize = 20;
/// From a node's middle to its name: near, or farther off where that covers
/// less.
const APART: [f64; 2] = [9.0, 18.0];

/// Where a line of text stands in relation to its point.
#[derive(Clone, Copy, Debug, PartialEq, Eq)]
pub enum Anchor {
    Start,
    Middle,
    End,
}

/// A node's name on paper.
#[derive(Debug)]
pub struct Label {
    pub lines: Vec<String>,
    pub anchor: Anchor,
    /// Where its first line is written.
    pub start: Point,
    pub frame: Rect,
}

/// The width of words on paper, as far as that can be told without the font.
pub fn width(words: &str, size: f64) -> f64 {
    let letter = |character: char| if character >= '\u{2E80}' { 1.0 } else { 0.6 };
    words.chars().map(letter).sum::<f64>() * size
}

/// Words cut after so many characters.
pub fn cut(words: &str, most: usize) -> String {
    match words.char_indices().nth(most) {
        Some((end, _)) => format!("{}..", &words[..end]),
        None => words.to_string(),
    }
}

/// A name in lines.
fn wrapped(name: &str) -> Vec<String> {
    let mut lines: Vec<String> = Vec::new();
    for word in cut(name, MOST).split_whitespace() {
        match lines.last_mut() {
            Some(line) if line.chars().count() + 1 + word.chars().count() <= WIDE => {
                line.push(' ');
                line.push_str(word);
            }
            _ => lines.push(word.to_string()),
        }
    }
    lines
}

/// To the right, to the left and in the middle; above, below and beside.
const SIDES: [(f64, f64); 8] = [
    (1.0, -1.0),
    (1.0, 1.0),
    (-1.0, -1.0),
    (-1.0, 1.0),
    (1.0, 0.0),
    (-1.0, 0.0),
    (0.0, -1.0),
    (0.0, 1.0),
];

/// A name at one side of its node, so far from it.
fn beside(node: Point, lines: &[String], (right, below): (f64, f64), apart: f64) -> Label {
    let wide = lines
        .iter()
        .map(|line| width(line, SIZE))
        .fold(0.0, f64::max);
    let high = LEADING * lines.len() as f64;
    let slanted = if right != 0.0 && below != 0.0 {
        0.7
    } else {
        1.0
    };
    let corner = node + at(right, below) * (apart * slanted);
    let low = corner + at((right - 1.0) / 2.0 * wide, (below - 1.0) / 2.0 * high);
    let frame = Rect {
        low,
        high: low + at(wide, high),
    };
    let anchor = match right {
        r if r > 0.0 => Anchor::Start,
        r if r < 0.0 => Anchor::End,
        _ => Anchor::Middle,
    };
    Label {
        lines: lines.to_vec(),
        anchor,
        start: at(corner.x, low.y + SIZE * 0.9),
        frame,
    }
}

/// What names should not cover.
struct Covered<'l> {
    names: Cells,
    nodes: Cells,
    streets: Cells,
    /// The streets' lines, by the numbers of their rectangles.
    lines: Vec<&'l Line>,
}

impl<'l> Covered<'l> {
    fn new(places: &[Point], lines: Vec<&'l Line>) -> Covered<'l> {
        let (mut nodes, mut streets) = (Cells::default(), Cells::default());
        for place in places {
            nodes.add(Rect::of(*place).wider(5.0));
        }
        for line in &lines {
            streets.add(Rect::round(line.points.iter().copied()).wider(1.0));
        }
        Covered {
            names: Cells::default(),
            nodes,
            streets,
            lines,
        }
    }

    /// How much a name there would cover: another name and a node are worse
    /// than a bit of a street. Streets are not looked at where that is no less
    /// than `least` without them.
    fn by(&self, frame: Rect, least: f64) -> f64 {
        let meeting = |others: &Cells| others.meeting(frame).take(MANY).count();
        let names = meeting(&self.names);
        if names == MANY {
            return f64::INFINITY;
        }
        let covered = 6.0 * names as f64 + 4.0 * meeting(&self.nodes) as f64;
        match covered < least {
            true => covered + self.streets_by(frame.wider(3.0)),
            false => covered,
        }
    }

    /// How much of streets alone.
    fn streets_by(&self, frame: Rect) -> f64 {
        let street = |number: usize| {
            let pieces = self.lines[number].pieces();
            let length: f64 = pieces.map(|(from, to)| frame.holds(from, to)).sum();
            if length > 0.0 {
                1.0 + length / 20.0
            } else {
                0.0
            }
        };
        let mut near: Vec<usize> = self.streets.meeting(frame).take(MANY).collect();
        near.sort_unstable();
        near.into_iter().map(street).sum()
    }

    /// The label that covers least; of several that cover as much, the first.
    fn least(&self, mut labels: impl Iterator<Item = Label>) -> Option<Label> {
        let mut best = labels.next()?;
        let mut least = self.by(best.frame, f64::INFINITY);
        for label in labels {
            if least == 0.0 {
                break;
            }
            let covers = self.by(label.frame, least);
            if covers < least {
                (best, least) = (label, covers);
            }
        }
        Some(best)
    }
}

/// The nodes' names, each where it covers least; `ridden` is the route's
/// line, which they should not cover either.
pub fn labels(scene: &Scene, map: &Map, ridden: &[Line]) -> Vec<Label> {
    let lines = map.lines.iter().chain(ridden).collect();
    let mut covered = Covered::new(&map.places, lines);
    let mut labels = Vec::with_capacity(scene.nodes.len());
    for (node, place) in scene.nodes.iter().zip(&map.places) {
        let mut lines = wrapped(&node.name);
        lines.extend(node.note.clone());
        let near = APART
            .into_iter()
            .flat_map(|apart| SIDES.map(|side| (side, apart)));
        let near = near.map(|(side, apart)| beside(*place, &lines, side, apart));
        if let Some(label) = covered.least(near) {
            covered.names.add(label.frame);
            labels.push(label);
        }
    }
    labels
}
