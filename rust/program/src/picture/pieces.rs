//! Pieces of SVG: each is an element or a part of one.

use super::geometry::{Line, Point, Rect};
use std::fmt::Write as _;

/// A coordinate, to a tenth.
pub fn number(number: f64) -> String {
    let tenths = (number * 10.0).round() / 10.0;
    // No sign before a zero.
    format!("{}", if tenths == 0.0 { 0.0 } else { tenths })
}

/// Words as XML has them.
pub fn escaped(words: &str) -> String {
    let mut out = String::with_capacity(words.len());
    for character in words.chars() {
        match character {
            '&' => out.push_str("&amp;"),
            '<' => out.push_str("&lt;"),
            '>' => out.push_str("&gt;"),
            '"' => out.push_str("&quot;"),
            // Characters that XML does not have.
            '\u{0}'..='\u{1F}' | '\u{FFFE}' | '\u{FFFF}' => out.push('\u{FFFD}'),
            _ => out.push(character),
        }
    }
    out
}

/// The points of a line, after the letter that begins a path or goes on.
pub fn points(first: char, points: &[Point]) -> String {
    let mut out = String::new();
    for (place, point) in points.iter().enumerate() {
        let letter = if place == 0 { first } else { 'L' };
        // Writing to a string does not fail.
        let _ = write!(out, "{letter}{} {}", number(point.x), number(point.y));
    }
    out
}

/// A line.
pub fn path(line: &Line, attributes: &str) -> String {
    format!("<path {attributes} d=\"{}\"/>", points('M', &line.points))
}

/// The points of an arrowhead so long whose middle is at a point.
pub fn arrow(middle: Point, direction: Point, long: f64) -> String {
    let (ahead, side) = (direction * (long * 0.5), direction.right() * (long * 0.45));
    let corners = [
        middle + ahead,
        middle - ahead + side,
        middle - ahead * 0.5,
        middle - ahead - side,
    ];
    points('M', &corners) + "Z"
}

/// A rectangle without lines.
pub fn rect(frame: Rect) -> String {
    let Rect { low, .. } = frame;
    let (wide, high) = (number(frame.width()), number(frame.height()));
    format!(
        "<rect x=\"{}\" y=\"{}\" width=\"{wide}\" height=\"{high}\"/>\n",
        number(low.x),
        number(low.y)
    )
}

/// A line of text.
pub fn text(start: Point, attributes: &str, words: &str) -> String {
    let (x, y) = (number(start.x), number(start.y));
    format!(
        "<text x=\"{x}\" y=\"{y}\"{attributes}>{}</text>\n",
        escaped(words)
    )
}
