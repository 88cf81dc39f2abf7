//! How streets are drawn: by colour, and by width and dashes for readers who do
//! not see colours and for prints that have none.

use std::fmt;

/// A colour: red, green and blue, a byte each.
#[derive(Clone, Copy, Debug, PartialEq, Eq)]
pub struct Colour(pub [u8; 3]);

impl Colour {
    /// Whether white letters are read on it better than black ones.
    pub fn is_dark(self) -> bool {
        let Colour(parts) = self;
        let seen = parts.into_iter().zip([299, 587, 114]);
        seen.map(|(part, weight)| u32::from(part) * weight)
            .sum::<u32>()
            < 128_000
    }
}

impl fmt::Display for Colour {
    fn fmt(&self, out: &mut fmt::Formatter<'_>) -> fmt::Result {
        let Colour([red, green, blue]) = self;
        write!(out, "#{red:02X}{green:02X}{blue:02X}")
    }
}

/// How a street is drawn.
#[derive(Clone, Debug)]
pub struct Ink {
    /// The name of its streets in a picture.
    pub name: String,
    /// What it means.
    pub words: String,
    pub colour: Colour,
    pub width: f64,
    /// Lengths of a dash and of the gap after it; none for a line without
    /// gaps.
    pub dashes: Option<(u32, u32)>,
}

/// The levels' inks, from 1 to 4: colours of Okabe and Ito, which colour-blind
/// readers can tell apart.
pub fn levels() -> Vec<Ink> {
    let inks = [
        ([0x00, 0x9E, 0x73], 3.0, None),
        ([0x00, 0x72, 0xB2], 6.0, None),
        ([0xE6, 0x9F, 0x00], 6.0, Some((16, 5))),
        ([0xD5, 0x5E, 0x00], 8.0, Some((4, 4))),
    ];
    let inks = (1..).zip(inks);
    inks.map(|(level, (colour, width, dashes))| Ink {
        name: format!("level-{level}"),
        words: format!("level {level}"),
        colour: Colour(colour),
        width,
        dashes,
    })
    .collect()
}

/// The route, names and frames.
pub const DARK: Colour = Colour([0x1A, 0x1A, 0x1A]);
/// What the answer leaves out: lines, the ground of nodes, names.
pub const GREY_LINE: Colour = Colour([0x8C, 0x8C, 0x8C]);
pub const GREY_GROUND: Colour = Colour([0xE0, 0xE0, 0xE0]);
pub const GREY_NAME: Colour = Colour([0x6B, 0x6B, 0x6B]);
