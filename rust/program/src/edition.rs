//! What each edition of the format fixes.

use std::fmt;

/// An edition.
#[derive(Clone, Copy, Debug, PartialEq, Eq)]
pub struct Edition {
    /// The byte of a head that names it.
    pub number: u32,
    /// The most nodes and the most segments of a network.
    pub nodes: u32,
    pub segments: u32,
    /// The longest segment, and the bytes of a length.
    pub feet: u32,
    pub length_bytes: usize,
    /// The sum of all marks.
    pub marks: u32,
    /// The greatest control.
    pub control: u32,
}

const OLDER: Edition = Edition {
    number: 1,
    nodes: 1_000,
    segments: 1_000,
    feet: 52_800,
    length_bytes: 2,
    marks: 15,
    control: 4,
};

const NEWER: Edition = Edition {
    number: 2,
    marks: 31,
    control: 5,
    ..OLDER
};

pub const COUNTIES: Edition = Edition {
    number: 3,
    nodes: 8_000,
    segments: 8_000,
    feet: 264_000,
    length_bytes: 4,
    ..NEWER
};

/// The editions that are known, in their order. A table that names none is of
/// the first.
pub const EDITIONS: [Edition; 3] = [OLDER, NEWER, COUNTIES];

/// The editions that a network can be moved to, each from the other.
pub const MOVED: [Edition; 2] = [NEWER, COUNTIES];

/// Why there is no third.
pub const NO_MOVE: &str = "edition 01 has no move, since its levels would change";

impl Edition {
    /// The edition that a number names.
    pub fn numbered(number: u32) -> Option<Edition> {
        EDITIONS
            .into_iter()
            .find(|edition| edition.number == number)
    }

    /// The edition that a word names: `2` or `02`.
    pub fn named(word: &str) -> Option<Edition> {
        let digits = word.bytes().all(|byte| byte.is_ascii_digit());
        Edition::numbered(word.parse().ok().filter(|_| digits)?)
    }

    /// The editions after it.
    pub fn later(self) -> impl Iterator<Item = Edition> {
        EDITIONS
            .into_iter()
            .filter(move |later| later.number > self.number)
    }

    /// The bytes of a segment's frame.
    pub fn segment_bytes(self) -> usize {
        28 + self.length_bytes
    }
}

/// `03`.
impl fmt::Display for Edition {
    fn fmt(&self, out: &mut fmt::Formatter<'_>) -> fmt::Result {
        write!(out, "{:02}", self.number)
    }
}

/// `01, 02 or 03`, with this word before the last.
pub fn listed(editions: &[Edition], word: &str) -> String {
    let names: Vec<String> = editions.iter().map(Edition::to_string).collect();
    match names.split_last() {
        Some((last, before)) if !before.is_empty() => {
            format!("{} {word} {last}", before.join(", "))
        }
        _ => names.concat(),
    }
}
