//! Why there is no answer.

use crate::cursor::Cursor;
use splicereel::Refusal;

/// What is wrong, for a person to mend.
#[derive(Debug)]
pub struct Fault {
    /// The line of the file where it shows, counted from 1.
    pub line: Option<usize>,
    /// The refusal, where a call refused.
    pub refusal: Option<Refusal>,
    /// What to mend, in one line.
    pub words: String,
    /// The line itself, where it is one of a network text that Read refused.
    pub cursor: Option<Box<Cursor>>,
}

impl Fault {
    /// A fault of no line and no call.
    pub fn new(words: impl Into<String>) -> Fault {
        Fault {
            line: None,
            refusal: None,
            words: words.into(),
            cursor: None,
        }
    }

    /// A fault at a line of the file.
    pub fn at(line: usize, words: impl Into<String>) -> Fault {
        Fault {
            line: Some(line),
            ..Fault::new(words)
        }
    }

    /// A fault because a call refused.
    pub fn refused(refusal: Refusal, words: impl Into<String>) -> Fault {
        Fault {
            refusal: Some(refusal),
            ..Fault::new(words)
        }
    }

    /// All of it in one line, but for the refused line itself.
    pub fn sentence(&self) -> String {
        let refused = self.refusal.map(|refusal| match refusal.number() {
            0 => "refused".to_string(),
            number => format!("refused, number {number}"),
        });
        let line = self.line.map(|line| format!("line {line}"));
        let before: Vec<String> = [refused, line].into_iter().flatten().collect();
        match before.is_empty() {
            true => self.words.clone(),
            false => format!("{}: {}", before.join(", "), self.words),
        }
    }

    /// The refused line itself, in lines that stand below the sentence.
    pub fn shown(&self) -> String {
        match (self.line, &self.cursor) {
            (Some(number), Some(cursor)) => cursor.lines(number),
            _ => String::new(),
        }
    }
}

/// A word of the user's as a message shows it: in quotes, in one line, with
/// no control characters, and not too long.
pub fn quoted(word: &str) -> String {
    const MOST: usize = 40;
    let shown: String = word.chars().take(MOST).map(printable).collect();
    let more = if word.chars().nth(MOST).is_some() {
        ".."
    } else {
        ""
    };
    format!("'{shown}{more}'")
}

/// The character, or a mark in place of one that a page cannot show in its
/// line: control characters, separators of lines, and those that turn the
/// direction of what comes after them.
pub fn printable(character: char) -> char {
    match character {
        '\u{2028}'..='\u{202E}' | '\u{2066}'..='\u{2069}' => '\u{FFFD}',
        _ if character.is_control() => '\u{FFFD}',
        _ => character,
    }
}
