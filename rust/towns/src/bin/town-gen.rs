//! `town-gen SHAPE SEED SEGMENTS [EDITION]` writes a random network text, of
//! edition 01 if nothing else is said.

use std::process::ExitCode;
use towns::draw::{Shape, town_of};
use towns::edition::EDITIONS;
use towns::program::{self, number};
use towns::town::OLDER;

fn text(words: &[String]) -> Option<Vec<u8>> {
    let (shape, seed, segments, edition) = match words {
        [shape, seed, segments] => (shape, seed, segments, OLDER),
        [shape, seed, segments, edition] => (shape, seed, segments, number(edition)?),
        _ => return None,
    };
    if !EDITIONS.contains(&edition) {
        return None;
    }
    let shape = Shape::from_name(shape)?;
    Some(town_of(edition, shape, number(seed)?, number(segments)?).text())
}

fn main() -> ExitCode {
    match text(&program::words()) {
        Some(text) => program::answer(Some(text)),
        None => {
            let names = Shape::ALL.map(Shape::name).join(" ");
            program::usage(&format!(
                "town-gen SHAPE SEED SEGMENTS [EDITION], SHAPE one of {names}, EDITION 1, 2 or 3"
            ))
        }
    }
}
