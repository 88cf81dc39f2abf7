//! `town-route FROM TO TOLERANCE|least` answers for the network text on
//! standard input, by the oracle:
//!
//! - `found LENGTH`, for `least` with the tolerance after it,
//! - `none`,
//! - `refused NUMBER`, or `refused NUMBER LINE` where Read refuses.

use oracle::route;
use std::process::ExitCode;
use towns::program::{self, number};

/// Two nodes, and a tolerance or none for the least.
fn question(words: &[String]) -> Option<(usize, usize, Option<usize>)> {
    let [from, to, tolerance] = words else {
        return None;
    };
    let tolerance = match tolerance.as_str() {
        "least" => None,
        other => Some(number(other)?),
    };
    Some((number(from)?, number(to)?, tolerance))
}

fn main() -> ExitCode {
    let Some((from, to, tolerance)) = question(&program::words()) else {
        return program::usage("town-route FROM TO TOLERANCE|least < text");
    };
    let told = |text: Vec<u8>| route(&text, from, to, tolerance).into_bytes();
    program::answer(program::input().map(told))
}
