//! `town-levels` prints what program `levels` must print for its input.

use oracle::levels;
use std::process::ExitCode;
use towns::program;

fn main() -> ExitCode {
    program::answer(program::input().map(|input| levels(&input).into_bytes()))
}
