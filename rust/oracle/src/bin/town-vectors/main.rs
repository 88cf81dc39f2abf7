//! `town-vectors DIRECTORY` writes the inputs and outputs that are stored in
//! `tests`; `town-vectors tests` at the root of the repository writes them
//! anew:
//!
//! - `levels/NAME.in`, a standard input of program `levels`, and
//!   `levels/NAME.out`, what it must print;
//! - `levels/NAME.refused`, what program `examples_refused` must print for that
//!   input;
//! - `routes/NAME.in` and `routes/NAME.out`, the same as the first for program
//!   `examples_routes`;
//! - `counties/NAME.answers`, what must be answered about a county that
//!   `town-gen` draws, as its first line says.
//!
//! Inputs are laid out by hand, or drawn from a seed and some of them damaged;
//! outputs are the oracle's alone.

mod counties;
mod levels;
mod routes;

use std::fs;
use std::io;
use std::path::{Path, PathBuf};
use std::process::ExitCode;
use towns::program;
use towns::sizes::MOST_NODES;
use towns::town::Town;

fn main() -> ExitCode {
    let [directory] = &program::words()[..] else {
        return program::usage("town-vectors DIRECTORY");
    };
    match write(Path::new(directory)) {
        Ok(()) => ExitCode::SUCCESS,
        Err(error) => {
            eprintln!("town-vectors: {error}");
            ExitCode::FAILURE
        }
    }
}

fn write(directory: &Path) -> io::Result<()> {
    let levels: Answer = ("out", |input| oracle::levels(input).into_bytes());
    let refused: Answer = ("refused", oracle::refused);
    let routes: Answer = ("out", |input| oracle::routes(input).into_bytes());
    levels::write(&Folder::new(
        directory.join("levels"),
        vec![levels, refused],
    )?)?;
    routes::write(&Folder::new(directory.join("routes"), vec![routes])?)?;
    counties::write(&directory.join("counties"))
}

/// How the outputs of a program end, and what it must print for an input.
type Answer = (&'static str, fn(&[u8]) -> Vec<u8>);

/// Where the inputs of some programs and their outputs are written.
struct Folder {
    path: PathBuf,
    answers: Vec<Answer>,
}

impl Folder {
    fn new(path: PathBuf, answers: Vec<Answer>) -> io::Result<Folder> {
        fs::create_dir_all(&path)?;
        Ok(Folder { path, answers })
    }

    /// An input with its outputs.
    fn put(&self, name: &str, input: &[u8]) -> io::Result<()> {
        fs::write(self.path.join(format!("{name}.in")), input)?;
        for (end, answer) in &self.answers {
            fs::write(self.path.join(format!("{name}.{end}")), answer(input))?;
        }
        Ok(())
    }
}

/// As many nodes as a town may have, and no segment.
fn nodes_alone() -> Town {
    Town::new(MOST_NODES as u16)
}
