//! The archive and the twin side by side on many inputs.
//!
//! A comparison is one call made on both sides with the same inputs and the
//! same garbage in everything that is lent, and then everything that can be
//! seen compared: what is returned and told, every number lent, and guards
//! round each slice. Which of several shortest routes is drawn is free, so a
//! route is ridden: run by run, with the judgements of a slow second
//! implementation.
//!
//! Inputs are drawn in rounds, each from its own seed, so that a round can be
//! replayed alone.

#![forbid(unsafe_code)]
#![deny(missing_docs)]
#![allow(clippy::manual_is_multiple_of)] // a run's direction is its parity

mod agree;
pub mod calls;
mod copies;
mod counties;
mod editions;
mod exits;
mod limits;
mod lines;
mod moves;
mod places;
pub mod question;
mod reach;
mod reached;
mod rounds;

use calls::{Calls, Twin};
use oracle::Net;
use question::{Question, Seen, ask};
pub use reached::Reached;
use std::fmt;
use towns::draw::Rng;

/// A comparison that failed, told so that it can be made again by hand.
#[derive(Debug)]
pub struct Mismatch {
    seed: u64,
    round: u64,
    case: u64,
    garbage: u64,
    about: String,
    bytes: Vec<u8>,
    question: String,
    complaint: String,
    sides: String,
}

impl fmt::Display for Mismatch {
    fn fmt(&self, out: &mut fmt::Formatter<'_>) -> fmt::Result {
        writeln!(out, "MISMATCH: {}", self.complaint)?;
        writeln!(
            out,
            "seed {0}, round {1}, case {2}, garbage from {3}; again by: rust/target/release/compare replay {0} {1}",
            self.seed, self.round, self.case, self.garbage
        )?;
        writeln!(out, "town: {}", self.about)?;
        writeln!(out, "question: {}", self.question)?;
        writeln!(out, "{}", self.sides)?;
        writeln!(
            out,
            "{} bytes of the text or network, in hexadecimal:",
            self.bytes.len()
        )?;
        for line in self.bytes.chunks(32) {
            for byte in line {
                write!(out, "{byte:02X}")?;
            }
            writeln!(out)?;
        }
        Ok(())
    }
}

/// Makes comparisons and counts them.
pub struct Comparer<'c> {
    archive: &'c dyn Calls,
    seed: u64,
    round: u64,
    case: u64,
    about: String,
    /// Comparisons made.
    pub made: u64,
    /// What they reached.
    pub reached: Reached,
}

impl<'c> Comparer<'c> {
    /// Holds an implementation to the twin, on inputs drawn from a seed.
    pub fn new(archive: &'c dyn Calls, seed: u64) -> Comparer<'c> {
        Comparer {
            archive,
            seed,
            round: 0,
            case: 0,
            about: String::new(),
            made: 0,
            reached: Reached::default(),
        }
    }

    /// Every comparison of one round.
    pub fn round(&mut self, round: u64) -> Result<(), Box<Mismatch>> {
        let mut rng = Rng::new(Rng::new(self.seed).bits() ^ round);
        (self.round, self.case) = (round, 0);
        rounds::play(self, &mut rng)
    }

    /// One comparison; gives what the archive did. `town` is the network that
    /// `bytes` are, where they are one and levels or routes are asked for.
    fn compare(
        &mut self,
        rng: &mut Rng,
        town: Option<&Net>,
        bytes: &[u8],
        question: Question<'_>,
    ) -> Result<Seen, Box<Mismatch>> {
        let garbage = rng.bits();
        let archive = ask(self.archive, bytes, question, garbage);
        let twin = ask(&Twin, bytes, question, garbage);
        self.case += 1;
        if let Err(complaint) = agree::agree(question, town, &archive, &twin) {
            return Err(self.mismatch(bytes, question, garbage, complaint, &archive, &twin));
        }
        self.made += 1;
        self.reached.answer(bytes, question, &archive);
        Ok(archive)
    }

    fn mismatch(
        &self,
        bytes: &[u8],
        question: Question<'_>,
        garbage: u64,
        complaint: String,
        archive: &Seen,
        twin: &Seen,
    ) -> Box<Mismatch> {
        Box::new(Mismatch {
            seed: self.seed,
            round: self.round,
            case: self.case,
            garbage,
            about: self.about.clone(),
            bytes: bytes.to_vec(),
            question: format!("{question:?}"),
            complaint,
            sides: format!("archive: {archive}\ntwin:    {twin}"),
        })
    }

    /// A mismatch between the answers to several questions about one pair or
    /// one text.
    fn disagreement(&self, bytes: &[u8], question: String, complaint: &str) -> Box<Mismatch> {
        Box::new(Mismatch {
            seed: self.seed,
            round: self.round,
            case: self.case,
            garbage: 0,
            about: self.about.clone(),
            bytes: bytes.to_vec(),
            question,
            complaint: complaint.into(),
            sides: String::new(),
        })
    }
}
