//! One call with all its arguments, and what can be seen of it afterwards.

use crate::calls::{Calls, Reach, Way};
use splicereel::ffi::{Part, Scratch, Told};
use std::fmt;
use std::hint::black_box;
use towns::draw::Rng;
use towns::lend::{Guarded, Lengths, Lent};

/// A call's arguments besides the bytes, which are a text for Read and for a
/// refused line, and a kept network for the others.
#[derive(Clone, Copy, Debug, PartialEq, Eq)]
pub enum Question<'q> {
    /// Read with an output of so many bytes.
    Read {
        /// The output's length.
        room: usize,
    },
    /// The refused line, for an output of so many bytes, of which none is lent.
    RefusedLine {
        /// The output's length.
        output_length: usize,
    },
    /// Judge a segment.
    Segment {
        /// Its number.
        segment: usize,
    },
    /// Judge a movement.
    Movement {
        /// The run that arrives.
        first: usize,
        /// The run that leaves.
        second: usize,
    },
    /// Route, or Least stress where there is no tolerance.
    Search {
        /// The node to leave.
        from: usize,
        /// The node to reach.
        to: usize,
        /// The tolerance.
        tolerance: Option<usize>,
        /// What is lent.
        lengths: Lengths,
    },
    /// Reach map.
    Map {
        /// From where, and how far.
        reach: Reach,
        /// The numbers of each scratch slice.
        scratch: [usize; 2],
        /// The numbers of the list.
        list: usize,
    },
    /// Nearest.
    Nearest {
        /// The node to leave.
        from: usize,
        /// The tolerance.
        tolerance: usize,
        /// A byte for each node, and maybe more.
        marks: &'q [u8],
        /// The numbers of each scratch slice.
        scratch: [usize; 2],
    },
    /// Move up or Move back, with an output of so many bytes.
    Move {
        /// Which way.
        way: Way,
        /// The output's length.
        room: usize,
    },
}

impl Question<'_> {
    /// What is lent to a search.
    fn lengths(&self) -> Lengths {
        match *self {
            Question::Search { lengths, .. } => lengths,
            Question::Map { scratch, .. } | Question::Nearest { scratch, .. } => Lengths {
                best: scratch[0],
                previous: scratch[1],
                ..Lengths::exact(0)
            },
            _ => Lengths::exact(0),
        }
    }
}

/// Everything that a call could have written, and what it returned.
pub struct Seen {
    /// What it returned.
    pub number: u32,
    /// What it told.
    pub told: Guarded<u32>,
    /// Which part of the text it told.
    pub part: Guarded<usize>,
    /// The text or the network.
    pub bytes: Guarded<u8>,
    /// The output of Read, or of a move.
    pub output: Guarded<u8>,
    /// What was lent to a search.
    pub lent: Lent,
    /// The list of a reach map.
    pub list: Guarded<u32>,
    /// The marks of nodes.
    pub marks: Guarded<u8>,
}

impl Seen {
    /// The eight numbers told.
    pub fn told(&self) -> Told {
        let mut told = Told::default();
        told.copy_from_slice(self.told.now());
        told
    }

    /// Start and length of the part told.
    pub fn part(&self) -> Part {
        let mut part = Part::default();
        part.copy_from_slice(self.part.now());
        part
    }

    /// The entries of a reach map that was answered: node and length.
    pub fn entries(&self) -> Vec<(usize, u32)> {
        let (pairs, _) = self.list.now().as_chunks();
        let told = pairs.iter().take(self.told.now()[0] as usize);
        told.map(|&[node, feet]| (node as usize, feet)).collect()
    }
}

impl fmt::Display for Seen {
    fn fmt(&self, out: &mut fmt::Formatter<'_>) -> fmt::Result {
        write!(out, "returned {}, told {:?}", self.number, self.told.now())?;
        write!(out, ", told before {:?}", self.told.before())?;
        if !self.part.untouched() {
            let (now, before) = (self.part.now(), self.part.before());
            write!(out, ", part {now:?}, part before {before:?}")?;
        }
        if !self.list.untouched() {
            write!(out, ", list {:?}", self.entries())?;
        }
        let runs = self.lent.runs(self.told.now()[1] as usize);
        if self.number == 0 && !runs.is_empty() {
            write!(out, ", runs {runs:?}")?;
        }
        Ok(())
    }
}

/// Asks one side. The same garbage seed gives the same garbage in everything
/// that is lent.
pub fn ask(calls: &dyn Calls, bytes: &[u8], question: Question<'_>, garbage: u64) -> Seen {
    let mut rng = Rng::new(garbage);
    let (mut room, mut list, mut marks) = (0, 0, &[][..]);
    match question {
        Question::Read { room: length } | Question::Move { room: length, .. } => room = length,
        Question::Map { list: length, .. } => list = length,
        Question::Nearest { marks: all, .. } => marks = all,
        _ => {}
    }
    let mut seen = Seen {
        number: 0,
        told: Guarded::garbage(&mut rng, Told::default().len()),
        bytes: Guarded::holding(&mut rng, bytes),
        output: Guarded::garbage(&mut rng, room),
        lent: Lent::garbage(&mut rng, question.lengths()),
        part: Guarded::garbage(&mut rng, Part::default().len()),
        list: Guarded::garbage(&mut rng, list),
        marks: Guarded::holding(&mut rng, marks),
    };
    seen.number = call(calls, question, &mut seen);
    black_box(seen)
}

/// Makes the call with what is lent.
fn call(calls: &dyn Calls, question: Question<'_>, seen: &mut Seen) -> u32 {
    let (told, part) = (seen.told.lend(), seen.part.lend());
    let (Some(told), Some(part)) = (told.first_chunk_mut(), part.first_chunk_mut()) else {
        return u32::MAX; // never: eight numbers are lent, and two
    };
    let bytes = black_box(seen.bytes.lend());
    let (best, previous) = (seen.lent.best.lend(), seen.lent.previous.lend());
    match question {
        Question::Read { .. } => calls.read(bytes, seen.output.lend(), told),
        Question::RefusedLine { output_length } => calls.refused_line(bytes, output_length, part),
        Question::Segment { segment } => calls.judge_segment(bytes, segment, told),
        Question::Movement { first, second } => calls.judge_movement(bytes, first, second, told),
        Question::Search {
            from,
            to,
            tolerance,
            ..
        } => {
            let lent = splicereel::Lent {
                best,
                previous,
                buffer: seen.lent.buffer.lend(),
                place: seen.lent.place,
            };
            calls.search(bytes, from, to, tolerance, lent, told)
        }
        Question::Map { reach, .. } => {
            let scratch = Scratch { best, previous };
            calls.reach_map(bytes, reach, scratch, seen.list.lend(), told)
        }
        Question::Nearest {
            from, tolerance, ..
        } => {
            let scratch = Scratch { best, previous };
            let marks = black_box(seen.marks.lend());
            calls.nearest(bytes, from, tolerance, marks, scratch, told)
        }
        Question::Move { way, .. } => calls.move_network(way, bytes, seen.output.lend(), told),
    }
}
