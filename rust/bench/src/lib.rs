//! The same calls with the same inputs on the archive and on the twin.

#![deny(unsafe_code)]
#![deny(missing_docs)]

pub mod clock;

use oracle::Net;
use splicereel::ffi::{self, Lent, Part, Scratch, Told};
use std::hint::black_box;
use towns::Town;
use towns::draw::Rng;
use towns::sizes::most_nodes;
use towns::town::{COUNTY, NEWER, text_of};

/// Which implementation is called.
#[derive(Clone, Copy, Debug, PartialEq, Eq)]
pub enum Side {
    /// The proved archive.
    Archive,
    /// The independent implementation in Rust.
    Twin,
}

impl Side {
    /// Both, the archive first.
    pub const BOTH: [Side; 2] = [Side::Archive, Side::Twin];

    /// The name on a command line.
    pub fn name(self) -> &'static str {
        match self {
            Side::Archive => "archive",
            Side::Twin => "twin",
        }
    }
}

/// Which call is made.
#[derive(Clone, Copy, Debug, PartialEq, Eq)]
pub enum Call {
    /// Read the town's text.
    Read,
    /// Read the same text with a wrong check in its last line.
    ReadLast,
    /// The refused line of the town's text, which has none.
    Refused,
    /// The refused line where the last line's check is wrong.
    RefusedLast,
    /// Judge one segment; the test of the kept bytes is part of it.
    Segment,
    /// Judge one movement; the test of the kept bytes is part of it.
    Movement,
    /// Route within a tolerance.
    Route(u8),
    /// Least stress.
    Least,
    /// Route within tolerance 4 to a node that no street leads to.
    RouteNone,
    /// Reach map of all that can be reached within tolerance 4.
    Map,
    /// Nearest within tolerance 4, where the one node is marked that Route is
    /// asked for.
    Nearest,
    /// Move up, about the town as edition 02.
    MoveUp,
    /// Move back, about the town as edition 03.
    MoveBack,
}

/// The tolerance of [`Call::RouteNone`], [`Call::Map`] and [`Call::Nearest`].
const WIDEST: u8 = 4;
/// The greatest length of [`Call::Map`]: the greatest 32-bit number, which
/// excludes no node.
const FARTHEST: usize = u32::MAX as usize;

impl Call {
    /// Every call, Route at each tolerance.
    pub const ALL: [Call; 16] = [
        Call::Read,
        Call::ReadLast,
        Call::Refused,
        Call::RefusedLast,
        Call::Segment,
        Call::Movement,
        Call::Route(1),
        Call::Route(2),
        Call::Route(3),
        Call::Route(4),
        Call::Least,
        Call::RouteNone,
        Call::Map,
        Call::Nearest,
        Call::MoveUp,
        Call::MoveBack,
    ];

    /// Whether it is a move, which takes towns alone.
    pub fn is_move(self) -> bool {
        matches!(self, Call::MoveUp | Call::MoveBack)
    }

    /// The name on a command line.
    pub fn name(self) -> &'static str {
        match self {
            Call::Read => "read",
            Call::ReadLast => "read-last",
            Call::Refused => "refused",
            Call::RefusedLast => "refused-last",
            Call::Segment => "segment",
            Call::Movement => "movement",
            Call::Route(1) => "route1",
            Call::Route(2) => "route2",
            Call::Route(3) => "route3",
            Call::Route(_) => "route4",
            Call::Least => "least",
            Call::RouteNone => "route-none",
            Call::Map => "map",
            Call::Nearest => "nearest",
            Call::MoveUp => "move-up",
            Call::MoveBack => "move-back",
        }
    }

    /// The name in a table.
    pub fn title(self) -> String {
        match self {
            Call::Read => "Read".into(),
            Call::ReadLast => "Read, refused at the last line".into(),
            Call::Refused => "Refused line, none".into(),
            Call::RefusedLast => "Refused line, the last".into(),
            Call::Segment => "Judge a segment".into(),
            Call::Movement => "Judge a movement".into(),
            Call::Route(tolerance) => format!("Route, tolerance {tolerance}"),
            Call::Least => "Least stress".into(),
            Call::RouteNone => "Route, tolerance 4, none".into(),
            Call::Map => "Reach map, tolerance 4, whole town".into(),
            Call::Nearest => "Nearest, tolerance 4, one node marked".into(),
            Call::MoveUp => "Move up".into(),
            Call::MoveBack => "Move back".into(),
        }
    }
}

/// How many different questions a town is asked, again and again.
pub const QUESTIONS: usize = 128;

/// A town, the questions it is asked, and what is lent for them.
///
/// Nothing is cleared between calls: each finds what the one before left.
pub struct Subject {
    text: Vec<u8>,
    /// The text with a wrong check in its last line.
    damaged: Vec<u8>,
    net: Vec<u8>,
    /// The network with one node more, which no street leads to.
    lone: Vec<u8>,
    /// That node.
    lonely: usize,
    /// The network as edition 02 and as edition 03.
    newer: Vec<u8>,
    county: Vec<u8>,
    segments: Vec<usize>,
    movements: Vec<(usize, usize)>,
    pairs: Vec<(usize, usize)>,
    output: Vec<u8>,
    best: Vec<u32>,
    previous: Vec<u32>,
    buffer: Vec<u16>,
    list: Vec<u32>,
    marks: Vec<u8>,
}

impl Subject {
    /// A town with questions drawn from a seed.
    pub fn new(town: &Town, seed: u64) -> Subject {
        let mut rng = Rng::new(seed);
        let net = town.bytes();
        let (segments, nodes) = (town.segments.len(), usize::from(town.nodes));
        // Where it may have one node more.
        let lonely = nodes.min(most_nodes(town.edition) - 1);
        let lone = Town {
            nodes: lonely as u16 + 1,
            ..town.clone()
        };
        let [newer, county] = [NEWER, COUNTY].map(|of| town.clone().edition(of).bytes());
        Subject {
            lone: lone.bytes(),
            lonely,
            text: town.text(),
            damaged: damaged(town),
            pairs: (0..QUESTIONS)
                .map(|_| (rng.below(nodes), rng.below(nodes)))
                .collect(),
            segments: (0..QUESTIONS).map(|_| rng.below(segments)).collect(),
            movements: movements(&mut rng, &net),
            output: vec![0; county.len()],
            best: vec![0; 2 * segments],
            previous: vec![0; 2 * segments],
            buffer: vec![0; 2 * segments],
            list: vec![0; 2 * (nodes + 1)],
            marks: vec![0; nodes + 1],
            newer,
            county,
            net,
        }
    }

    /// The same questions, all searches in the town with one node more.
    pub fn with_lone_node(town: &Town, seed: u64) -> Subject {
        let subject = Subject::new(town, seed);
        Subject {
            net: subject.lone.clone(),
            ..subject
        }
    }

    /// Makes a call with one of the questions; gives the refusal's number or
    /// 0, and whether there was something to tell: for a search, a route; for a
    /// refused line, its bytes; for a move, a network.
    #[inline]
    pub fn ask(&mut self, side: Side, call: Call, question: usize) -> (u32, bool) {
        let question = question % QUESTIONS;
        black_box(match side {
            Side::Archive => self.archive(call, question),
            Side::Twin => self.twin(call, question),
        })
    }

    fn archive(&mut self, call: Call, question: usize) -> (u32, bool) {
        let mut told = Told::default();
        let net = black_box(&self.net[..]);
        let text = text_for(call, &self.text, &self.damaged);
        let number = match call {
            Call::Read | Call::ReadLast => ffi::read(text, &mut self.output, &mut told),
            Call::Refused | Call::RefusedLast => {
                let mut part = Part::default();
                let number = ffi::refused_line(text, net.len(), &mut part);
                return (number, part[1] != 0);
            }
            Call::Segment => ffi::judge_segment(net, self.segments[question], &mut told),
            Call::Movement => {
                let (first, second) = self.movements[question];
                ffi::judge_movement(net, first, second, &mut told)
            }
            Call::MoveUp => ffi::move_up(black_box(&self.newer), &mut self.output, &mut told),
            Call::MoveBack => ffi::move_back(black_box(&self.county), &mut self.output, &mut told),
            _ => self.archive_search(call, question, &mut told),
        };
        (number, number == 0 && told[0] != 0)
    }

    fn archive_search(&mut self, call: Call, question: usize, told: &mut Told) -> u32 {
        let (net, lone) = (black_box(&self.net[..]), black_box(&self.lone[..]));
        let (from, to) = self.pairs[question];
        let (best, previous) = (&mut self.best[..], &mut self.previous[..]);
        let widest = usize::from(WIDEST);
        match call {
            Call::Map => {
                let scratch = Scratch { best, previous };
                return ffi::reach_map(net, from, widest, FARTHEST, scratch, &mut self.list, told);
            }
            Call::Nearest => {
                let scratch = Scratch { best, previous };
                self.marks[to] = 1;
                let number = ffi::nearest(net, from, widest, &self.marks, scratch, told);
                self.marks[to] = 0;
                return number;
            }
            _ => {}
        }
        let lent = Lent {
            best,
            previous,
            buffer: &mut self.buffer,
            place: 0,
        };
        match call {
            Call::Route(tolerance) => ffi::route(net, from, to, tolerance.into(), lent, told),
            Call::RouteNone => ffi::route(lone, from, self.lonely, widest, lent, told),
            _ => ffi::least_stress(net, from, to, lent, told),
        }
    }

    fn twin(&mut self, call: Call, question: usize) -> (u32, bool) {
        let net = black_box(&self.net[..]);
        let text = text_for(call, &self.text, &self.damaged);
        let answer = match call {
            Call::Read | Call::ReadLast => twin::read(text, &mut self.output)
                .map(|written| written > 0)
                .map_err(|(number, _)| number),
            Call::Refused | Call::RefusedLast => {
                let (number, part) = twin::refused_line(text, net.len());
                return (u32::from(number), !part.is_empty());
            }
            Call::Segment => twin::judge_segment(net, self.segments[question]).map(|_| true),
            Call::Movement => {
                let (first, second) = self.movements[question];
                twin::judge_movement(net, first, second).map(|_| true)
            }
            Call::MoveUp => twin::move_up(black_box(&self.newer), &mut self.output).map(|n| n > 0),
            Call::MoveBack => {
                twin::move_back(black_box(&self.county), &mut self.output).map(|n| n > 0)
            }
            _ => self.twin_search(call, question),
        };
        match answer {
            Ok(found) => (0, found),
            Err(number) => (u32::from(number), false),
        }
    }

    fn twin_search(&mut self, call: Call, question: usize) -> Result<bool, u8> {
        let (net, lone) = (black_box(&self.net[..]), black_box(&self.lone[..]));
        let (from, to) = self.pairs[question];
        let (best, previous, buffer) = (&mut self.best, &mut self.previous, &mut self.buffer);
        match call {
            Call::Map => {
                let list = &mut self.list;
                twin::reach_map(net, from, WIDEST, FARTHEST, best, previous, list)
                    .map(|count| count > 0)
            }
            Call::Nearest => {
                self.marks[to] = 1;
                let found = twin::nearest(net, from, WIDEST, &self.marks, best, previous);
                self.marks[to] = 0;
                found.map(|found| found.is_some())
            }
            Call::Route(tolerance) => {
                twin::route(net, from, to, tolerance, best, previous, buffer, 0)
                    .map(|found| found.is_some())
            }
            Call::RouteNone => {
                let to = self.lonely;
                twin::route(lone, from, to, WIDEST, best, previous, buffer, 0)
                    .map(|found| found.is_some())
            }
            _ => twin::least_stress(net, from, to, best, previous, buffer, 0)
                .map(|found| found.is_some()),
        }
    }
}

/// The text of a town with a wrong check in its last line.
pub fn damaged(town: &Town) -> Vec<u8> {
    let mut frames = town.frames();
    if let Some(check) = frames.last_mut().and_then(|frame| frame.last_mut()) {
        *check = check.wrapping_add(1);
    }
    text_of(&frames)
}

/// Which of the two texts a call takes.
fn text_for<'t>(call: Call, good: &'t [u8], damaged: &'t [u8]) -> &'t [u8] {
    black_box(match call {
        Call::ReadLast | Call::RefusedLast => damaged,
        _ => good,
    })
}

/// Movements of a network, or pairs of runs where it has none.
fn movements(rng: &mut Rng, net: &[u8]) -> Vec<(usize, usize)> {
    let Some(town) = Net::parse(net) else {
        return vec![(0, 0); QUESTIONS];
    };
    let runs = town.runs();
    let one = |rng: &mut Rng| {
        let (first, turn) = (rng.below(runs), rng.below(runs));
        let second = (0..runs)
            .map(|step| (turn + step) % runs)
            .find(|&second| town.movement(first, second).is_ok());
        (first, second.unwrap_or(turn))
    };
    (0..QUESTIONS).map(|_| one(rng)).collect()
}

#[cfg(test)]
mod tests {
    use super::{Call, QUESTIONS, Side, Subject};
    use towns::draw::{county_grid, mixed_grid};
    use towns::sizes::MOST_SEGMENTS;
    use towns::town::COUNTY;

    /// What is timed is the same work: both sides answer every question alike.
    #[test]
    fn both_sides_answer_alike() {
        let copy = mixed_grid(11, 125).edition(COUNTY);
        for town in [
            mixed_grid(11, 30),
            mixed_grid(11, 125),
            copy,
            county_grid(11, 1_100),
        ] {
            let mut subject = Subject::new(&town, 11);
            let large = town.segments.len() > MOST_SEGMENTS;
            for call in Call::ALL {
                let meant = match call {
                    Call::ReadLast => (2, false),
                    Call::Refused => (14, false),
                    Call::RefusedLast => (2, true),
                    Call::RouteNone => (0, false),
                    Call::MoveUp if large => (8, false),
                    Call::MoveBack if large => (17, false),
                    _ => (0, true),
                };
                let mut found = 0;
                for question in 0..QUESTIONS {
                    let archive = subject.ask(Side::Archive, call, question);
                    assert_eq!(archive, subject.ask(Side::Twin, call, question), "{call:?}");
                    found += usize::from(archive == meant);
                }
                assert!(found > 0, "{call:?} never found anything");
            }
        }
    }

    /// A map lists the same nodes on both sides, and all but the one that no
    /// street leads to.
    #[test]
    fn maps_are_of_the_whole_town() {
        let town = mixed_grid(11, 125);
        let mut subject = Subject::with_lone_node(&town, 11);
        let mut listed = 0;
        for question in 0..QUESTIONS {
            subject.ask(Side::Archive, Call::Map, question);
            let archive = subject.list.clone();
            subject.list.fill(0);
            subject.ask(Side::Twin, Call::Map, question);
            assert_eq!(archive, subject.list);
            let nodes = archive.chunks(2).map(|entry| entry[0] as usize);
            listed = listed.max(nodes.max().unwrap_or(0) + 1);
            subject.list.fill(0);
        }
        assert_eq!(listed, subject.lonely);
        assert_eq!(subject.lonely, usize::from(town.nodes));
    }
}
