//! Networks and texts as a program takes them that is wrong about a note of
//! document 02: with other fields, which it judges as if they stood there.

mod county;
mod moves;

use crate::{Fault, Faulty};
use compare::calls::{Calls, Twin};
use splicereel::ffi::Told;
use towns::draw;
use towns::sizes::{HEAD, length_bytes, segment_bytes};
use towns::town::{CENTRELINE, IMPROVED_SIGNAL, NEWER, OLDER, RESIDENTIAL, SIGNAL, TURN_LANE};
use towns::town::{head_of, text_of};

/// The place of the length in a segment frame.
const LENGTH: usize = 7;

/// Places after the length, where a street begins that all editions have alike.
const FORM: usize = 0;
const WAYS: usize = 1;
const LANES: usize = 2;
const SPEED: usize = 3;
const REACH: usize = 4;
const MARKS: usize = 5;
const CONTROLS: [usize; 2] = [6, 13];

/// Whether a frame's check is right.
fn is_whole(frame: &[u8]) -> bool {
    frame.iter().fold(0u8, |sum, &byte| sum.wrapping_add(byte)) == 0
}

/// Whether a street has a bike lane.
fn has_lane(street: &[u8]) -> bool {
    [1, 2].contains(&street[FORM])
}

/// Whether a street's reach counts as wider by the newer rules.
fn is_widened(street: &[u8]) -> bool {
    has_lane(street) && street[LANES] == 1 && street[WAYS] == 3 && street[MARKS] & TURN_LANE != 0
}

/// More half feet, as many as a frame may have.
fn widen(street: &mut [u8], more: u8) {
    street[REACH] = street[REACH].saturating_add(more).min(60);
}

/// The place after the length in a frame of an edition.
fn street_at(edition: u8) -> usize {
    LENGTH + length_bytes(edition)
}

impl Faulty {
    /// The network of a call.
    pub fn misread(&self, net: &[u8]) -> Vec<u8> {
        if self.reads_wrongly() {
            return net.to_vec();
        }
        self.retold(net)
    }

    /// The text of Read.
    pub fn mistyped(&self, text: &[u8]) -> Vec<u8> {
        let frames: Option<Vec<Vec<u8>>> =
            text.split_inclusive(|&b| b == b'\n').map(frame).collect();
        let read = self.reads_wrongly() || self.0 == Fault::Nothing;
        let Some(frames) = frames.filter(|_| read) else {
            return text.to_vec();
        };
        let Some((head, rest)) = frames.split_first() else {
            return text.to_vec();
        };
        // Frames of one width, whichever it is.
        let width = rest.first().map_or(0, Vec::len);
        if head.len() != HEAD || rest.iter().any(|frame| frame.len() != width) {
            return text.to_vec();
        }
        let net = self.retold(&frames.concat());
        let (head, rest) = net.split_at(HEAD);
        let width = rest.len() / frames.len().saturating_sub(1).max(1);
        let frames: Vec<Vec<u8>> = [head]
            .into_iter()
            .chain(rest.chunks(width.max(1)))
            .map(Vec::from)
            .collect();
        text_of(&frames)
    }

    /// Whether Read alone takes its input wrongly.
    fn reads_wrongly(&self) -> bool {
        [
            Fault::ReadsMarksTo63,
            Fault::ReadsImprovedSignalUnder01,
            Fault::ReadsNo02,
        ]
        .contains(&self.0)
            || self.reads_counties_wrongly()
    }

    /// A network with other fields, each of its frames with a right check.
    fn retold(&self, net: &[u8]) -> Vec<u8> {
        let is_network = twin::is_network(net);
        let mut net = self.of_other_size(net);
        let Some((head, frames)) = net.split_at_mut_checked(HEAD) else {
            return net;
        };
        let edition = head[1];
        if is_whole(head) {
            match (self.0, edition) {
                (Fault::NewerRulesUnder01, OLDER) if is_network => head[1] = NEWER,
                (Fault::No02 | Fault::ReadsNo02, NEWER) => head[1] = 4,
                _ => {}
            }
            draw::seal(head);
        }
        for frame in frames
            .chunks_exact_mut(segment_bytes(edition))
            .filter(|frame| is_whole(frame))
        {
            self.misread_length(frame, edition);
            let end = frame.len() - 1;
            let street = &mut frame[street_at(edition)..end];
            self.misread_street(street);
            match edition {
                OLDER => self.misread_older(street),
                _ => self.misread_newer(street),
            }
            draw::seal(frame);
        }
        net
    }

    /// Note 2: streets beside parking with other speeds or marks, which by
    /// document 01 have the same levels.
    fn misread_street(&self, street: &mut [u8]) {
        if street[FORM] != 1 {
            return;
        }
        let (speed, marks) = (street[SPEED], street[MARKS]);
        match self.0 {
            Fault::NoFootnote => {
                (street[SPEED], street[MARKS]) = (speed.max(25), marks & !RESIDENTIAL);
            }
            Fault::QuietAt25 if speed == 25 => street[SPEED] = 24,
            Fault::QuietByCentreline => {
                street[MARKS] = marks & !RESIDENTIAL | (marks & CENTRELINE) << 1;
            }
            _ => {}
        }
    }

    /// Note 5: what edition 01 has not.
    fn misread_older(&self, street: &mut [u8]) {
        match self.0 {
            Fault::MarkUnder01 if street[FORM] != 3 && street[MARKS] < 32 => {
                street[MARKS] &= !TURN_LANE;
            }
            Fault::ImprovedSignalUnder01 | Fault::ReadsImprovedSignalUnder01 => {
                exchange(street, IMPROVED_SIGNAL, SIGNAL);
            }
            _ => {}
        }
    }

    /// Note 5: what the newer rules make of streets and signals.
    fn misread_newer(&self, street: &mut [u8]) {
        let widened = is_widened(street);
        let lane = has_lane(street);
        match self.0 {
            Fault::WidenedOneWay if lane => {
                if street[WAYS] == 1 && street[LANES] == 1 && street[MARKS] & TURN_LANE != 0 {
                    widen(street, 4);
                } else if street[WAYS] == 3 {
                    street[MARKS] &= !TURN_LANE;
                }
            }
            Fault::WidenedByTwo if widened => street[REACH] = street[REACH].saturating_sub(2),
            Fault::WidenedByFive if widened => widen(street, 1),
            Fault::WidenedWithoutMark if lane => street[MARKS] |= TURN_LANE,
            Fault::NeverWidened if lane => street[MARKS] &= !TURN_LANE,
            Fault::SignalAtOne => exchange(street, SIGNAL, IMPROVED_SIGNAL),
            Fault::ImprovedSignalAtFour => exchange(street, IMPROVED_SIGNAL, SIGNAL),
            Fault::MarksTo63 | Fault::ReadsMarksTo63 if street[FORM] != 3 && street[MARKS] < 64 => {
                street[MARKS] &= 31;
            }
            Fault::ControlSix => exchange(street, 6, IMPROVED_SIGNAL),
            _ => {}
        }
    }

    /// What a judgement of a segment by the newer rules tells, by a program that
    /// is wrong about the mixed level.
    pub fn misjudge(&self, net: &[u8], segment: usize, told: &mut Told) {
        let edition = net[1];
        let frame = net[HEAD..]
            .chunks_exact(segment_bytes(edition))
            .nth(segment);
        let Some(frame) = frame.filter(|_| edition != OLDER) else {
            return;
        };
        let street = &frame[street_at(edition)..];
        if self.0 == Fault::OlderLevelsUnder03 && segment_bytes(edition) == 32 {
            told[..2].copy_from_slice(&unwidened_level(OLDER, street));
        }
        if !has_lane(street) {
            return;
        }
        let ways = street[WAYS];
        match self.0 {
            Fault::MixedWhereEqual if level(NEWER, street, as_mixed)[0] == told[0] => told[1] = 5,
            Fault::MixedWithoutItsMeasure if told[1] == 5 => told[1] = 1,
            Fault::MixedNever => told[..2].copy_from_slice(&level(OLDER, street, |_| ())),
            Fault::MixedAtOnceItsLanes if ways == 3 => {
                told[..2].copy_from_slice(&level(NEWER, street, |street| street[WAYS] = 1));
            }
            Fault::MixedAtTwiceItsLanes if ways != 3 => {
                told[..2].copy_from_slice(&level(NEWER, street, |street| street[WAYS] = 3));
            }
            _ => {}
        }
    }
}

/// Puts one control for another at both ends.
fn exchange(street: &mut [u8], old: u8, new: u8) {
    for at in CONTROLS {
        if street[at] == old {
            street[at] = new;
        }
    }
}

/// The bytes of a line of uppercase digits.
fn frame(line: &[u8]) -> Option<Vec<u8>> {
    let digits = line.strip_suffix(b"\n")?;
    let value = |digit: u8| match digit {
        b'0'..=b'9' => Some(digit - b'0'),
        b'A'..=b'F' => Some(digit - b'A' + 10),
        _ => None,
    };
    let (pairs, []) = digits.as_chunks::<2>() else {
        return None;
    };
    pairs
        .iter()
        .map(|&[high, low]| Some(value(high)? << 4 | value(low)?))
        .collect()
}

/// Level and measure of a street of a newer edition alone, changed so, by the
/// rules of an edition; what widens its reach stays counted.
fn level(edition: u8, street: &[u8], change: impl Fn(&mut [u8])) -> [u32; 2] {
    let mut changed = street.to_vec();
    if is_widened(street) {
        widen(&mut changed, 4);
    }
    change(&mut changed);
    unwidened_level(edition, &changed)
}

/// The same of the street as it is, without the values that edition 01 has not;
/// as short as may be, and at one node.
fn unwidened_level(edition: u8, street: &[u8]) -> [u32; 2] {
    let mut street = street.to_vec();
    street[MARKS] &= !TURN_LANE;
    exchange(&mut street, IMPROVED_SIGNAL, SIGNAL);
    let mut frame = [&[2, 0, 0, 0, 0, 0, 1, 0, 1], &street[..]].concat();
    draw::seal(&mut frame);
    let net = [head_of(edition, 1, 1), frame].concat();
    let mut told = Told::default();
    Twin.judge_segment(&net, 0, &mut told);
    [told[0], told[1]]
}

/// A street without its bike lane: all through lanes, as many as a frame has.
fn as_mixed(street: &mut [u8]) {
    let both = if street[WAYS] == 3 { 2 } else { 1 };
    street[LANES] = (both * street[LANES]).min(12);
    (street[FORM], street[REACH]) = (0, 0);
}
