//! Note 7: how a program moves networks that is wrong about it.

use super::county::{with_frames, with_head};
use super::{LENGTH, street_at};
use crate::{Fault, Faulty, nodes, spoil};
use compare::calls::{Calls, Twin, Way};
use splicereel::ffi::Told;
use towns::sizes::{HEAD, MOST_NODES, MOST_SEGMENTS, most_feet, segment_bytes};
use towns::town::{COUNTY, NEWER, OLDER};

/// A move that is asked for, and what is so of it.
struct Asked<'a> {
    way: Way,
    net: &'a [u8],
    room: usize,
    /// What the move returns.
    right: u32,
    nodes: usize,
    segments: usize,
    /// The feet of each segment.
    lengths: Vec<u32>,
}

impl Asked<'_> {
    fn new(way: Way, net: &[u8], room: usize) -> Asked<'_> {
        let edition = net.get(1).copied().unwrap_or(0);
        let segments = match net.get(4..6) {
            Some(&[high, low]) => usize::from(u16::from_be_bytes([high, low])),
            _ => 0,
        };
        let frames = net.get(HEAD..).unwrap_or(&[]);
        let feet = |frame: &[u8]| {
            let bytes = frame[LENGTH..street_at(edition)].iter();
            bytes.fold(0, |feet, &byte| feet << 8 | u32::from(byte))
        };
        let lengths = frames.chunks_exact(segment_bytes(edition)).map(feet);
        Asked {
            way,
            net,
            room,
            right: Twin.move_network(way, net, &mut vec![0; room], &mut Told::default()),
            nodes: nodes(net),
            segments,
            lengths: lengths.collect(),
        }
    }

    /// The bytes of the moved network.
    fn size(&self) -> usize {
        HEAD + segment_bytes(self.way.to()) * self.segments
    }

    fn is_short(&self) -> bool {
        self.room < self.size()
    }

    fn is_of(&self, edition: u8) -> bool {
        self.net.get(1) == Some(&edition)
    }

    /// Whether a count is above what edition 02 allows.
    fn has_more(&self) -> bool {
        self.nodes > MOST_NODES || self.segments > MOST_SEGMENTS
    }

    /// Whether a length is.
    fn has_longer(&self) -> bool {
        self.lengths.iter().any(|&feet| feet > most_feet(NEWER))
    }

    /// The network with the head and the frames of the edition moved to, whatever
    /// is above its limits.
    fn converted(&self) -> Vec<u8> {
        let frames = with_frames(self.net, self.way.from(), self.way.to());
        with_head(&frames, self.way.to())
    }
}

impl Faulty {
    /// A move in either way.
    pub fn moved(&self, way: Way, net: &[u8], output: &mut [u8], told: &mut Told) -> u32 {
        let asked = Asked::new(way, net, output.len());
        if let Some(number) = self.other_refusal(&asked).or(self.stricter(&asked)) {
            return number;
        }
        if let Some(bytes) = self.other_moved(&asked).or(self.unlimited(&asked)) {
            let fits = bytes.len().min(output.len());
            output[..fits].copy_from_slice(&bytes[..fits]);
            told[0] = bytes.len() as u32;
            return 0;
        }
        let before = output.to_vec();
        let number = Twin.move_network(way, net, output, told);
        match number {
            0 => self.spoil_moved(&asked, output, told, &before),
            _ => self.spoil_refused(&asked, output, told),
        }
        number
    }

    /// The number of a program that tests in another order.
    fn other_refusal(&self, asked: &Asked<'_>) -> Option<u32> {
        let (short, longer, more) = (asked.is_short(), asked.has_longer(), asked.has_more());
        let of_its_edition = asked.is_of(asked.way.from());
        let number = match (self.0, asked.right) {
            (Fault::ShortBeforeAbove, 17) if short => 18,
            (Fault::ShortBeforeLonger, 17) if short && !more => 18,
            (Fault::AboveBeforeEdition, 16) if more || longer => 17,
            (Fault::ShortBeforeEdition, 16) if short => 18,
            (Fault::EditionBeforeNetwork, 8) if !of_its_edition => 16,
            (Fault::AboveBeforeNetwork, 8) if of_its_edition && (more || longer) => 17,
            (Fault::ShortBeforeNetwork, 8) if of_its_edition && short => 18,
            (Fault::AboveAndShortExchanged, 17) => 18,
            (Fault::AboveAndShortExchanged, 18) => 17,
            (Fault::LargerIsNoNetwork, 17) if more => 8,
            _ => return None,
        };
        Some(number)
    }

    /// The number of a program that moves less than it should.
    fn stricter(&self, asked: &Asked<'_>) -> Option<u32> {
        let back = asked.way == Way::Back;
        let longest = asked.lengths.contains(&most_feet(NEWER));
        let number = match self.0 {
            _ if asked.right != 0 => return None,
            Fault::ExactIsTooShort if asked.room == asked.size() => 18,
            Fault::RoomOfTheSource if asked.room < asked.net.len() => 18,
            Fault::NodesTo999 if back && asked.nodes == MOST_NODES => 17,
            Fault::SegmentsTo999 if back && asked.segments == MOST_SEGMENTS => 17,
            Fault::LengthsTo52799 if back && longest => 17,
            _ => return None,
        };
        Some(number)
    }

    /// What a program writes that moves networks of other editions, or into less
    /// room.
    fn other_moved(&self, asked: &Asked<'_>) -> Option<Vec<u8>> {
        let bytes = match (self.0, asked.right, asked.way) {
            (Fault::OldestMovedUp, 16, Way::Up) if asked.is_of(OLDER) => asked.converted(),
            (Fault::CountyMovedUp, 16, Way::Up) if asked.is_of(COUNTY) => asked.net.to_vec(),
            (Fault::NewerMovedBack, 16, Way::Back) if asked.is_of(NEWER) => asked.net.to_vec(),
            (Fault::RoomOfTheSource, 18, _) if asked.room >= asked.net.len() => asked.converted(),
            _ => return None,
        };
        Some(bytes)
    }

    /// What a program writes that does not test every limit.
    fn unlimited(&self, asked: &Asked<'_>) -> Option<Vec<u8>> {
        if asked.right != 17 || asked.is_short() {
            return None;
        }
        let (nodes, segments) = (asked.nodes > MOST_NODES, asked.segments > MOST_SEGMENTS);
        let limited = match self.0 {
            Fault::NodesNotLimited => segments || asked.has_longer(),
            Fault::SegmentsNotLimited => nodes || asked.has_longer(),
            Fault::LengthsNotLimited => nodes || segments,
            Fault::LengthsTo65535 => nodes || segments || self.limits(asked, |feet| feet >> 16 > 0),
            Fault::LowBytesLimited => {
                nodes || segments || self.limits(asked, |feet| feet & 0xFFFF > most_feet(NEWER))
            }
            Fault::FirstLengthNotLimited | Fault::LastLengthNotLimited => {
                nodes || segments || self.limits(asked, |feet| feet > most_feet(NEWER))
            }
            _ => true,
        };
        (!limited).then(|| asked.converted())
    }

    /// Whether a length is too long, of those that are tested.
    fn limits(&self, asked: &Asked<'_>, too_long: impl Fn(u32) -> bool) -> bool {
        let last = asked.lengths.len().saturating_sub(1);
        let tested = match self.0 {
            Fault::FirstLengthNotLimited => asked.lengths.get(1..).unwrap_or(&[]),
            Fault::LastLengthNotLimited => &asked.lengths[..last],
            _ => &asked.lengths[..],
        };
        tested.iter().any(|&feet| too_long(feet))
    }

    /// What a refusal leaves behind.
    fn spoil_refused(&self, asked: &Asked<'_>, output: &mut [u8], told: &mut Told) {
        match (self.0, asked.right) {
            (Fault::OutputOn8, 8) | (Fault::OutputOn16, 16) => spoil(output, 0),
            (Fault::OutputOn17, 17) | (Fault::OutputOn18, 18) => {
                let bytes = asked.converted();
                let fits = bytes.len().min(output.len());
                output[..fits].copy_from_slice(&bytes[..fits]);
            }
            (Fault::ToldOn18, 18) => told[0] = asked.size() as u32,
            _ => {}
        }
    }

    /// What is written of a network that is moved, and told.
    fn spoil_moved(&self, asked: &Asked<'_>, output: &mut [u8], told: &mut Told, before: &[u8]) {
        let net = asked.net;
        match self.0 {
            Fault::MovedPastTheEnd => spoil(output, asked.size()),
            Fault::ToldTheSource => told[0] = net.len() as u32,
            Fault::ToldBeyondMoved => told[1] = 0,
            Fault::NothingWithoutSegments if asked.segments == 0 => {
                output.copy_from_slice(before);
                told[0] = 0;
            }
            _ => {}
        }
        let step = output[HEAD - 1].wrapping_sub(net[HEAD - 1]);
        match self.0 {
            Fault::HeadNotMoved => output[..HEAD].copy_from_slice(&net[..HEAD]),
            Fault::CheckNotMoved => output[HEAD - 1] = net[HEAD - 1],
            Fault::CheckMovedTheOtherWay => output[HEAD - 1] = net[HEAD - 1].wrapping_sub(step),
            _ => {}
        }
        let to = asked.way.to();
        let frames = &mut output[HEAD..asked.size()];
        let written = &before[HEAD..asked.size()];
        self.spoil_frames(to, step, frames, written);
    }

    /// What is written of its frames, by a program that moves a head's check by a
    /// step.
    fn spoil_frames(&self, to: u8, step: u8, frames: &mut [u8], before: &[u8]) {
        let (size, end) = (segment_bytes(to), street_at(to));
        let last = frames.len().saturating_sub(size);
        match self.0 {
            Fault::LastFrameNotMoved => frames[last..].copy_from_slice(&before[last..]),
            Fault::FirstFrameTwice if last > 0 => frames.copy_within(..size, size),
            _ => {}
        }
        for frame in frames.chunks_exact_mut(size) {
            match self.0 {
                Fault::EachCheckMoved => frame[size - 1] = frame[size - 1].wrapping_add(step),
                Fault::ZerosAfterTheLength if to == COUNTY => frame[LENGTH..end].rotate_left(2),
                Fault::ZerosBeforeTheCheck if to == COUNTY => {
                    frame[LENGTH..size - 1].rotate_left(2);
                }
                Fault::MovedLengthInAByte => frame[end - 2] = 0,
                _ => {}
            }
        }
    }
}
