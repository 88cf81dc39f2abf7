//! Note 6: networks of edition 03 as a program takes them that is wrong about
//! their sizes, lengths or frames.

use super::{FORM, LANES, LENGTH, is_whole, street_at};
use crate::{Fault, Faulty};
use towns::draw;
use towns::sizes::{HEAD, length_bytes, segment_bytes};
use towns::town::{COUNTY, NEWER, OLDER};

/// The bytes of an edition that does not exist.
const NO_EDITION: u8 = 4;

impl Faulty {
    /// Whether Read too takes a county's text wrongly.
    pub fn reads_counties_wrongly(&self) -> bool {
        [
            Fault::LengthTo264001,
            Fault::LengthTo65535Under02,
            Fault::LengthTo52800Under03,
            Fault::CountsOf03Under02,
            Fault::CountsOf02Under03,
            Fault::ShortFramesUnder03,
            Fault::LongFramesUnder02,
            Fault::Edition04,
            Fault::No03,
        ]
        .contains(&self.0)
    }

    /// The bytes with another edition or other frames, where the fault is about
    /// them: what is no network becomes one, or none what is one.
    pub fn of_other_size(&self, net: &[u8]) -> Vec<u8> {
        let known = net.len() >= HEAD && is_whole(&net[..HEAD]) && net[0] == 1;
        let segments = usize::from(u16::from_be_bytes([
            net.get(4).copied().unwrap_or(0),
            net.get(5).copied().unwrap_or(0),
        ]));
        let nodes = u16::from_be_bytes([
            net.get(2).copied().unwrap_or(0),
            net.get(3).copied().unwrap_or(0),
        ]);
        if !known {
            return net.to_vec();
        }
        let edition = net[1];
        let size = |of: u8| HEAD + segment_bytes(of) * segments;
        let large = nodes > 1_000 || segments > 1_000;
        match (self.0, edition) {
            (Fault::Edition04, NO_EDITION) if net.len() == size(COUNTY) => with_head(net, COUNTY),
            (Fault::Edition04, NO_EDITION) => with_head(net, NEWER),
            (Fault::No03, COUNTY) => with_head(net, NO_EDITION),
            (Fault::CountsOf02Under03, COUNTY) if large => with_head(net, NO_EDITION),
            (Fault::CountsOf03Under02, OLDER | NEWER) if large => {
                with_head(&with_frames(net, edition, COUNTY), COUNTY)
            }
            (Fault::ShortFramesUnder03, COUNTY) if net.len() == size(NEWER) => {
                with_frames(net, NEWER, COUNTY)
            }
            (Fault::LongFramesUnder02, OLDER | NEWER) if net.len() == size(COUNTY) => {
                with_frames(net, COUNTY, edition)
            }
            _ => net.to_vec(),
        }
    }

    /// A frame of an edition with another length, or with a field that stands
    /// where the older editions have it.
    pub fn misread_length(&self, frame: &mut [u8], edition: u8) {
        let end = street_at(edition);
        let feet = frame[LENGTH..end]
            .iter()
            .fold(0u32, |feet, &byte| feet << 8 | u32::from(byte));
        let (high, low) = (feet >> 16, feet & 0xFFFF);
        let taken = match (self.0, edition) {
            (Fault::HighBytesBy256, COUNTY) => 256 * high + low,
            (Fault::LowTwoBytes, COUNTY) => low,
            (Fault::LowThreeBytes, COUNTY) => feet & 0x00FF_FFFF,
            (Fault::LengthTo264001, COUNTY) if feet == 264_001 => 264_000,
            (Fault::LengthTo52800Under03, COUNTY) if feet > 52_800 => 0,
            (Fault::LengthTo65535Under02, OLDER | NEWER) => feet.min(52_800),
            _ => feet,
        };
        frame[LENGTH..end].copy_from_slice(&taken.to_be_bytes()[4 - length_bytes(edition)..]);
        // Two bytes before the lanes stands the form.
        let former = frame[end + LANES - 2];
        let path = frame[end + FORM] == 3;
        if self.0 == Fault::LanesNotMoved && edition == COUNTY && former > 0 && !path {
            frame[end + LANES] = former;
        }
    }

    /// As much as a network takes of a program's memory that has room for a town
    /// alone: which nodes it sees.
    pub fn nodes_seen(&self) -> usize {
        match self.0 {
            Fault::MemoryOfATown => 1_000,
            _ => usize::MAX,
        }
    }
}

/// The bytes with another edition in the head.
pub fn with_head(net: &[u8], edition: u8) -> Vec<u8> {
    let mut net = net.to_vec();
    net[1] = edition;
    draw::seal(&mut net[..HEAD]);
    net
}

/// The frames of one edition as frames of another; a check that was wrong stays
/// so.
pub fn with_frames(net: &[u8], old: u8, new: u8) -> Vec<u8> {
    let (head, frames) = net.split_at(HEAD);
    let mut all = head.to_vec();
    for frame in frames.chunks(segment_bytes(old)) {
        let whole = is_whole(frame);
        let (ends, rest) = frame.split_at(LENGTH.min(frame.len()));
        let length = rest.len().min(length_bytes(old));
        let (feet, street) = rest.split_at(length);
        let mut wide = [vec![0; 4 - feet.len()], feet.to_vec()].concat();
        let mut frame = [ends, &wide.split_off(4 - length_bytes(new)), street].concat();
        if whole {
            draw::seal(&mut frame);
        }
        all.extend(frame);
    }
    all
}
