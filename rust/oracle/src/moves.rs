//! Move up and Move back: a network written once more, each frame by its
//! fields, in another edition.

use crate::frame::{HEAD, Head, with_check};
use crate::net::Net;
use crate::street::MOST_FEET;

/// Bytes of a segment frame before its length.
const BEFORE: usize = 7;
/// Bytes of a segment frame after its length, without the check.
const AFTER: usize = 20;

/// Move up: the bytes of a network of edition 02 as one of edition 03; or 8, 16
/// or 18.
///
/// `room` is the length of the lent output.
pub fn move_up(net: &[u8], room: usize) -> Result<Vec<u8>, u8> {
    moved(net, 2, 3, room)
}

/// Move back: the bytes of a network of edition 03 as one of edition 02; or 8,
/// 16, 17 or 18.
///
/// `room` is the length of the lent output.
pub fn move_back(net: &[u8], room: usize) -> Result<Vec<u8>, u8> {
    moved(net, 3, 2, room)
}

fn moved(net: &[u8], from: u32, to: u32, room: usize) -> Result<Vec<u8>, u8> {
    let streets = Net::parse(net).ok_or(8)?.feet();
    let head = Head::parse(net).ok_or(8)?;
    if head.edition != from {
        return Err(16);
    }
    let other = Head {
        edition: to,
        ..head
    };
    let most = MOST_FEET[to as usize - 1];
    if !other.in_limits() || streets.iter().any(|&feet| feet > most) {
        return Err(17);
    }
    let (size, wide) = (head.segment_size(), other.segment_size());
    if room < HEAD + wide * head.segments {
        return Err(18);
    }
    let mut all = with_check(&[&[1, to as u8], &net[2..6]]);
    for (frame, feet) in net[HEAD..].chunks(size).zip(streets) {
        let length = wide - BEFORE - AFTER - 1;
        let feet = &feet.to_be_bytes()[4 - length..];
        let after = &frame[size - 1 - AFTER..size - 1];
        all.extend(with_check(&[&frame[..BEFORE], feet, after]));
    }
    Ok(all)
}
