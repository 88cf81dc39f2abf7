//! Read: a network text, line by line, into kept bytes; and the line that it
//! refuses.

use crate::frame::{HEAD, Head, sum_is_zero};
use crate::street::Street;
use std::collections::BTreeSet;
use std::ops::Range;

/// The bytes kept, or number and line of the refusal.
///
/// `room` is the length of the lent output.
pub fn read(text: &[u8], room: usize) -> Result<Vec<u8>, (u8, usize)> {
    // Lines with their ends; the last piece only if bytes follow the last 0A.
    let mut lines = (1..).zip(text.split_inclusive(|&b| b == b'\n'));
    let (_, first) = lines.next().ok_or((3, 1))?;
    let mut kept = sound_frame(first, 1, HEAD).map_err(|number| (number, 1))?;
    let head = Head::parse(&kept).ok_or((4, 1))?;
    let (segments, size) = (head.segments, head.segment_size());
    if room < HEAD + size * segments {
        return Err((7, 1));
    }
    let mut taken: BTreeSet<(u32, u32)> = BTreeSet::new();
    let mut last = 1;
    for (line, digits) in lines {
        let frame = sound_frame(digits, 2, size).map_err(|number| (number, line))?;
        if line > segments + 1 {
            return Err((5, line));
        }
        let street = Street::parse(&frame[1..size - 1], head).ok_or((4, line))?;
        for end in street.ends {
            if !taken.insert(end) {
                return Err((6, line));
            }
        }
        kept.extend(frame);
        last = line;
    }
    if last < segments + 1 {
        return Err((5, last + 1));
    }
    Ok(kept)
}

/// The refusal's number, and where in the text the line lies that is refused,
/// without its 0A; or 14 and the text's end, where nothing is refused.
///
/// `room` is the length of the output that would be lent.
pub fn refused_line(text: &[u8], room: usize) -> (u8, Range<usize>) {
    let (number, line) = match read(text, room) {
        Err(refused) => refused,
        Ok(_) => return (14, text.len()..text.len()),
    };
    // One piece more than there are 0As: what follows the last of them is the
    // line after the last, empty, or a line without its 0A.
    let mut pieces = text.split(|&b| b == b'\n');
    let mut start = 0;
    for before in pieces.by_ref().take(line - 1) {
        start += before.len() + 1;
    }
    let length = pieces.next().map_or(0, <[u8]>::len);
    (number, start..start + length)
}

/// The frame of a line, of this kind and size; or 1, 2 or 3.
fn sound_frame(line: &[u8], kind: u8, size: usize) -> Result<Vec<u8>, u8> {
    let frame = line_bytes(line).ok_or(1)?;
    if !sum_is_zero(&frame) {
        return Err(2);
    }
    if frame.len() != size || frame[0] != kind {
        return Err(3);
    }
    Ok(frame)
}

/// The bytes of a line that is whole pairs of uppercase digits ended by 0A.
fn line_bytes(line: &[u8]) -> Option<Vec<u8>> {
    let (&last, digits) = line.split_last()?;
    if last != 0x0A || digits.is_empty() || digits.len() % 2 != 0 {
        return None;
    }
    let value = |digit: u8| match digit {
        b'0'..=b'9' => Some(digit - b'0'),
        b'A'..=b'F' => Some(digit - b'A' + 10),
        _ => None,
    };
    digits
        .chunks(2)
        .map(|pair| Some(16 * value(pair[0])? + value(pair[1])?))
        .collect()
}
