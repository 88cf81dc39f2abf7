//! Read: a network text into kept bytes; and the line that it refuses.

use crate::edition::{Memory, in_memory};
use crate::frame::{HEAD, HEAD_KIND, Head, SEGMENT_KIND, Segment, checks};
use crate::network::Legs;
use std::ops::Range;

const NEWLINE: u8 = 0x0A;

/// The refusal of a text that [`read`] would accept.
const ACCEPTED: u8 = 14;

/// Why a text is refused.
struct Fault<'t> {
    number: u8,
    /// The line, counted from 1.
    line: usize,
    /// The text from that line on.
    rest: &'t [u8],
}

/// Reads a network text into `output`.
///
/// An acceptance gives the number of bytes written; bytes of `output` past
/// them stay. A refusal gives number and line, counted from 1, and leaves
/// `output` as it was.
pub fn read(text: &[u8], output: &mut [u8]) -> Result<usize, (u8, usize)> {
    let (frame, head, rest) = head_line(text, output.len()).map_err(|number| (number, 1))?;
    let (first, others) = output[..head.size()].split_at_mut(HEAD);
    in_memory!(Memory::of(head), keep, (rest, head, others))
        .map_err(|fault| (fault.number, fault.line))?;
    first.copy_from_slice(&frame);
    Ok(head.size())
}

/// Reads the lines after the head into `output`, if none of them is refused.
#[inline(never)]
fn keep<'t, const L: usize, const N: usize>(
    rest: &'t [u8],
    head: Head,
    output: &mut [u8],
) -> Result<(), Fault<'t>> {
    // Decoded here first, for a refusal may still come.
    let mut kept = [[0; L]; N];
    let kept = &mut kept[..head.segments];
    segments::<L, N>(rest, head, kept)?;
    output.copy_from_slice(kept.as_flattened());
    Ok(())
}

/// The part of a text that holds the line at which [`read`] refuses it, given
/// an output of so many bytes, and the refusal's number.
///
/// The line's 0A is no part of it. Where segments are missing it is the empty
/// part at the text's end, and so it is with 14, for a text that [`read`] would
/// accept.
pub fn refused_line(text: &[u8], room: usize) -> (u8, Range<usize>) {
    let (number, rest) = match judge(text, room) {
        Err(fault) => (fault.number, fault.rest),
        Ok(()) => (ACCEPTED, &text[text.len()..]),
    };
    let start = text.len() - rest.len();
    let end = rest.iter().position(|&byte| byte == NEWLINE);
    (number, start..end.map_or(text.len(), |end| start + end))
}

/// Reads a text as [`read`] does before it writes.
fn judge(text: &[u8], room: usize) -> Result<(), Fault<'_>> {
    let (_, head, rest) = head_line(text, room).map_err(|number| Fault {
        number,
        line: 1,
        rest: text,
    })?;
    in_memory!(Memory::of(head), pass, (rest, head))
}

/// Reads the lines after the head and keeps nothing.
#[inline(never)]
fn pass<const L: usize, const N: usize>(rest: &[u8], head: Head) -> Result<(), Fault<'_>> {
    let mut kept = [[0; L]; N];
    segments::<L, N>(rest, head, &mut kept[..head.segments])
}

/// Takes the first line as a head whose network has room: its frame, what it
/// says, and the text after it; or fault 1, 2, 3, 4 or 7.
#[inline]
fn head_line(text: &[u8], room: usize) -> Result<([u8; HEAD], Head, &[u8]), u8> {
    if text.is_empty() {
        return Err(3);
    }
    let (frame, rest) = first_frame::<HEAD>(text, HEAD_KIND)?;
    let head = Head::decode(&frame).ok_or(4)?;
    if room < head.size() {
        return Err(7);
    }
    Ok((frame, head, rest))
}

/// Reads the lines after the head, a segment for each place.
fn segments<'t, const L: usize, const N: usize>(
    mut rest: &'t [u8],
    head: Head,
    places: &mut [[u8; L]],
) -> Result<(), Fault<'t>> {
    let mut legs = Legs::<N>::new();
    let mut places = places.iter_mut();
    let mut line = 2;
    while !rest.is_empty() {
        let fault = |number| Fault { number, line, rest };
        let (segment, after) = first_frame::<L>(rest, SEGMENT_KIND).map_err(fault)?;
        let place = places.next().ok_or(fault(5))?;
        let fields = Segment(&segment);
        if !fields.in_order(head) {
            return Err(fault(4));
        }
        if !(legs.claim(fields.a()) && legs.claim(fields.b())) {
            return Err(fault(6));
        }
        *place = segment;
        rest = after;
        line += 1;
    }
    if places.len() > 0 {
        let number = 5;
        return Err(Fault { number, line, rest });
    }
    Ok(())
}

/// Takes the first line as a frame of `L` bytes and the given kind.
///
/// Gives the frame and the text after its line, or fault 1, 2 or 3.
fn first_frame<const L: usize>(text: &[u8], kind: u8) -> Result<([u8; L], &[u8]), u8> {
    if let Some((digits, [NEWLINE, rest @ ..])) = text.split_at_checked(2 * L)
        && let Some(frame) = decode(digits)
    {
        return if !checks(&frame) {
            Err(2)
        } else if frame[0] != kind {
            Err(3)
        } else {
            Ok((frame, rest))
        };
    }
    Err(fault(text))
}

/// Decodes `2 * L` uppercase digits.
#[inline]
fn decode<const L: usize>(digits: &[u8]) -> Option<[u8; L]> {
    let (pairs, _) = digits.as_chunks::<2>();
    let pairs: &[[u8; 2]; L] = pairs.first_chunk()?;
    let mut bytes = [0; L];
    let mut bad = 0;
    if L < WIDE {
        for (byte, pair) in bytes.iter_mut().zip(pairs) {
            let [this] = some(&[*pair], &mut bad);
            *byte = this;
        }
    } else {
        // From the start and up to the end: what lies between is decoded twice,
        // and no step is narrower than the others.
        let first = some::<WIDE>(pairs.first_chunk()?, &mut bad);
        let last = some::<WIDE>(pairs.last_chunk()?, &mut bad);
        *bytes.first_chunk_mut()? = first;
        *bytes.last_chunk_mut()? = last;
    }
    (bad == 0).then_some(bytes)
}

/// Pairs that are decoded at once.
const WIDE: usize = 16;

/// The bytes of so many pairs; `bad` gets bits where one is none. Plain loops,
/// which the compiler turns into vector steps.
#[inline(always)]
fn some<const W: usize>(pairs: &[[u8; 2]; W], bad: &mut u8) -> [u8; W] {
    let mut values = [[0; 2]; W];
    let digits = pairs.as_flattened();
    for (value, &byte) in values.as_flattened_mut().iter_mut().zip(digits) {
        let (this, wrong) = digit(byte);
        *value = this;
        *bad |= wrong;
    }
    values.map(|[high, low]| high << 4 | low)
}

/// The value of an uppercase digit, and 1 if it is none; without a branch,
/// for many at once.
#[inline]
fn digit(byte: u8) -> (u8, u8) {
    let figure = byte.wrapping_sub(b'0');
    let letter = byte.wrapping_sub(b'A');
    let is_figure = figure < 10;
    let value = if is_figure {
        figure
    } else {
        letter.wrapping_add(10)
    };
    (value, u8::from(!is_figure & (letter >= 6)))
}

/// The fault of a first line that is not pairs of digits of the right number:
/// 1, 2, or else 3.
#[cold]
fn fault(text: &[u8]) -> u8 {
    let Some(end) = text.iter().position(|&byte| byte == NEWLINE) else {
        return 1;
    };
    let (pairs, odd) = text[..end].as_chunks::<2>();
    if pairs.is_empty() || !odd.is_empty() {
        return 1;
    }
    let (mut sum, mut bad) = (0u8, 0);
    for &[high, low] in pairs {
        let ((high, one), (low, other)) = (digit(high), digit(low));
        bad |= one | other;
        sum = sum.wrapping_add(high << 4 | low);
    }
    match (bad, sum) {
        (1.., _) => 1,
        (_, 0) => 3,
        _ => 2,
    }
}
