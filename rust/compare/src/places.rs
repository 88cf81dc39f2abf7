//! Where the fields of a kept network lie, by its edition.

use towns::sizes::{HEAD, length_bytes, segment_bytes};

/// The place of a length in a segment frame; what comes before it is the same in
/// every edition.
const LENGTH: usize = 7;

/// The fields after a segment's length, by their places there.
pub const FORM: usize = 0;
pub const WAYS: usize = 1;
pub const SPEED: usize = 3;
pub const REACH: usize = 4;
pub const MARKS: usize = 5;
/// The controls met at B and at A.
pub const CONTROLS: [usize; 2] = [6, 13];

/// The segment frames of a network.
pub fn frames(net: &[u8]) -> impl Iterator<Item = &[u8]> {
    net[HEAD..].chunks(segment_bytes(net[1]))
}

/// The frame of one segment.
pub fn frame(net: &[u8], segment: usize) -> &[u8] {
    let size = segment_bytes(net[1]);
    &net[HEAD + size * segment..][..size]
}

/// What stands after the length in a frame of a network.
pub fn street<'f>(net: &[u8], frame: &'f [u8]) -> &'f [u8] {
    &frame[LENGTH + length_bytes(net[1])..]
}

/// The feet of a segment.
pub fn feet(net: &[u8], segment: usize) -> u32 {
    length(net, frame(net, segment))
}

/// The feet that stand in a frame of a network.
pub fn length(net: &[u8], frame: &[u8]) -> u32 {
    let bytes = &frame[LENGTH..][..length_bytes(net[1])];
    bytes
        .iter()
        .fold(0, |feet, &byte| feet << 8 | u32::from(byte))
}

/// The nodes and segments of a network, as its head has them; 0 where bytes end
/// before.
pub fn counts(net: &[u8]) -> (usize, usize) {
    let field = |at: usize| match net.get(at..at + 2) {
        Some(&[high, low]) => usize::from(u16::from_be_bytes([high, low])),
        _ => 0,
    };
    (field(2), field(4))
}
