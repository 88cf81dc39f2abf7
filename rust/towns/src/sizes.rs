//! How large a network may be, by the byte of a head that names its edition: of
//! edition 01, as the paper has it, of edition 02, which has the same sizes, and
//! of edition 03, which is for counties.

use crate::town::COUNTY;

/// The most nodes of a town: of a network of edition 01 or 02.
pub const MOST_NODES: usize = 1_000;
/// The most segments of a town.
pub const MOST_SEGMENTS: usize = 1_000;
/// The most nodes of a county: of a network of edition 03.
pub const COUNTY_NODES: usize = 8_000;
/// The most segments of a county.
pub const COUNTY_SEGMENTS: usize = 8_000;
/// The bytes of the largest network of any edition.
pub const MOST_BYTES: usize = HEAD + segment_bytes(COUNTY) * COUNTY_SEGMENTS;
/// The longest turn lane, in feet.
pub(crate) const MOST_TURN_FEET: u16 = 2_000;

/// Bytes of a head.
pub const HEAD: usize = 7;

/// The most nodes of a network of an edition.
pub const fn most_nodes(edition: u8) -> usize {
    match edition {
        COUNTY => COUNTY_NODES,
        _ => MOST_NODES,
    }
}

/// The most segments of a network of an edition.
pub const fn most_segments(edition: u8) -> usize {
    match edition {
        COUNTY => COUNTY_SEGMENTS,
        _ => MOST_SEGMENTS,
    }
}

/// The longest segment of an edition, in feet.
pub const fn most_feet(edition: u8) -> u32 {
    match edition {
        COUNTY => 264_000,
        _ => 52_800,
    }
}

/// Bytes of a segment's length in an edition; all fields after it stand so much
/// later.
pub const fn length_bytes(edition: u8) -> usize {
    match edition {
        COUNTY => 4,
        _ => 2,
    }
}

/// Bytes of a segment frame of an edition.
pub const fn segment_bytes(edition: u8) -> usize {
    28 + length_bytes(edition)
}
