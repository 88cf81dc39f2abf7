//! What an edition fixes: how large a network may be, how many bytes a length
//! has and with it a segment frame, which marks there are, which controls have
//! lanes and speed 0, and by which rules levels are told.
//!
//! Editions 01 to 03 exist. A later one adds its case to the functions of this
//! file that it changes.
//!
//! What a call remembers of a network is as large as the network's counts ask: a
//! town's memory serves up to 1,000 nodes and segments, of any edition, and a
//! county's all others.

use crate::frame::{HEAD, Head};

/// An edition of the format.
#[derive(Clone, Copy, Debug, PartialEq, Eq)]
pub enum Edition {
    /// Edition 01, which keeps its levels for good.
    One,
    /// Edition 02, with the frames and limits of 01.
    Two,
    /// Edition 03, for counties, with the rules of 02.
    Three,
}

impl Edition {
    /// The edition that a head's byte names, if it exists.
    #[inline]
    pub fn named(byte: u8) -> Option<Edition> {
        match byte {
            1 => Some(Edition::One),
            2 => Some(Edition::Two),
            3 => Some(Edition::Three),
            _ => None,
        }
    }

    /// The byte of a head that names it.
    #[inline]
    pub const fn byte(self) -> u8 {
        match self {
            Edition::One => 1,
            Edition::Two => 2,
            Edition::Three => 3,
        }
    }

    /// The edition of a network whose segment frames have `L` bytes: the same,
    /// with what the width tells of it known in advance.
    #[inline]
    pub const fn of_width<const L: usize>(self) -> Edition {
        match self {
            _ if L == LONG => Edition::Three,
            Edition::One => Edition::One,
            Edition::Two | Edition::Three => Edition::Two,
        }
    }

    /// The most nodes that a head may have.
    pub const fn most_nodes(self) -> usize {
        match self {
            Edition::One | Edition::Two => 1_000,
            Edition::Three => 8_000,
        }
    }

    /// The most segments that a head may have.
    pub const fn most_segments(self) -> usize {
        match self {
            Edition::One | Edition::Two => 1_000,
            Edition::Three => 8_000,
        }
    }

    /// The longest length of a segment, in feet.
    pub const fn most_feet(self) -> u32 {
        match self {
            Edition::One | Edition::Two => 52_800,
            Edition::Three => 264_000,
        }
    }

    /// Bytes of a segment's length.
    pub const fn length_bytes(self) -> usize {
        match self {
            Edition::One | Edition::Two => 2,
            Edition::Three => 4,
        }
    }

    /// Bytes of a segment frame: its length's, and 28 for all else.
    pub const fn frame_bytes(self) -> usize {
        28 + self.length_bytes()
    }

    /// Whether the levels are those of Note 5 of document 02.
    #[inline]
    pub const fn newer_rules(self) -> bool {
        match self {
            Edition::One => false,
            Edition::Two | Edition::Three => true,
        }
    }

    /// All marks together; any sum of some of them may be set.
    #[inline]
    pub const fn marks(self) -> u8 {
        match self {
            Edition::One => 1 + 2 + 4 + 8,
            Edition::Two | Edition::Three => 1 + 2 + 4 + 8 + 16,
        }
    }

    /// Whether a control has lanes and speed 0.
    #[inline]
    pub const fn crosses_nothing(self, control: u8) -> bool {
        match self {
            Edition::One => control <= 1,
            Edition::Two | Edition::Three => control <= 1 || control == 5,
        }
    }
}

/// The edition with the largest networks: what is long enough for those serves
/// every network.
const LARGEST: Edition = Edition::Three;

/// The most nodes of every network.
pub const MAX_NODES: usize = LARGEST.most_nodes();
/// The most segments of every network.
pub const MAX_SEGMENTS: usize = LARGEST.most_segments();
/// The most runs of every network, two for each segment: scratch and buffer so
/// long serve every network.
pub const MAX_RUNS: usize = 2 * MAX_SEGMENTS;
/// The numbers of the largest reach map, two for each node: a list so long
/// serves every network.
pub const MAX_LIST: usize = 2 * MAX_NODES;
/// The bytes of the largest network: an output so long serves every network.
pub const MAX_NETWORK: usize = HEAD + LARGEST.frame_bytes() * MAX_SEGMENTS;
/// The longest length of a segment in every network, in feet.
pub(crate) const MAX_FEET: u32 = LARGEST.most_feet();

/// The most nodes of a town: of a network of edition 01 or 02, or of one of
/// edition 03 that is no larger than those.
pub const TOWN_NODES: usize = Edition::One.most_nodes();
/// The most segments of a town.
pub const TOWN_SEGMENTS: usize = Edition::One.most_segments();
/// The most runs of a town, two for each segment.
pub const TOWN_RUNS: usize = 2 * TOWN_SEGMENTS;
/// The numbers of a town's largest reach map, two for each node.
pub const TOWN_LIST: usize = 2 * TOWN_NODES;

/// Bytes of a segment frame of editions 01 and 02.
pub(crate) const SHORT: usize = Edition::One.frame_bytes();
/// Bytes of a segment frame of edition 03.
pub(crate) const LONG: usize = Edition::Three.frame_bytes();

/// How wide the segment frames of a network are, and how much is remembered of
/// it.
#[derive(Clone, Copy, Debug, PartialEq, Eq)]
pub(crate) enum Memory {
    /// A town of edition 01 or 02.
    Town,
    /// A town of edition 03.
    LongTown,
    /// More nodes or segments than a town has.
    County,
}

impl Memory {
    /// What a network with this head takes.
    #[inline]
    pub fn of(head: Head) -> Memory {
        match head.edition {
            Edition::One | Edition::Two => Memory::Town,
            Edition::Three if head.nodes <= TOWN_NODES && head.segments <= TOWN_SEGMENTS => {
                Memory::LongTown
            }
            Edition::Three => Memory::County,
        }
    }

    /// What kept bytes take; where they are no network that does not matter.
    #[inline]
    pub fn of_kept(net: &[u8]) -> Memory {
        let head = net.first_chunk().and_then(Head::decode);
        head.map_or(Memory::Town, Memory::of)
    }
}

// The number of each memory is the most of both.
const _: () = assert!(TOWN_NODES == TOWN_SEGMENTS && MAX_NODES == MAX_SEGMENTS);

/// Makes a call that is generic over the bytes of a segment frame and over the
/// most nodes and segments, with those that a network takes.
///
/// Such a call is never inlined, so that a town's does not reserve a county's
/// stack.
macro_rules! in_memory {
    ($memory:expr, $call:ident, ($($argument:expr),* $(,)?)) => {
        match $memory {
            $crate::edition::Memory::Town => {
                $call::<{ $crate::edition::SHORT }, { $crate::edition::TOWN_NODES }>($($argument),*)
            }
            $crate::edition::Memory::LongTown => {
                $call::<{ $crate::edition::LONG }, { $crate::edition::TOWN_NODES }>($($argument),*)
            }
            $crate::edition::Memory::County => {
                $call::<{ $crate::edition::LONG }, { $crate::edition::MAX_NODES }>($($argument),*)
            }
        }
    };
}
pub(crate) use in_memory;

#[cfg(test)]
mod tests {
    use super::{Edition, LARGEST, Memory};
    use crate::frame::Head;

    /// Every edition that exists, with the byte that names it.
    const ALL: [(u8, Edition); 3] = [(1, Edition::One), (2, Edition::Two), (3, Edition::Three)];

    #[test]
    fn bytes_name_the_editions_that_exist() {
        for byte in 0..=255 {
            let named = ALL.into_iter().find(|each| each.0 == byte);
            assert_eq!(Edition::named(byte), named.map(|(_, edition)| edition));
        }
        for (byte, edition) in ALL {
            assert_eq!(edition.byte(), byte);
        }
    }

    #[test]
    fn no_edition_has_larger_networks_than_the_largest() {
        for (_, edition) in ALL {
            assert!(edition.most_nodes() <= LARGEST.most_nodes());
            assert!(edition.most_segments() <= LARGEST.most_segments());
            assert!(edition.most_feet() <= LARGEST.most_feet());
            assert!(edition.frame_bytes() <= LARGEST.frame_bytes());
        }
    }

    /// "Edition 03 has these limits and a 4-byte length, so its segment frame is
    /// 32 bytes .. It uses the newer rules."
    #[test]
    fn edition_03_is_for_counties() {
        let three = Edition::Three;
        assert_eq!((three.most_nodes(), three.most_segments()), (8_000, 8_000));
        assert_eq!((three.most_feet(), three.frame_bytes()), (264_000, 32));
        assert!(three.newer_rules());
        for older in [Edition::One, Edition::Two] {
            assert_eq!((older.most_nodes(), older.most_segments()), (1_000, 1_000));
            assert_eq!((older.most_feet(), older.frame_bytes()), (52_800, 30));
        }
    }

    /// The counts decide, not the edition.
    #[test]
    fn memory_of_each_size() {
        for (edition, nodes, segments, memory) in [
            (Edition::One, 1_000, 1_000, Memory::Town),
            (Edition::Two, 1, 0, Memory::Town),
            (Edition::Three, 1, 0, Memory::LongTown),
            (Edition::Three, 1_000, 1_000, Memory::LongTown),
            (Edition::Three, 1_001, 0, Memory::County),
            (Edition::Three, 1, 1_001, Memory::County),
            (Edition::Three, 8_000, 8_000, Memory::County),
        ] {
            let head = Head {
                edition,
                nodes,
                segments,
            };
            assert_eq!(Memory::of(head), memory, "{edition:?} {nodes} {segments}");
        }
    }

    /// "Under 02, mark 10 (hexadecimal) means a central two-way turn lane, and
    /// control 5 is a signal .., its lanes and speed 0."
    #[test]
    fn marks_and_controls_of_each_edition() {
        assert_eq!(ALL.map(|(_, edition)| edition.marks()), [0x0F, 0x1F, 0x1F]);
        for control in 0..=255 {
            let one = Edition::One.crosses_nothing(control);
            assert_eq!(one, [0, 1].contains(&control));
            for newer in [Edition::Two, Edition::Three] {
                let crosses_nothing = newer.crosses_nothing(control);
                assert_eq!(crosses_nothing, [0, 1, 5].contains(&control));
            }
        }
    }
}
