//! What an edition allows in its frames, beyond what all of them do.

use crate::town::{BLOCKED, CENTRELINE, MEDIAN, RESIDENTIAL, TURN_LANE};
use crate::town::{COUNTY, IMPROVED_SIGNAL, NEWER, OLDER, SIGNAL};

/// The editions that exist, by the byte of a head that names them.
pub const EDITIONS: [u8; 3] = [OLDER, NEWER, COUNTY];

/// All marks of the older edition together.
const OLDER_MARKS: u8 = CENTRELINE + RESIDENTIAL + MEDIAN + BLOCKED;

/// Bytes of a head that name no edition.
pub(crate) const NO_EDITIONS: [u8; 3] = [0, 4, 255];

/// All marks of an edition together; any sum of some of them may be set.
pub fn all_marks(edition: u8) -> u8 {
    match edition {
        OLDER => OLDER_MARKS,
        _ => OLDER_MARKS + TURN_LANE,
    }
}

/// The greatest control of an edition.
pub fn last_control(edition: u8) -> u8 {
    match edition {
        OLDER => 4,
        _ => IMPROVED_SIGNAL,
    }
}

/// The controls of an edition that have lanes and speed 0.
pub(crate) fn uncrossed(edition: u8) -> &'static [u8] {
    match edition {
        OLDER => &[0, SIGNAL],
        _ => &[0, SIGNAL, IMPROVED_SIGNAL],
    }
}
