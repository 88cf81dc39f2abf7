//! Refusals: why a call did not answer.

use core::error::Error;
use core::fmt;

/// Why a call refused.
///
/// Both its forms of print are words, so that a program whose `main` ends in
/// `?` says what is wrong.
///
/// ```
/// use splicereel::{judge_segment, Refusal};
///
/// let refusal = judge_segment(b"no network", 0).unwrap_err();
/// assert_eq!(refusal, Refusal::NotANetwork);
/// assert_eq!(refusal.number(), 8);
/// assert_eq!(refusal.to_string(), "the bytes are no network that Read could keep");
/// assert_eq!(format!("{refusal:?}"), refusal.to_string());
/// ```
#[derive(Clone, Copy, PartialEq, Eq, Hash)]
#[non_exhaustive]
pub enum Refusal {
    /// 1: a line is not whole pairs of uppercase hexadecimal digits ended by
    /// byte 0A, or it is empty.
    NotDigits,
    /// 2: the bytes of a frame do not sum to 0 modulo 256.
    WrongCheck,
    /// 3: the kind or the length of a frame is wrong for its position.
    WrongFrame,
    /// 4: a field is against the ranges or rules.
    WrongField,
    /// 5: a segment beyond the head's number, or too few of them.
    WrongCount,
    /// 6: two segment ends share node and leg.
    LegTaken,
    /// 7: the lent output is shorter than the network.
    OutputTooShort,
    /// 8: the bytes are no network that Read could keep.
    NotANetwork,
    /// 9: a node is not below the number of nodes.
    NoSuchNode,
    /// 10: a tolerance is not 1 to 4.
    NoSuchTolerance,
    /// 11: a scratch slice is shorter than two numbers for each segment, or so
    /// is the buffer from the place on.
    NoRoom,
    /// 12: a segment or run does not exist, or the run is not open.
    NoSuchRun,
    /// 13: no movement joins the two runs.
    NoMovement,
    /// 14: Read would accept the text, so that no line is refused.
    NoRefusedLine,
    /// 15: the list of a reach map is shorter than two numbers for each node,
    /// or there are fewer marks than nodes.
    TooFewEntries,
    /// 16: a network of an edition that has no move that way.
    NoSuchMove,
    /// 17: a count or a length is above the limits of the edition moved to.
    AboveLimits,
    /// 18: the output is shorter than the moved network.
    TooShortForMove,
    /// A number that this crate does not know, as an archive of another
    /// version could return; or an answer out of the known range.
    Unknown(u32),
}

/// Every refusal that has a number of its own, in their order.
const KNOWN: [Refusal; 18] = [
    Refusal::NotDigits,
    Refusal::WrongCheck,
    Refusal::WrongFrame,
    Refusal::WrongField,
    Refusal::WrongCount,
    Refusal::LegTaken,
    Refusal::OutputTooShort,
    Refusal::NotANetwork,
    Refusal::NoSuchNode,
    Refusal::NoSuchTolerance,
    Refusal::NoRoom,
    Refusal::NoSuchRun,
    Refusal::NoMovement,
    Refusal::NoRefusedLine,
    Refusal::TooFewEntries,
    Refusal::NoSuchMove,
    Refusal::AboveLimits,
    Refusal::TooShortForMove,
];

impl Refusal {
    /// The refusal's number.
    pub fn number(self) -> u32 {
        match self {
            Refusal::Unknown(number) => number,
            known => (1..)
                .zip(KNOWN)
                .find_map(|(number, each)| (each == known).then_some(number))
                .unwrap_or(0),
        }
    }

    /// The refusal with a number.
    ///
    /// ```
    /// use splicereel::Refusal;
    /// assert_eq!(Refusal::from_number(11), Refusal::NoRoom);
    /// assert_eq!(Refusal::from_number(99), Refusal::Unknown(99));
    /// ```
    pub fn from_number(number: u32) -> Refusal {
        (1..)
            .zip(KNOWN)
            .find_map(|(each, refusal)| (each == number).then_some(refusal))
            .unwrap_or(Refusal::Unknown(number))
    }
}

impl fmt::Display for Refusal {
    fn fmt(&self, out: &mut fmt::Formatter<'_>) -> fmt::Result {
        let words = match self {
            Refusal::NotDigits => {
                "a line is not whole pairs of uppercase hexadecimal digits ended by byte 0A"
            }
            Refusal::WrongCheck => "the check of a frame is wrong",
            Refusal::WrongFrame => "the kind or the length of a frame is wrong for its position",
            Refusal::WrongField => "a field is against the ranges or rules",
            Refusal::WrongCount => "a segment beyond the head's number, or too few segments",
            Refusal::LegTaken => "two segment ends share node and leg",
            Refusal::OutputTooShort => "the output is shorter than the network",
            Refusal::NotANetwork => "the bytes are no network that Read could keep",
            Refusal::NoSuchNode => "there is no such node",
            Refusal::NoSuchTolerance => "a tolerance is 1 to 4",
            Refusal::NoRoom => "scratch or route buffer have not two numbers for each segment",
            Refusal::NoSuchRun => "there is no such segment or run, or the run is not open",
            Refusal::NoMovement => "no movement joins the two runs",
            Refusal::NoRefusedLine => "Read would accept the text: no line is refused",
            Refusal::TooFewEntries => "a lent list has fewer entries than there are nodes",
            Refusal::NoSuchMove => "a network of this edition has no move that way",
            Refusal::AboveLimits => {
                "a count or a length is above the limits of the edition moved to"
            }
            Refusal::TooShortForMove => "the output is shorter than the moved network",
            Refusal::Unknown(number) => {
                return write!(out, "number {number}, which this crate does not know");
            }
        };
        out.write_str(words)
    }
}

impl fmt::Debug for Refusal {
    fn fmt(&self, out: &mut fmt::Formatter<'_>) -> fmt::Result {
        fmt::Display::fmt(self, out)
    }
}

impl Error for Refusal {}

/// Why Read refused, and at which line of the text.
///
/// ```
/// use splicereel::{Network, Refusal};
///
/// let refused = Network::read(b"010100010000FD\n00\n").unwrap_err();
/// assert_eq!(refused.refusal, Refusal::WrongFrame);
/// assert_eq!(refused.line, 2);
/// assert_eq!(
///     format!("{refused:?}"),
///     "line 2: the kind or the length of a frame is wrong for its position"
/// );
/// ```
#[derive(Clone, Copy, PartialEq, Eq, Hash)]
pub struct ReadRefusal {
    /// What is wrong.
    pub refusal: Refusal,
    /// The first faulty line, counted from 1.
    pub line: u32,
}

impl fmt::Display for ReadRefusal {
    fn fmt(&self, out: &mut fmt::Formatter<'_>) -> fmt::Result {
        write!(out, "line {}: {}", self.line, self.refusal)
    }
}

impl fmt::Debug for ReadRefusal {
    fn fmt(&self, out: &mut fmt::Formatter<'_>) -> fmt::Result {
        fmt::Display::fmt(self, out)
    }
}

// Its words hold the refusal's own: naming that as the source would print them
// twice.
impl Error for ReadRefusal {}

/// Why Read refuses a text, and the part of the text that holds the refused
/// line.
///
/// The part is a slice of the text itself, without the line's 0A; a line that
/// has none reaches to the text's end, and a 0D stays. Also an empty part keeps
/// its place: for an empty line where that stands; for missing segments and for
/// an empty text at the text's end, and so where no line is refused. Where the
/// output is too short it is the head line.
///
/// ```
/// use splicereel::{refused_line, Refusal, MAX_NETWORK};
///
/// let text = b"010100020001FB\n\n00\n";
/// let refused = refused_line(text, MAX_NETWORK);
/// assert_eq!((refused.refusal, refused.part), (Refusal::NotDigits, &b""[..]));
/// // The empty line after the head.
/// assert_eq!(refused.part.as_ptr(), text[15..].as_ptr());
/// ```
#[derive(Clone, Copy, Debug, PartialEq, Eq, Hash)]
pub struct RefusedLine<'t> {
    /// What is wrong.
    pub refusal: Refusal,
    /// The first faulty line.
    pub part: &'t [u8],
}
