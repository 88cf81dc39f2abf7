//! What the calls answer with: levels, measures, runs, nodes in reach.

use crate::refusal::Refusal;
use core::fmt;
use core::str::FromStr;

/// A stress level, 1 to 4; a tolerance that a route keeps is one too.
///
/// ```
/// use splicereel::Level;
/// assert!(Level::One < Level::Four);
/// assert_eq!(Level::Three.number(), 3);
/// assert_eq!(Level::Three.to_string(), "3");
/// assert_eq!(Level::from_number(3), Some(Level::Three));
/// assert_eq!(Level::from_number(0), None);
/// assert_eq!("3".parse(), Ok(Level::Three));
/// assert_eq!("5".parse::<Level>().unwrap_err().to_string(), "a tolerance is 1 to 4");
/// ```
#[derive(Clone, Copy, Debug, PartialEq, Eq, PartialOrd, Ord, Hash)]
pub enum Level {
    /// 1, the lowest.
    One = 1,
    /// 2.
    Two,
    /// 3.
    Three,
    /// 4, the highest.
    Four,
}

impl Level {
    /// Every level, the lowest first.
    pub const ALL: [Level; 4] = [Level::One, Level::Two, Level::Three, Level::Four];

    /// The number, 1 to 4.
    pub fn number(self) -> usize {
        self as usize
    }

    /// The level of a number from 1 to 4.
    pub fn from_number(number: usize) -> Option<Level> {
        Level::ALL
            .into_iter()
            .find(|level| level.number() == number)
    }

    /// The level that the archive told.
    pub(crate) fn told(number: u32) -> Result<Level, Refusal> {
        usize::try_from(number)
            .ok()
            .and_then(Level::from_number)
            .ok_or(Refusal::Unknown(number))
    }
}

/// The level of one digit, 1 to 4; otherwise [`Refusal::NoSuchTolerance`].
impl FromStr for Level {
    type Err = Refusal;

    fn from_str(word: &str) -> Result<Level, Refusal> {
        match word {
            "1" => Ok(Level::One),
            "2" => Ok(Level::Two),
            "3" => Ok(Level::Three),
            "4" => Ok(Level::Four),
            _ => Err(Refusal::NoSuchTolerance),
        }
    }
}

impl fmt::Display for Level {
    fn fmt(&self, out: &mut fmt::Formatter<'_>) -> fmt::Result {
        self.number().fmt(out)
    }
}

/// The measure that governs a segment's level.
///
/// ```
/// use splicereel::Measure;
/// assert_eq!(Measure::Speed.number(), 3);
/// assert_eq!(Measure::Speed.to_string(), "speed");
/// assert_eq!(Measure::from_number(6), Some(Measure::SeparatePath));
/// ```
#[derive(Clone, Copy, Debug, PartialEq, Eq, Hash)]
pub enum Measure {
    /// 1: the lanes beside a bike lane.
    Lanes = 1,
    /// 2: the reach of the bike lane, with parking where there is any.
    Reach,
    /// 3: the speed beside a bike lane.
    Speed,
    /// 4: how often the bike lane is blocked.
    Blocking,
    /// 5: mixed traffic, judged as a whole; under editions 02 and 03 also beside
    /// a bike lane, where that is the lower level.
    MixedTraffic,
    /// 6: a separate path.
    SeparatePath,
}

impl Measure {
    /// Every measure, in the order of their numbers.
    pub const ALL: [Measure; 6] = [
        Measure::Lanes,
        Measure::Reach,
        Measure::Speed,
        Measure::Blocking,
        Measure::MixedTraffic,
        Measure::SeparatePath,
    ];

    /// The number, 1 to 6.
    pub fn number(self) -> usize {
        self as usize
    }

    /// The measure of a number from 1 to 6.
    pub fn from_number(number: usize) -> Option<Measure> {
        Measure::ALL
            .into_iter()
            .find(|measure| measure.number() == number)
    }

    /// The measure that the archive told.
    pub(crate) fn told(number: u32) -> Result<Measure, Refusal> {
        usize::try_from(number)
            .ok()
            .and_then(Measure::from_number)
            .ok_or(Refusal::Unknown(number))
    }
}

impl fmt::Display for Measure {
    fn fmt(&self, out: &mut fmt::Formatter<'_>) -> fmt::Result {
        out.write_str(match self {
            Measure::Lanes => "lanes",
            Measure::Reach => "reach",
            Measure::Speed => "speed",
            Measure::Blocking => "blocking",
            Measure::MixedTraffic => "mixed traffic",
            Measure::SeparatePath => "separate path",
        })
    }
}

/// Level and governing measure of a segment.
#[derive(Clone, Copy, Debug, PartialEq, Eq, Hash)]
pub struct Judged {
    /// The level.
    pub level: Level,
    /// The measure that governs it.
    pub measure: Measure,
}

/// What is told of a route whose runs stand in the lent buffer.
#[derive(Clone, Copy, Debug, PartialEq, Eq, Hash)]
pub struct Found {
    /// The number of its runs.
    pub count: usize,
    /// Its length in feet.
    pub feet: u32,
    /// The greatest level of its runs and movements.
    pub level: Level,
}

/// A node in reach, and its least length.
#[derive(Clone, Copy, Debug, PartialEq, Eq, Hash)]
pub struct Entry {
    /// The node.
    pub node: usize,
    /// The least length in feet of its routes within the tolerance.
    pub feet: u32,
}

/// Which way a run rides its segment.
#[derive(Clone, Copy, Debug, PartialEq, Eq, Hash)]
pub enum Direction {
    /// From the A end to the B end.
    AToB,
    /// From the B end to the A end.
    BToA,
}

/// A segment ridden one way: run 2s rides segment s from A to B, run 2s + 1
/// from B to A.
///
/// ```
/// use splicereel::{Direction, Run};
/// let run = Run::from(5);
/// assert_eq!((run.segment(), run.direction()), (2, Direction::BToA));
/// assert_eq!(run.to_string(), "segment 2 from B to A");
/// ```
#[derive(Clone, Copy, Debug, PartialEq, Eq, PartialOrd, Ord, Hash)]
pub struct Run(u16);

impl Run {
    /// The segment's number.
    pub fn segment(self) -> usize {
        usize::from(self.0 / 2)
    }

    /// Which way the segment is ridden.
    pub fn direction(self) -> Direction {
        if self.0 & 1 == 0 {
            Direction::AToB
        } else {
            Direction::BToA
        }
    }

    /// The run's number.
    pub fn number(self) -> usize {
        usize::from(self.0)
    }
}

impl From<u16> for Run {
    fn from(number: u16) -> Run {
        Run(number)
    }
}

impl fmt::Display for Run {
    fn fmt(&self, out: &mut fmt::Formatter<'_>) -> fmt::Result {
        let way = match self.direction() {
            Direction::AToB => "from A to B",
            Direction::BToA => "from B to A",
        };
        write!(out, "segment {} {way}", self.segment())
    }
}
