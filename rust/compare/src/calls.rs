//! The calls as C sees them, on either side.

use splicereel::ffi::{self, Lent, Part, Scratch, Told};
use towns::town::{COUNTY, NEWER};

/// Where a reach map starts, and how far it goes.
#[derive(Clone, Copy, Debug, PartialEq, Eq)]
pub struct Reach {
    /// The node to leave.
    pub from: usize,
    /// The tolerance.
    pub tolerance: usize,
    /// The greatest length in feet.
    pub greatest: usize,
}

/// Which way a network is moved.
#[derive(Clone, Copy, Debug, PartialEq, Eq)]
pub enum Way {
    /// From edition 02 to edition 03.
    Up,
    /// From edition 03 to edition 02.
    Back,
}

impl Way {
    /// Both ways.
    pub const BOTH: [Way; 2] = [Way::Up, Way::Back];

    /// The other way.
    pub fn other(self) -> Way {
        match self {
            Way::Up => Way::Back,
            Way::Back => Way::Up,
        }
    }

    /// The edition that it leads from.
    pub fn from(self) -> u8 {
        self.other().to()
    }

    /// The edition that it leads to.
    pub fn to(self) -> u8 {
        match self {
            Way::Up => COUNTY,
            Way::Back => NEWER,
        }
    }
}

/// An implementation of the ten calls: each returns 0 or a refusal's number
/// and writes what else it tells into `told`, or for a refused line into
/// `part`.
pub trait Calls {
    /// Read.
    fn read(&self, text: &[u8], output: &mut [u8], told: &mut Told) -> u32;
    /// Refused line.
    fn refused_line(&self, text: &[u8], output_length: usize, part: &mut Part) -> u32;
    /// Judge a segment.
    fn judge_segment(&self, net: &[u8], segment: usize, told: &mut Told) -> u32;
    /// Judge a movement.
    fn judge_movement(&self, net: &[u8], first: usize, second: usize, told: &mut Told) -> u32;
    /// Route with a tolerance, Least stress without.
    fn search(
        &self,
        net: &[u8],
        from: usize,
        to: usize,
        tolerance: Option<usize>,
        lent: Lent<'_>,
        told: &mut Told,
    ) -> u32;
    /// Reach map.
    fn reach_map(
        &self,
        net: &[u8],
        reach: Reach,
        scratch: Scratch<'_>,
        list: &mut [u32],
        told: &mut Told,
    ) -> u32;
    /// Nearest.
    fn nearest(
        &self,
        net: &[u8],
        from: usize,
        tolerance: usize,
        marks: &[u8],
        scratch: Scratch<'_>,
        told: &mut Told,
    ) -> u32;
    /// Move up or Move back.
    fn move_network(&self, way: Way, net: &[u8], output: &mut [u8], told: &mut Told) -> u32;
}

/// The proved archive.
pub struct Archive;

impl Calls for Archive {
    fn read(&self, text: &[u8], output: &mut [u8], told: &mut Told) -> u32 {
        ffi::read(text, output, told)
    }

    fn refused_line(&self, text: &[u8], output_length: usize, part: &mut Part) -> u32 {
        ffi::refused_line(text, output_length, part)
    }

    fn judge_segment(&self, net: &[u8], segment: usize, told: &mut Told) -> u32 {
        ffi::judge_segment(net, segment, told)
    }

    fn judge_movement(&self, net: &[u8], first: usize, second: usize, told: &mut Told) -> u32 {
        ffi::judge_movement(net, first, second, told)
    }

    fn search(
        &self,
        net: &[u8],
        from: usize,
        to: usize,
        tolerance: Option<usize>,
        lent: Lent<'_>,
        told: &mut Told,
    ) -> u32 {
        match tolerance {
            Some(tolerance) => ffi::route(net, from, to, tolerance, lent, told),
            None => ffi::least_stress(net, from, to, lent, told),
        }
    }

    fn reach_map(
        &self,
        net: &[u8],
        reach: Reach,
        scratch: Scratch<'_>,
        list: &mut [u32],
        told: &mut Told,
    ) -> u32 {
        let Reach {
            from,
            tolerance,
            greatest,
        } = reach;
        ffi::reach_map(net, from, tolerance, greatest, scratch, list, told)
    }

    fn nearest(
        &self,
        net: &[u8],
        from: usize,
        tolerance: usize,
        marks: &[u8],
        scratch: Scratch<'_>,
        told: &mut Told,
    ) -> u32 {
        ffi::nearest(net, from, tolerance, marks, scratch, told)
    }

    fn move_network(&self, way: Way, net: &[u8], output: &mut [u8], told: &mut Told) -> u32 {
        match way {
            Way::Up => ffi::move_up(net, output, told),
            Way::Back => ffi::move_back(net, output, told),
        }
    }
}

/// The independent implementation in Rust.
pub struct Twin;

/// Writes an answer's numbers into the first elements of `told`.
fn tell<const N: usize>(told: &mut Told, answer: Result<[u32; N], u8>) -> u32 {
    match answer {
        Ok(numbers) => {
            told[..N].copy_from_slice(&numbers);
            0
        }
        Err(number) => u32::from(number),
    }
}

/// The tolerance as the twin takes it: what does not fit a byte is out of range
/// like 255.
fn narrow(tolerance: usize) -> u8 {
    u8::try_from(tolerance).unwrap_or(u8::MAX)
}

impl Calls for Twin {
    fn read(&self, text: &[u8], output: &mut [u8], told: &mut Told) -> u32 {
        let (number, first) = match twin::read(text, output) {
            Ok(written) => (0, written),
            Err((number, line)) => (u32::from(number), line),
        };
        told[0] = first as u32; // neither is near 2 to the 32nd here
        number
    }

    fn refused_line(&self, text: &[u8], output_length: usize, part: &mut Part) -> u32 {
        let (number, range) = twin::refused_line(text, output_length);
        *part = [range.start, range.len()];
        number.into()
    }

    fn judge_segment(&self, net: &[u8], segment: usize, told: &mut Told) -> u32 {
        let answer = twin::judge_segment(net, segment);
        tell(
            told,
            answer.map(|(level, measure)| [level.into(), measure.into()]),
        )
    }

    fn judge_movement(&self, net: &[u8], first: usize, second: usize, told: &mut Told) -> u32 {
        let answer = twin::judge_movement(net, first, second);
        tell(told, answer.map(|level| [level.into()]))
    }

    fn search(
        &self,
        net: &[u8],
        from: usize,
        to: usize,
        tolerance: Option<usize>,
        lent: Lent<'_>,
        told: &mut Told,
    ) -> u32 {
        let Lent {
            best,
            previous,
            buffer,
            place,
        } = lent;
        let numbers =
            |found: twin::Found| [1, found.count as u32, found.length, found.level.into()];
        match tolerance {
            Some(tolerance) => {
                let tolerance = narrow(tolerance);
                match twin::route(net, from, to, tolerance, best, previous, buffer, place) {
                    Ok(None) => tell(told, Ok([0])),
                    answer => tell(told, answer.map(|found| found.map_or([0; 4], numbers))),
                }
            }
            None => match twin::least_stress(net, from, to, best, previous, buffer, place) {
                Ok(Some((found, tolerance))) => {
                    told[4] = tolerance.into();
                    tell(told, Ok(numbers(found)))
                }
                Ok(None) => tell(told, Ok([0])),
                Err(number) => number.into(),
            },
        }
    }

    fn reach_map(
        &self,
        net: &[u8],
        reach: Reach,
        scratch: Scratch<'_>,
        list: &mut [u32],
        told: &mut Told,
    ) -> u32 {
        let (best, previous) = (scratch.best, scratch.previous);
        let (tolerance, greatest) = (narrow(reach.tolerance), reach.greatest);
        let count = twin::reach_map(net, reach.from, tolerance, greatest, best, previous, list);
        tell(told, count.map(|count| [count as u32])) // at most one for each node
    }

    fn nearest(
        &self,
        net: &[u8],
        from: usize,
        tolerance: usize,
        marks: &[u8],
        scratch: Scratch<'_>,
        told: &mut Told,
    ) -> u32 {
        let (best, previous) = (scratch.best, scratch.previous);
        match twin::nearest(net, from, narrow(tolerance), marks, best, previous) {
            Ok(None) => tell(told, Ok([0])),
            answer => tell(
                told,
                answer.map(|found| found.map_or([0; 3], |(node, feet)| [1, node as u32, feet])),
            ),
        }
    }

    fn move_network(&self, way: Way, net: &[u8], output: &mut [u8], told: &mut Told) -> u32 {
        let written = match way {
            Way::Up => twin::move_up(net, output),
            Way::Back => twin::move_back(net, output),
        };
        tell(told, written.map(|written| [written as u32])) // as few as Read's
    }
}
