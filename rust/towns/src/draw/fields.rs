//! How the fields of a random town's streets are drawn.

use super::Rng;
use crate::edition::all_marks;
use crate::sizes::{MOST_TURN_FEET, most_feet};
use crate::town::TURN_LANE;
use crate::town::{Approach, COUNTY, End, IMPROVED_SIGNAL, MEDIAN, OLDER, RESIDENTIAL, Segment};

/// How the fields of a town's streets are drawn.
#[derive(Clone, Copy, Debug, PartialEq, Eq)]
pub(super) enum Style {
    /// Separate paths, nothing crossed.
    Paths,
    /// Mostly low levels.
    Gentle,
    /// Levels 1 to 4 all common.
    Mixed,
    /// Every value of every range alike.
    Uniform,
    /// The values next to the tables' and ranges' limits.
    Edges,
    /// Quiet streets, hard crossings.
    Crossings,
}

pub(super) struct Fields {
    /// The town's edition, with its sizes and lengths.
    pub edition: u8,
    /// The edition whose marks and controls there are to draw.
    pub values: u8,
    pub style: Style,
    /// Percent of streets open one way only.
    pub one_way: usize,
    /// Lengths to choose from; none means the whole range.
    pub lengths: Option<&'static [u32]>,
}

/// Marks that most gentle streets have at most.
const QUIET: u8 = RESIDENTIAL | MEDIAN | TURN_LANE;

pub(super) const TIED: [u32; 1] = [100];
pub(super) const HALVES: [u32; 3] = [100, 200, 300];
pub(super) const BLOCKS: [u32; 6] = [150, 264, 300, 330, 528, 660];
/// Blocks, and the links of a county: a mile, five, twelve and a half and fifty.
pub(super) const LINKS: [u32; 8] = [264, 330, 528, 660, 5_280, 26_400, 66_000, 264_000];

/// The lengths next to the limits of an edition: what its bytes tell apart, and
/// the longest.
fn edges(edition: u8) -> Vec<u32> {
    let most = most_feet(edition);
    let mut all = vec![1, 2, 255, 256, 257, most - 1, most];
    if edition == COUNTY {
        all.extend([52_800, 52_801, 65_535, 65_536, 65_537, 131_072]);
    }
    all
}

impl Fields {
    pub fn draw(rng: &mut Rng, edition: u8) -> Fields {
        Fields {
            edition,
            values: edition,
            style: rng.pick(&[
                Style::Paths,
                Style::Gentle,
                Style::Gentle,
                Style::Mixed,
                Style::Mixed,
                Style::Uniform,
                Style::Edges,
                Style::Crossings,
                Style::Crossings,
            ]),
            one_way: rng.pick(&[0, 0, 10, 30, 60, 100]),
            lengths: match edition {
                COUNTY => rng.pick(&[None, None, None, Some(&LINKS[..]), Some(&BLOCKS)]),
                _ => rng.pick(&[None, None, Some(&BLOCKS), Some(&HALVES), Some(&TIED)]),
            },
        }
    }

    pub fn street(&self, rng: &mut Rng, a: End, b: End) -> Segment {
        let length = match self.lengths {
            Some(list) => rng.pick(list),
            None if self.style == Style::Edges => rng.pick(&edges(self.edition)),
            None => rng.range(1, most_feet(self.edition) as usize) as u32,
        };
        let ways = if rng.chance(self.one_way) {
            rng.range(1, 2) as u8
        } else {
            3
        };
        let form = match self.style {
            Style::Paths => 3,
            Style::Gentle => rng.pick(&[0, 0, 0, 1, 2, 3]),
            Style::Crossings => rng.pick(&[0, 3, 3]),
            _ => rng.range(0, 3) as u8,
        };
        let mut street = Segment::path(a, b, length).ways(ways);
        if form != 3 {
            let (lanes, speed, reach, marks) = self.traffic(rng, form);
            street = street.street(form, lanes, speed, if form == 0 { 0 } else { reach }, marks);
        }
        street.at_b(self.approach(rng)).at_a(self.approach(rng))
    }

    fn traffic(&self, rng: &mut Rng, form: u8) -> (u8, u8, u8, u8) {
        let marks = rng.below(1 + usize::from(all_marks(self.values))) as u8;
        match self.style {
            Style::Gentle | Style::Crossings => (
                rng.pick(&[1, 1, 1, 2, 2, 3]),
                rng.pick(&[5, 15, 20, 25, 25, 25, 30]),
                if form == 1 {
                    rng.range(26, 34) as u8
                } else {
                    rng.range(9, 16) as u8
                },
                if rng.chance(20) { marks } else { marks & QUIET },
            ),
            Style::Mixed => (
                rng.pick(&[1, 1, 2, 2, 2, 3, 4, 5, 6]),
                rng.pick(&[20, 25, 25, 26, 30, 30, 31, 35, 36, 45]),
                if form == 1 {
                    rng.range(24, 34) as u8
                } else {
                    rng.range(6, 18) as u8
                },
                marks,
            ),
            Style::Edges => (
                rng.pick(&[1, 2, 3, 4, 5, 6, 11, 12]),
                rng.pick(&[5, 6, 24, 25, 26, 29, 30, 31, 34, 35, 36, 37, 84, 85]),
                rng.pick(&[0, 1, 11, 12, 13, 26, 27, 28, 29, 30, 31, 59, 60]),
                marks,
            ),
            _ => (
                rng.range(1, 12) as u8,
                rng.range(5, 85) as u8,
                rng.range(0, 60) as u8,
                marks,
            ),
        }
    }

    fn approach(&self, rng: &mut Rng) -> Approach {
        if self.style == Style::Paths {
            return Approach::default();
        }
        let approach = self.crossing(rng);
        let lane = match self.style {
            Style::Gentle | Style::Crossings => 10,
            Style::Mixed => 35,
            _ => 75,
        };
        if rng.chance(lane) {
            self.turn_lane(rng, approach)
        } else {
            approach
        }
    }

    /// An approach without a turn lane.
    fn crossing(&self, rng: &mut Rng) -> Approach {
        let control = match self.style {
            Style::Gentle => rng.pick(&[0, 0, 0, 0, 1, 1, 2, 3, 4]),
            Style::Mixed => rng.pick(&[0, 0, 1, 2, 3, 4]),
            Style::Crossings => rng.pick(&[0, 2, 2, 2, 3, 4]),
            _ => rng.range(0, 4) as u8,
        };
        if control < 2 {
            let improved = self.values != OLDER && rng.chance(40);
            return Approach::crossing(if improved { IMPROVED_SIGNAL } else { control }, 0, 0);
        }
        let (lanes, speed) = match self.style {
            Style::Gentle => (rng.range(1, 4) as u8, rng.pick(&[15, 20, 25, 30, 35])),
            Style::Mixed => (
                rng.range(1, 6) as u8,
                rng.pick(&[20, 25, 26, 30, 31, 35, 36]),
            ),
            Style::Crossings => (rng.range(3, 8) as u8, rng.pick(&[25, 30, 31, 35, 40])),
            Style::Edges => (
                rng.pick(&[1, 2, 3, 4, 5, 6, 7, 11, 12]),
                rng.pick(&[5, 6, 25, 26, 30, 31, 35, 36, 84, 85]),
            ),
            _ => (rng.range(1, 12) as u8, rng.range(5, 85) as u8),
        };
        Approach::crossing(control, lanes, speed)
    }

    /// The same approach with a turn lane.
    fn turn_lane(&self, rng: &mut Rng, approach: Approach) -> Approach {
        let most = MOST_TURN_FEET;
        let kind = rng.range(1, 3) as u8;
        let (length, speed) = match self.style {
            Style::Uniform => (rng.range(1, most.into()) as u16, rng.range(5, 85) as u8),
            Style::Edges => (
                rng.pick(&[1, 2, 74, 75, 76, 149, 150, 151, 255, 256, most - 1, most]),
                rng.pick(&[5, 14, 15, 16, 19, 20, 21, 84, 85]),
            ),
            _ => (
                rng.pick(&[40, 75, 76, 120, 150, 151, 300]),
                rng.pick(&[10, 15, 15, 16, 20, 25]),
            ),
        };
        approach.turning(kind, length, speed)
    }
}
