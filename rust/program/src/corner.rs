//! What decides a corner's level.
//!
//! The archive judges a movement as a whole. Which part of it decides is asked
//! of the archive too, about the same segments with one thing changed where the
//! first run arrives: no turn lane there, or nothing to cross, or the worst
//! crossing of the tables.

use crate::fault::Fault;
use crate::part::Part;
use crate::segment::Segment;
use crate::segment::{AT_A, AT_B, CONTROL, CROSSED, CROSSED_SPEED, TURN, TURN_LENGTH, TURN_SPEED};
use crate::table::{CONTROLS, TURNS};
use crate::town::{Town, unforeseen};
use splicereel::{Direction, Level, Run, judge_movement};

/// A corner of a route, from one run onto the next.
#[derive(Debug)]
pub struct Corner {
    pub node: usize,
    pub level: Level,
    /// The next run takes the right-hand exit, so that nothing is crossed.
    pub right_hand_exit: bool,
    /// The crossing alone has the level, above 1.
    pub crossing: bool,
    /// The turn lane alone has the level, above 1.
    pub turn_lane: bool,
    /// What was surveyed where the first run arrives.
    surveyed: Segment,
    at: usize,
}

impl Corner {
    /// The corner between two runs of a route, where `used` are the segments
    /// that have an end at each node.
    pub fn of(town: &Town, used: &[Vec<usize>], first: Run, second: Run) -> Result<Corner, Fault> {
        let node = town.run_ends(first).1;
        let asked = Asked::new(town, &used[node], first, second);
        let level = asked.judge(&[])?;
        let above = |changed: &[Change]| Ok(level > Level::One && asked.judge(changed)? == level);
        Ok(Corner {
            node,
            level,
            right_hand_exit: asked.judge(&[NO_TURN_LANE, WORST_CROSSING].concat())? == Level::One,
            crossing: above(&NO_TURN_LANE)?,
            turn_lane: above(&NOTHING_CROSSED)?,
            surveyed: town.segment(first.segment()),
            at: asked.at,
        })
    }

    /// What decided, with what was surveyed.
    pub fn words(&self) -> String {
        match (self.crossing, self.turn_lane) {
            (true, true) => format!(
                "crossing and turn lane: {}; {}",
                self.crossed(),
                self.turned()
            ),
            (true, false) => format!("crossing: {}", self.crossed()),
            (false, true) => format!("turn lane: {}", self.turned()),
            (false, false) if self.right_hand_exit => "right-hand exit".into(),
            (false, false) => self.crossed(),
        }
    }

    /// The names of what decided.
    pub fn deciders(&self) -> Vec<&'static str> {
        let both = [(self.crossing, "crossing"), (self.turn_lane, "turn lane")];
        both.into_iter()
            .filter(|(decides, _)| *decides)
            .map(|(_, name)| name)
            .collect()
    }

    fn surveyed(&self, field: usize) -> u32 {
        self.surveyed.get(self.at + field)
    }

    fn crossed(&self) -> String {
        let control = self.surveyed(CONTROL);
        match control {
            0 => "nothing crossed".into(),
            1 | 5 => name(&CONTROLS, control).into(),
            _ => {
                let (lanes, speed) = (self.surveyed(CROSSED), self.surveyed(CROSSED_SPEED));
                let lanes = if lanes == 1 {
                    "1 lane".into()
                } else {
                    format!("{lanes} lanes")
                };
                format!("{lanes} at {speed} mph, {}", name(&CONTROLS, control))
            }
        }
    }

    fn turned(&self) -> String {
        let (feet, speed) = (self.surveyed(TURN_LENGTH), self.surveyed(TURN_SPEED));
        format!(
            "{feet} ft at {speed} mph, {}",
            name(&TURNS, self.surveyed(TURN))
        )
    }
}

/// The table's name of a number.
fn name(names: &[&'static str], number: u32) -> &'static str {
    names.get(number as usize).copied().unwrap_or("")
}

/// A field of an approach, and the number that it gets.
type Change = (usize, u32);

const NO_TURN_LANE: [Change; 3] = [(TURN, 0), (TURN_LENGTH, 0), (TURN_SPEED, 0)];
const NOTHING_CROSSED: [Change; 3] = [(CONTROL, 0), (CROSSED, 0), (CROSSED_SPEED, 0)];
/// Twelve lanes at 85 mph without an island.
const WORST_CROSSING: [Change; 3] = [(CONTROL, 2), (CROSSED, 12), (CROSSED_SPEED, 85)];

/// A movement that is asked about.
struct Asked {
    /// The segments at its corner.
    part: Part,
    /// The first run's segment among them, and where it has the approach at
    /// which that run arrives.
    segment: usize,
    at: usize,
    /// The two runs, by the numbers of the part.
    runs: [usize; 2],
}

impl Asked {
    fn new(town: &Town, used: &[usize], first: Run, second: Run) -> Asked {
        // A run of a route rides one of the segments at its corner.
        let place = |run: Run| used.binary_search(&run.segment()).unwrap_or(0);
        let number = |run: Run| 2 * place(run) + usize::from(run.direction() == Direction::BToA);
        Asked {
            part: Part::of(town, used),
            segment: place(first),
            at: match first.direction() {
                Direction::AToB => AT_B,
                Direction::BToA => AT_A,
            },
            runs: [first, second].map(number),
        }
    }

    /// The movement's level with these changes of the approach.
    fn judge(&self, changes: &[Change]) -> Result<Level, Fault> {
        let mut part = self.part.clone();
        let segment = &mut part.segments[self.segment];
        for (field, number) in changes {
            segment.set(self.at + field, *number);
        }
        let [first, second] = self.runs;
        judge_movement(&part.bytes(), first, second).map_err(unforeseen)
    }
}
