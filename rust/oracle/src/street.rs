//! A segment in plain fields, and its levels by the tables.

use crate::frame::{Head, Taker, within};

/// Level by lane class (to 3, 4 or 5, 6 and more) and band, form 0 in general.
const MIXED: [[u8; 4]; 3] = [[2, 3, 4, 4], [3, 4, 4, 4], [4, 4, 4, 4]];
/// The same for at most 2 lanes, residential or without marked centreline.
const MIXED_CALM: [u8; 4] = [1, 2, 4, 4];
/// Measure 3 of form 1, by band.
const PARKING_SPEED: [u8; 4] = [1, 2, 3, 4];
/// Measure 3 of form 2, by band.
const LANE_SPEED: [u8; 4] = [1, 1, 3, 4];
/// Controls at which no lanes are crossed, with their crossing level: by
/// edition - 1, since Note 5 of document 02 adds one and changes another, and
/// Note 6 keeps them so.
const UNCROSSED: [&[(u32, u8)]; 3] = [
    &[(0, 1), (1, 1)],
    &[(0, 1), (1, 4), (5, 1)],
    &[(0, 1), (1, 4), (5, 1)],
];
/// The greatest sum of marks, by edition - 1.
const MOST_MARKS: [u32; 3] = [1 + 2 + 4 + 8, 1 + 2 + 4 + 8 + 16, 1 + 2 + 4 + 8 + 16];
/// The greatest length in feet, by edition - 1.
pub(crate) const MOST_FEET: [u32; 3] = [52_800, 52_800, 264_000];
/// Crossing level by control - 2, band and lanes crossed (index 0 unused).
const CROSSED: [[[u8; 13]; 4]; 3] = [
    [
        [0, 1, 1, 1, 2, 2, 4, 4, 4, 4, 4, 4, 4],
        [0, 1, 1, 1, 2, 2, 4, 4, 4, 4, 4, 4, 4],
        [0, 2, 2, 2, 3, 3, 4, 4, 4, 4, 4, 4, 4],
        [0, 3, 3, 3, 4, 4, 4, 4, 4, 4, 4, 4, 4],
    ],
    [
        [0, 1, 1, 1, 1, 1, 2, 2, 2, 2, 2, 2, 2],
        [0, 1, 1, 1, 2, 2, 3, 3, 3, 3, 3, 3, 3],
        [0, 2, 2, 2, 3, 3, 4, 4, 4, 4, 4, 4, 4],
        [0, 3, 3, 3, 4, 4, 4, 4, 4, 4, 4, 4, 4],
    ],
    [
        [0, 1, 2, 2, 4, 4, 4, 4, 4, 4, 4, 4, 4],
        [0, 1, 2, 4, 4, 4, 4, 4, 4, 4, 4, 4, 4],
        [0, 2, 4, 4, 4, 4, 4, 4, 4, 4, 4, 4, 4],
        [0, 4, 4, 4, 4, 4, 4, 4, 4, 4, 4, 4, 4],
    ],
];

fn band(speed: u32) -> usize {
    let mut band = 0;
    for last in [25, 30, 35] {
        if speed > last {
            band += 1;
        }
    }
    band
}

/// The crossing level of a control at which no lanes are crossed.
fn uncrossed(edition: u32, control: u32) -> Option<u8> {
    let mut all = UNCROSSED[edition as usize - 1].iter();
    all.find(|each| each.0 == control).map(|each| each.1)
}

/// What is met on riding in at an end.
#[derive(Clone, Debug)]
pub(crate) struct Met {
    edition: u32,
    control: u32,
    lanes: u32,
    speed: u32,
    turn: u32,
    turn_length: u32,
    turn_speed: u32,
}

impl Met {
    fn parse(t: &mut Taker<'_>, edition: u32) -> Option<Met> {
        let (control, lanes, speed) = (t.one()?, t.one()?, t.one()?);
        if uncrossed(edition, control).is_some() {
            within(lanes, 0, 0)?;
            within(speed, 0, 0)?;
        } else {
            within(control, 2, 4)?;
            within(lanes, 1, 12)?;
            within(speed, 5, 85)?;
        }
        let turn = within(t.one()?, 0, 3)?;
        let (turn_length, turn_speed) = (t.two()?, t.one()?);
        if turn == 0 {
            within(turn_length, 0, 0)?;
            within(turn_speed, 0, 0)?;
        } else {
            within(turn_length, 1, 2000)?;
            within(turn_speed, 5, 85)?;
        }
        Some(Met {
            edition,
            control,
            lanes,
            speed,
            turn,
            turn_length,
            turn_speed,
        })
    }

    pub fn crossing(&self) -> u8 {
        match uncrossed(self.edition, self.control) {
            Some(level) => level,
            None => CROSSED[self.control as usize - 2][band(self.speed)][self.lanes as usize],
        }
    }

    pub fn turn_lane(&self) -> u8 {
        if self.turn == 0 {
            return 1;
        }
        let slow = self.turn_speed <= 15;
        if self.turn == 1 {
            if slow && self.turn_length <= 150 {
                return 2;
            }
            return if self.turn_speed <= 20 { 3 } else { 4 };
        }
        if self.turn == 2 {
            return if slow { 3 } else { 4 };
        }
        if slow && self.turn_length <= 75 {
            return 1;
        }
        if slow && self.turn_length <= 150 {
            return 3;
        }
        4
    }
}

/// A segment.
#[derive(Clone, Debug)]
pub(crate) struct Street {
    edition: u32,
    /// Node and leg of A, of B.
    pub ends: [(u32, u32); 2],
    pub length: u32,
    form: u32,
    pub ways: u32,
    lanes: u32,
    speed: u32,
    reach: u32,
    marks: u32,
    pub at_b: Met,
    pub at_a: Met,
}

impl Street {
    /// Fields after the kind, before the check.
    pub fn parse(bytes: &[u8], head: Head) -> Option<Street> {
        let Head { edition, nodes, .. } = head;
        let mut t = Taker(bytes.iter());
        let a = (within(t.two()?, 0, nodes - 1)?, within(t.one()?, 0, 7)?);
        let b = (within(t.two()?, 0, nodes - 1)?, within(t.one()?, 0, 7)?);
        let length = match edition {
            3 => t.four()?,
            _ => t.two()?,
        };
        within(length, 1, MOST_FEET[edition as usize - 1])?;
        let form = within(t.one()?, 0, 3)?;
        let ways = within(t.one()?, 1, 3)?;
        let (lanes, speed, reach, marks) = (t.one()?, t.one()?, t.one()?, t.one()?);
        if form == 3 {
            within(lanes + speed + reach + marks, 0, 0)?;
        } else {
            within(lanes, 1, 12)?;
            within(speed, 5, 85)?;
            within(reach, 0, if form == 0 { 0 } else { 60 })?;
            within(marks, 0, MOST_MARKS[edition as usize - 1])?;
        }
        let at_b = Met::parse(&mut t, edition)?;
        let at_a = Met::parse(&mut t, edition)?;
        Some(Street {
            edition,
            ends: [a, b],
            length,
            form,
            ways,
            lanes,
            speed,
            reach,
            marks,
            at_b,
            at_a,
        })
    }

    fn marked(&self, mark: u32) -> bool {
        (self.marks / mark) % 2 == 1
    }

    /// Level and governing measure.
    pub fn judge(&self) -> (u8, u8) {
        let with_bike_lane = match self.form {
            0 => return (self.mixed(self.lanes), 5),
            1 => governing(self.beside_parking()),
            2 => governing(self.without_parking()),
            _ => return (1, 6),
        };
        if self.edition == 1 {
            return with_bike_lane;
        }
        // Note 5: "takes the mixed level when that is lower, and measure 5
        // then governs".
        let directions = if self.ways == 3 { 2 } else { 1 };
        let mixed = self.mixed(directions * self.lanes);
        if mixed < with_bike_lane.0 {
            (mixed, 5)
        } else {
            with_bike_lane
        }
    }

    /// The level of riding among the traffic of so many through lanes.
    fn mixed(&self, lanes: u32) -> u8 {
        let band = band(self.speed);
        if lanes <= 2 && (self.marked(2) || !self.marked(1)) {
            MIXED_CALM[band]
        } else if lanes <= 3 {
            MIXED[0][band]
        } else if lanes <= 5 {
            MIXED[1][band]
        } else {
            MIXED[2][band]
        }
    }

    /// The reach in half feet, as measure 2 counts it. Note 5: 4 more "when
    /// lanes are 1, ways are 3 and that mark is set", a central two-way turn
    /// lane, which no street of edition 01 has.
    fn counted_reach(&self) -> u32 {
        match (self.lanes, self.ways, self.marked(16)) {
            (1, 3, true) => self.reach + 4,
            _ => self.reach,
        }
    }

    fn beside_parking(&self) -> [u8; 4] {
        let counted = self.counted_reach();
        let reach = if counted >= 30 {
            1
        } else if counted >= 28 {
            2
        } else {
            self.narrow()
        };
        let lanes = if self.lanes == 1 { 1 } else { 3 };
        [
            lanes,
            reach,
            PARKING_SPEED[band(self.speed)],
            self.blocked(),
        ]
    }

    /// Measure 2 of form 1 for a reach of 27 and under: 3, and by Note 2 of
    /// document 02 it is 2 where the limit is below 25 mph or the street is
    /// residential.
    fn narrow(&self) -> u8 {
        let residential = self.marked(2);
        if residential || self.speed <= 24 {
            2
        } else {
            3
        }
    }

    fn without_parking(&self) -> [u8; 4] {
        let lanes = if self.lanes == 1 {
            1
        } else if self.lanes == 2 && self.marked(4) {
            2
        } else {
            3
        };
        let reach = if self.counted_reach() >= 12 { 1 } else { 2 };
        [lanes, reach, LANE_SPEED[band(self.speed)], self.blocked()]
    }

    fn blocked(&self) -> u8 {
        if self.marked(8) { 3 } else { 1 }
    }
}

/// The greatest of four levels, and the lowest-numbered measure that has it.
fn governing(four: [u8; 4]) -> (u8, u8) {
    for level in [4, 3, 2] {
        for (measure, each) in (1..).zip(four) {
            if each == level {
                return (level, measure);
            }
        }
    }
    (1, 1)
}
