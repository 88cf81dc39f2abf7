//! Points and lines on paper: x to the right, y downward.

use std::ops::{Add, Mul, Sub};

#[derive(Clone, Copy, Debug, PartialEq)]
pub struct Point {
    pub x: f64,
    pub y: f64,
}

/// The point at these coordinates.
pub fn at(x: f64, y: f64) -> Point {
    Point { x, y }
}

impl Add for Point {
    type Output = Point;
    fn add(self, other: Point) -> Point {
        at(self.x + other.x, self.y + other.y)
    }
}

impl Sub for Point {
    type Output = Point;
    fn sub(self, other: Point) -> Point {
        at(self.x - other.x, self.y - other.y)
    }
}

impl Mul<f64> for Point {
    type Output = Point;
    fn mul(self, times: f64) -> Point {
        at(self.x * times, self.y * times)
    }
}

impl Point {
    pub fn length(self) -> f64 {
        self.x.hypot(self.y)
    }

    pub fn dot(self, other: Point) -> f64 {
        self.x * other.x + self.y * other.y
    }

    /// The same direction with length 1; a direction all the same where there
    /// is none.
    pub fn unit(self) -> Point {
        match self.length() {
            length if length > 0.0 => self * (1.0 / length),
            _ => at(1.0, 0.0),
        }
    }

    /// A quarter turn clockwise: to the right of who rides in this direction.
    pub fn right(self) -> Point {
        at(-self.y, self.x)
    }
}

/// The direction in which a leg leaves its node, 0 to the north and clockwise.
pub fn compass(leg: u8) -> Point {
    let angle = f64::from(leg) * std::f64::consts::FRAC_PI_4;
    at(angle.sin(), -angle.cos())
}

/// A rectangle.
#[derive(Clone, Copy, Debug)]
pub struct Rect {
    pub low: Point,
    pub high: Point,
}

impl Rect {
    /// The rectangle of one point.
    pub fn of(point: Point) -> Rect {
        Rect {
            low: point,
            high: point,
        }
    }

    /// The rectangle round points; round the origin where there are none.
    pub fn round(points: impl IntoIterator<Item = Point>) -> Rect {
        let rects = points.into_iter().map(Rect::of);
        rects.reduce(Rect::and).unwrap_or(Rect::of(at(0.0, 0.0)))
    }

    /// The rectangle round both.
    pub fn and(self, other: Rect) -> Rect {
        Rect {
            low: at(self.low.x.min(other.low.x), self.low.y.min(other.low.y)),
            high: at(self.high.x.max(other.high.x), self.high.y.max(other.high.y)),
        }
    }

    /// Wider by so much on every side.
    pub fn wider(self, by: f64) -> Rect {
        Rect {
            low: self.low - at(by, by),
            high: self.high + at(by, by),
        }
    }

    pub fn width(self) -> f64 {
        self.high.x - self.low.x
    }

    pub fn height(self) -> f64 {
        self.high.y - self.low.y
    }

    pub fn meets(self, other: Rect) -> bool {
        self.low.x < other.high.x
            && other.low.x < self.high.x
            && self.low.y < other.high.y
            && other.low.y < self.high.y
    }

    /// How much of the line between two points lies within: the part within
    /// the columns that is within the rows too.
    pub fn holds(self, from: Point, to: Point) -> f64 {
        let mut part = (0.0_f64, 1.0_f64);
        let spans = [
            (from.x, to.x, self.low.x, self.high.x),
            (from.y, to.y, self.low.y, self.high.y),
        ];
        for (start, end, low, high) in spans {
            let step = end - start;
            if step == 0.0 {
                if start < low || start > high {
                    return 0.0;
                }
                continue;
            }
            let (one, other) = ((low - start) / step, (high - start) / step);
            part = (part.0.max(one.min(other)), part.1.min(one.max(other)));
            if part.0 >= part.1 {
                return 0.0;
            }
        }
        (part.1 - part.0) * (to - from).length()
    }
}

/// A line through points, of which there are at least two.
#[derive(Clone, Debug)]
pub struct Line {
    pub points: Vec<Point>,
}

/// The points of a curve.
const STEPS: u32 = 16;

impl Line {
    pub fn straight(from: Point, to: Point) -> Line {
        Line {
            points: vec![from, to],
        }
    }

    /// Curves one after another, each from where the last ended: two points
    /// that it is drawn to, and its end.
    pub fn curved(from: Point, curves: &[[Point; 3]]) -> Line {
        let mut points = vec![from];
        let mut start = from;
        for &[first, second, end] in curves {
            points.extend((1..=STEPS).map(|step| {
                let t = f64::from(step) / f64::from(STEPS);
                let s = 1.0 - t;
                start * (s * s * s)
                    + first * (3.0 * s * s * t)
                    + second * (3.0 * s * t * t)
                    + end * (t * t * t)
            }));
            start = end;
        }
        Line { points }
    }

    pub fn reversed(&self) -> Line {
        Line {
            points: self.points.iter().rev().copied().collect(),
        }
    }

    pub fn length(&self) -> f64 {
        self.pieces().map(|(from, to)| (to - from).length()).sum()
    }

    /// The straight pieces.
    pub fn pieces(&self) -> impl Iterator<Item = (Point, Point)> + '_ {
        self.points.windows(2).map(|pair| (pair[0], pair[1]))
    }

    /// The point so far along the line, and the direction there.
    pub fn along(&self, far: f64) -> (Point, Point) {
        let mut left = far;
        let mut last = (self.points[0], at(1.0, 0.0));
        for (from, to) in self.pieces() {
            let (length, direction) = ((to - from).length(), (to - from).unit());
            if left <= length {
                return (from + direction * left, direction);
            }
            left -= length;
            last = (to, direction);
        }
        last
    }

    /// The line without so much of it at either end.
    pub fn trimmed(&self, by: f64) -> Line {
        let length = self.length();
        let mut points = vec![self.along(by).0];
        let mut far = 0.0;
        for (from, to) in self.pieces() {
            far += (to - from).length();
            if far > by && far < length - by {
                points.push(to);
            }
        }
        points.push(self.along(length - by).0);
        Line { points }
    }

    /// The line moved to the right of who rides it.
    pub fn shifted(&self, by: f64) -> Line {
        let last = self.points.len() - 1;
        let shifted = (0..=last).map(|i| {
            let (before, after) = (
                self.points[i.saturating_sub(1)],
                self.points[last.min(i + 1)],
            );
            self.points[i] + (after - before).unit().right() * by
        });
        Line {
            points: shifted.collect(),
        }
    }
}
