//! Where nodes and streets lie on the paper.

use super::geometry::{Line, Point, Rect, at, compass};
use super::scene::{Scene, Street};
use std::collections::BTreeMap;

/// A street of middle length is so long on paper, where that makes the town
/// neither too small nor too large.
const MIDDLE: f64 = 130.0;
/// The longer side of a town on paper.
const LEAST: f64 = 360.0;
const MOST: f64 = 3_600.0;
/// Between two streets that join the same nodes, where they are farthest
/// apart.
const GAP: f64 = 30.0;
/// About a third of the height of a street that ends where it began.
const LOOP: f64 = 60.0;

/// Nodes and streets on paper.
#[derive(Debug)]
pub struct Map {
    pub places: Vec<Point>,
    /// The streets, each from its A end to its B end.
    pub lines: Vec<Line>,
    /// A foot on paper.
    pub foot: f64,
}

impl Map {
    /// The map of a scene whose nodes have places.
    pub fn of(scene: &Scene) -> Map {
        let feet = scene.nodes.iter().map(|node| node.place.unwrap_or((0, 0)));
        let feet: Vec<Point> = feet
            .map(|(east, north)| at(east.into(), -f64::from(north)))
            .collect();
        let foot = foot(scene, &feet);
        let places: Vec<Point> = feet.iter().map(|place| *place * foot).collect();
        let mut lines: Vec<Line> = scene
            .streets
            .iter()
            .map(|street| round_trip(street, &places))
            .collect();
        for fan in fans(scene, &places) {
            fan.spread(scene, &places, &mut lines);
        }
        Map {
            places,
            lines,
            foot,
        }
    }

    /// The rectangle round all of it.
    pub fn frame(&self) -> Rect {
        let points = self.lines.iter().flat_map(|line| &line.points);
        Rect::round(self.places.iter().chain(points).copied())
    }
}

/// The units on paper that make a foot.
fn foot(scene: &Scene, places: &[Point]) -> f64 {
    let frame = Rect::round(places.iter().copied());
    let span = frame.width().max(frame.height());
    if span == 0.0 {
        return 1.0;
    }
    let lengths = scene
        .streets
        .iter()
        .map(|street| (places[street.b.node] - places[street.a.node]).length());
    let mut lengths: Vec<f64> = lengths.filter(|length| *length > 0.0).collect();
    lengths.sort_by(f64::total_cmp);
    let middle = lengths.get(lengths.len() / 2).copied().unwrap_or(span);
    (MIDDLE / middle).clamp(LEAST / span, MOST / span)
}

/// A street that ends where it began: it leaves by its one leg and comes back
/// by the other.
fn round_trip(street: &Street, places: &[Point]) -> Line {
    let node = places[street.a.node];
    let (leaves, returns) = (compass(street.a.leg), compass(street.b.leg));
    let between = leaves + returns;
    // Opposite legs have two sides between them: one is taken.
    let middle = if between.length() < 0.1 {
        leaves.right()
    } else {
        between.unit()
    };
    let aside = leaves - middle * leaves.dot(middle);
    let (far, aside) = (node + middle * (1.5 * LOOP), aside.unit() * LOOP);
    Line::curved(
        node,
        &[
            [node + leaves * LOOP, far + aside, far],
            [far - aside, node + returns * LOOP, node],
        ],
    )
}

/// The streets that join two nodes which lie apart.
struct Fan {
    from: usize,
    to: usize,
    streets: Vec<usize>,
}

fn fans(scene: &Scene, places: &[Point]) -> Vec<Fan> {
    let mut fans: BTreeMap<(usize, usize), Vec<usize>> = BTreeMap::new();
    for (number, street) in scene.streets.iter().enumerate() {
        let (a, b) = (street.a.node, street.b.node);
        if (places[a] - places[b]).length() >= 1.0 {
            fans.entry((a.min(b), a.max(b))).or_default().push(number);
        }
    }
    let fan = |((from, to), streets)| Fan { from, to, streets };
    fans.into_iter().map(fan).collect()
}

impl Fan {
    /// Lays the streets side by side, in the order of their legs.
    fn spread(mut self, scene: &Scene, places: &[Point], lines: &mut [Line]) {
        let (start, end) = (places[self.from], places[self.to]);
        let ahead = (end - start).unit();
        let leg = |street: &Street| {
            if street.a.node == self.from {
                street.a.leg
            } else {
                street.b.leg
            }
        };
        // From behind on the left, clockwise to behind on the right.
        let turned = |leg: u8| {
            let out = compass(leg);
            out.dot(ahead.right()).atan2(out.dot(ahead))
        };
        self.streets.sort_by(|one, other| {
            let angle = |street: &usize| turned(leg(&scene.streets[*street]));
            angle(one).total_cmp(&angle(other))
        });
        let middle = (self.streets.len() as f64 - 1.0) / 2.0;
        for (place, &number) in self.streets.iter().enumerate() {
            let aside = ahead.right() * ((place as f64 - middle) * GAP * 4.0 / 3.0);
            let line = match place as f64 == middle {
                true => Line::straight(start, end),
                false => {
                    let third = (end - start) * (1.0 / 3.0);
                    Line::curved(start, &[[start + third + aside, end - third + aside, end]])
                }
            };
            let forward = scene.streets[number].a.node == self.from;
            lines[number] = if forward { line } else { line.reversed() };
        }
    }
}
