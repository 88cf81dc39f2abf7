//! What a picture shows.

use super::ink::{Colour, Ink};

/// A town, and a route through it or what is reached of it.
#[derive(Debug)]
pub struct Scene {
    /// The town's name.
    pub name: Option<String>,
    /// What was asked and answered, in a line.
    pub caption: Option<String>,
    pub nodes: Vec<Node>,
    pub streets: Vec<Street>,
    /// How streets are drawn, in the order of the legend: each lies over those
    /// after it.
    pub inks: Vec<Ink>,
    /// What these tell, together: the title of a legend that has one.
    pub legend: &'static str,
    /// The streets of the route, in the order of riding.
    pub route: Vec<Ride>,
}

#[derive(Debug)]
pub struct Node {
    pub name: String,
    /// What stands below the name.
    pub note: Option<String>,
    /// Feet to the east and to the north.
    pub place: Option<(i32, i32)>,
    pub sign: Sign,
}

/// What a node is to the question.
#[derive(Clone, Copy, Debug, PartialEq, Eq)]
pub enum Sign {
    Plain,
    /// Where a way begins, and where it ends.
    From,
    To,
    /// Where a reach begins, and where it leads, each in its shade.
    Start(Colour),
    Reached(Colour),
    NotReached,
}

impl Sign {
    /// Whether the question names the node.
    pub fn is_asked(self) -> bool {
        matches!(self, Sign::From | Sign::To | Sign::Start(_))
    }
}

#[derive(Debug)]
pub struct Street {
    pub name: Option<String>,
    pub a: End,
    pub b: End,
    pub ways: Ways,
    /// 1 to 4.
    pub level: u8,
    /// Its ink's place in the list.
    pub ink: usize,
}

/// An end of a street: legs are counted clockwise from north, eight to a
/// turn.
#[derive(Clone, Copy, Debug, PartialEq, Eq)]
pub struct End {
    pub node: usize,
    pub leg: u8,
}

/// The ways that are open.
#[derive(Clone, Copy, Debug, PartialEq, Eq)]
pub enum Ways {
    AToB,
    BToA,
    Both,
}

/// A street that is ridden, from its A end or back from its B end.
#[derive(Clone, Copy, Debug)]
pub struct Ride {
    pub street: usize,
    pub backward: bool,
}

impl Scene {
    /// The nodes that a ride leaves and reaches.
    pub fn ends(&self, ride: Ride) -> [usize; 2] {
        let street = &self.streets[ride.street];
        match ride.backward {
            false => [street.a.node, street.b.node],
            true => [street.b.node, street.a.node],
        }
    }

    /// What a street is called where the pointer rests on it.
    pub fn street_words(&self, number: usize) -> String {
        let Some(street) = self.streets.get(number) else {
            return String::new();
        };
        let name = street
            .name
            .as_deref()
            .map_or_else(String::new, |name| format!("{name}, "));
        format!("{name}segment {number}: level {}", street.level)
    }
}
