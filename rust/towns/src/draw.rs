//! Random towns of many shapes, and deliberate damage to them.
//!
//! Everything is drawn from a seed, the same on every machine.

mod damage;
mod fields;
mod plan;

pub use damage::{Damage, Spot, change, damage, damage_kept, seal};
pub use plan::{county_grid, mixed_grid, mixed_grid_of, town, town_of};

/// The splitmix generator.
#[derive(Clone, Debug)]
pub struct Rng(u64);

impl Rng {
    /// A generator started from a seed.
    pub fn new(seed: u64) -> Rng {
        Rng(seed)
    }

    /// The next 64 bits.
    pub fn bits(&mut self) -> u64 {
        self.0 = self.0.wrapping_add(0x9E37_79B9_7F4A_7C15);
        let mut z = self.0;
        z = (z ^ (z >> 30)).wrapping_mul(0xBF58_476D_1CE4_E5B9);
        z = (z ^ (z >> 27)).wrapping_mul(0x94D0_49BB_1331_11EB);
        z ^ (z >> 31)
    }

    /// A number below `bound`, or 0 if that is 0.
    pub fn below(&mut self, bound: usize) -> usize {
        ((u128::from(self.bits()) * bound as u128) >> 64) as usize
    }

    /// A number from `low` to `high`, both included.
    pub fn range(&mut self, low: usize, high: usize) -> usize {
        low + self.below(high.saturating_sub(low) + 1)
    }

    /// True in `percent` of a hundred cases.
    pub fn chance(&mut self, percent: usize) -> bool {
        self.below(100) < percent
    }

    /// One of the items of a list that is not empty.
    pub fn pick<T: Copy>(&mut self, list: &[T]) -> T {
        list[self.below(list.len())]
    }

    /// Puts a list into random order.
    pub fn shuffle<T>(&mut self, list: &mut [T]) {
        for i in (1..list.len()).rev() {
            list.swap(i, self.below(i + 1));
        }
    }
}

/// The street plan of a random town.
#[derive(Clone, Copy, Debug, PartialEq, Eq)]
pub enum Shape {
    /// A tree.
    Tree,
    /// A rectangular grid, the segments left over laid across blocks.
    Grid,
    /// One ring; a single segment is a loop.
    Ring,
    /// A chain whose nodes carry loops, both ends at one node.
    Loops,
    /// A chain with two or three streets between the same corners.
    Twins,
    /// All eight legs of every node used, four segments for each node.
    Star,
    /// A grid of few different lengths, without stress: many ties.
    Ties,
    /// A grid of one-way streets, every other line the other way.
    OneWay,
    /// A grid with hard crossings, where low stress means going round blocks.
    Maze,
    /// Free legs joined at random, fields over their whole ranges.
    Wild,
    /// One node, at most four segments.
    Single,
    /// Nodes without segments.
    Empty,
    /// As many nodes as a town may have, most of them far from the streets; of
    /// edition 03 also one more, and as many as a county may have.
    Sparse,
    /// A chain that must be ridden to its end, turned at a loop, and ridden
    /// back: from the first node to the last, within tolerance 3.
    Back,
}

impl Shape {
    /// All shapes.
    pub const ALL: [Shape; 14] = [
        Shape::Tree,
        Shape::Grid,
        Shape::Ring,
        Shape::Loops,
        Shape::Twins,
        Shape::Star,
        Shape::Ties,
        Shape::OneWay,
        Shape::Maze,
        Shape::Wild,
        Shape::Single,
        Shape::Empty,
        Shape::Sparse,
        Shape::Back,
    ];

    /// The name on a command line.
    pub fn name(self) -> &'static str {
        match self {
            Shape::Tree => "tree",
            Shape::Grid => "grid",
            Shape::Ring => "ring",
            Shape::Loops => "loops",
            Shape::Twins => "twins",
            Shape::Star => "star",
            Shape::Ties => "ties",
            Shape::OneWay => "oneway",
            Shape::Maze => "maze",
            Shape::Wild => "wild",
            Shape::Single => "single",
            Shape::Empty => "empty",
            Shape::Sparse => "sparse",
            Shape::Back => "back",
        }
    }

    /// The shape of a name.
    pub fn from_name(name: &str) -> Option<Shape> {
        Shape::ALL.into_iter().find(|shape| shape.name() == name)
    }
}
