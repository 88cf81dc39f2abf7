//! Reach map and Nearest beside Route: each side's times for the same towns and
//! starts.

use crate::{Asked, SEEDS, SIZES, cells};
use bench::{Call, Side, Subject};
use towns::draw::mixed_grid;

/// Towns of one size, with a node that no street leads to.
fn towns(segments: usize) -> Vec<Subject> {
    SEEDS
        .map(|seed| Subject::with_lone_node(&mixed_grid(seed, segments), seed))
        .collect()
}

/// The table: microseconds of both calls, the median of their ratios, and the
/// growth of both.
pub fn table() {
    let mut sizes: Vec<Vec<Subject>> = SIZES.iter().map(|&size| towns(size)).collect();
    print!("| side | calls |");
    SIZES.iter().for_each(|size| print!(" {size} segments |"));
    println!(" growth |\n|---|---|---|---|---|---|---|");
    for (calls, title) in [
        (
            [Call::Map, Call::RouteNone],
            "Reach map of the whole town / Route that finds none",
        ),
        (
            [Call::Nearest, Call::Route(4)],
            "Nearest / Route to the same node",
        ),
    ] {
        for side in Side::BOTH {
            print!("| {} | {title} |", side.name());
            let two: [Asked; 2] = calls.map(|call| (side, call));
            cells(&mut sizes, two);
        }
    }
}
