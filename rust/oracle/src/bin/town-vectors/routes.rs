//! Inputs of program `examples_routes`.

use crate::{Folder, nodes_alone};
use std::io;
use towns::draw::{self, Shape};
use towns::sizes::MOST_SEGMENTS;
use towns::town::{Approach, COUNTY, OLDER, RESIDENTIAL, Segment, Town};
use towns::town::{block_town, end, linden, westerby};

pub fn write(out: &Folder) -> io::Result<()> {
    let mut one_way = block_town();
    one_way.segments[1].ways = 1;
    out.put("one-way-loop", &one_way.text())?;
    one_way.segments[1].ways = 2;
    out.put("one-way-loop-against", &one_way.text())?;
    for (name, town) in [
        ("twice", twice()),
        ("none", none()),
        ("linden", linden()),
        ("linden-busy", busy(linden())),
        ("westerby", westerby()),
        ("westerby-01", westerby().edition(OLDER)),
        ("westerby-03", westerby().edition(COUNTY)),
        ("there-and-back-03", there_and_back()),
        ("small-wild-03", draw::town_of(COUNTY, Shape::Wild, 310, 25)),
        ("single-node", Town::new(1)),
        ("single-node-loops", draw::town(Shape::Single, 4, 4)),
        ("no-segments", nodes_alone()),
        ("small-wild", draw::town(Shape::Wild, 309, 25)),
        ("thousand-grid", draw::town(Shape::Grid, 11, MOST_SEGMENTS)),
    ] {
        out.put(name, &town.text())?;
    }
    Ok(())
}

/// Round a block of three streets, twice on the way, a mild turn lane in the
/// second: node 1, then node 4, each come twice.
fn twice() -> Town {
    let hard = Approach::crossing(2, 6, 40);
    Town::new(8)
        .with(Segment::path(end(0, 0), end(1, 4), 250).at_b(hard))
        .with(Segment::path(end(1, 2), end(2, 6), 200))
        .with(Segment::path(end(2, 4), end(3, 0), 210).at_b(Approach::default().turning(3, 75, 15)))
        .with(Segment::path(end(3, 6), end(1, 6), 220))
        .with(Segment::path(end(1, 0), end(4, 4), 300).at_b(hard.turning(1, 100, 15)))
        .with(Segment::path(end(4, 3), end(5, 5), 205))
        .with(Segment::path(end(5, 3), end(6, 7), 215))
        .with(Segment::path(end(4, 7), end(6, 1), 225).ways(2))
        .with(Segment::path(end(4, 0), end(7, 2), 310))
}

/// As large as a town may be, of edition 03, every street as long as it may be: at
/// node 1 one may turn from node 0 to node 2 only on riding back from the end of
/// all the others.
fn there_and_back() -> Town {
    const MOST: u32 = 264_000;
    let last = MOST_SEGMENTS as u16 - 1;
    let hard = Approach::crossing(2, 6, 40);
    let mut town = Town::new(last + 1)
        .edition(COUNTY)
        .with(Segment::path(end(0, 0), end(1, 4), MOST).at_b(hard))
        .with(Segment::path(end(1, 6), end(2, 0), MOST))
        .with(Segment::path(end(1, 0), end(3, 4), MOST));
    for node in 3..last {
        let next = Segment::path(end(node, 0), end(node + 1, 4), MOST);
        town.segments.push(next);
    }
    town.with(Segment::path(end(last, 2), end(last, 0), MOST))
}

/// Two parts, and a street that may only be ridden the other way.
fn none() -> Town {
    Town::new(5)
        .with(Segment::path(end(0, 0), end(1, 0), 100))
        .with(Segment::path(end(1, 1), end(2, 0), 100).ways(2))
        .with(Segment::path(end(3, 0), end(4, 0), 100).street(0, 6, 45, 0, 0))
}

/// The same town, no street of it below 25 mph or residential: document 01
/// gives it the same levels, and Note 2 of document 02 does not.
fn busy(mut town: Town) -> Town {
    for street in town.segments.iter_mut().filter(|street| street.form == 1) {
        street.speed = street.speed.max(25);
        street.marks &= !RESIDENTIAL;
    }
    town
}
