//! What is asked about moving a network to another edition: both ways, into
//! outputs of every length, in every edition, and next to what edition 02 allows.

use crate::calls::Way;
use crate::editions::older;
use crate::places::{counts, frames, length};
use crate::question::Question;
use crate::rounds::{Done, Subject};
use crate::{Comparer, Mismatch, copies};
use towns::draw::{self, Rng, Shape};
use towns::edition::EDITIONS;
use towns::sizes::{
    COUNTY_NODES, HEAD, MOST_BYTES, MOST_NODES, MOST_SEGMENTS, most_feet, segment_bytes,
};
use towns::town::{COUNTY, NEWER, Town};

/// The kinds of output that moves are lent, by its length beside that of the moved
/// network.
pub const ROOMS: [&str; 5] = ["exact", "longer", "one short", "shorter", "0"];

/// Lengths that both editions have; and some that edition 03 alone has, two of
/// which have low bytes that would do, or are 0.
const LENGTHS: [u32; 4] = [1, 255, 256, 52_800];
const LONGER: [u32; 5] = [52_801, 65_535, 65_536, 65_536 + 500, 264_000];

/// Towns of more segments are large.
const LARGE: usize = 120;

/// Where a length stands that is too long.
const PLACES: [&str; 3] = ["first", "middle", "last"];

/// The call's name.
pub fn name(way: Way) -> &'static str {
    match way {
        Way::Up => "move up",
        Way::Back => "move back",
    }
}

/// The bytes of a network that is moved; no more than there may be, whatever the
/// head of some bytes says.
fn size(net: &[u8], way: Way) -> usize {
    let (_, segments) = counts(net);
    (HEAD + segment_bytes(way.to()) * segments).min(MOST_BYTES)
}

/// Both ways, into an output of each of some kinds.
pub fn asked(comparer: &mut Comparer<'_>, rng: &mut Rng, net: &[u8], kinds: &[&str]) -> Done {
    for way in Way::BOTH {
        for kind in kinds {
            let size = size(net, way);
            let room = match *kind {
                "longer" => size + rng.range(1, 70),
                "one short" => size - 1,
                "shorter" => rng.below(size),
                "0" => 0,
                _ => size,
            };
            comparer.compare(rng, None, net, Question::Move { way, room })?;
        }
    }
    Ok(())
}

/// The same into an output that is long enough, and one of any kind.
pub fn asked_twice(comparer: &mut Comparer<'_>, rng: &mut Rng, net: &[u8]) -> Done {
    let kind = rng.pick(&ROOMS);
    asked(comparer, rng, net, &["exact", kind])
}

/// A town as it is, and there and back; one that is not large also in each edition,
/// with more nodes and with other lengths.
pub fn moves(comparer: &mut Comparer<'_>, rng: &mut Rng, subject: &Subject) -> Done {
    asked(comparer, rng, &subject.bytes, &ROOMS)?;
    let Some(plain) = older(subject.town.clone()) else {
        return Ok(());
    };
    if plain.segments.len() <= LARGE {
        for edition in EDITIONS {
            let town = plain.clone().edition(edition);
            asked_twice(comparer, rng, &town.bytes())?;
        }
        for nodes in [MOST_NODES, MOST_NODES + 1, COUNTY_NODES] {
            let (town, nodes) = (plain.clone().edition(COUNTY), nodes as u16);
            asked_twice(comparer, rng, &Town { nodes, ..town }.bytes())?;
        }
        lengths(comparer, rng, &plain)?;
    }
    let town = subject.town.clone().shortened(NEWER);
    let both = there_and_back(comparer, rng, &town)?;
    copies::copies(comparer, rng, both)
}

/// A street of the town with some of the lengths, in each edition that has them.
fn lengths(comparer: &mut Comparer<'_>, rng: &mut Rng, plain: &Town) -> Done {
    if plain.segments.is_empty() {
        return Ok(());
    }
    let some = [rng.pick(&LENGTHS), rng.pick(&LONGER), rng.pick(&LONGER)];
    for feet in some {
        let last = plain.segments.len() - 1;
        let place = rng.pick(&[0, last / 2, last]);
        let mut town = plain.clone();
        town.segments[place].length = feet;
        for edition in [NEWER, COUNTY] {
            if feet <= most_feet(edition) {
                asked_twice(comparer, rng, &town.clone().edition(edition).bytes())?;
            }
        }
    }
    Ok(())
}

/// A town in editions 02 and 03: either moved is the other, byte by byte, and
/// moved again it is as it came. Gives both.
fn there_and_back(
    comparer: &mut Comparer<'_>,
    rng: &mut Rng,
    town: &Town,
) -> Result<[Subject; 2], Box<Mismatch>> {
    let both = [NEWER, COUNTY].map(|edition| Subject::new(town.clone().edition(edition)));
    let [newer, county] = [&both[0].bytes, &both[1].bytes];
    for (way, before, after) in [(Way::Up, newer, county), (Way::Back, county, newer)] {
        let there = moved(comparer, rng, way, before)?;
        let again = moved(comparer, rng, way.other(), &there)?;
        if [&there, &again] != [after, before] {
            let question = format!("{way:?}, then {:?}: {there:?}, {again:?}", way.other());
            let complaint = "not the town of the other edition, or not as it came";
            return Err(comparer.disagreement(before, question, complaint));
        }
        comparer.reached.count(again_case(way));
    }
    Ok(both)
}

/// What the archive writes of a network.
fn moved(
    comparer: &mut Comparer<'_>,
    rng: &mut Rng,
    way: Way,
    net: &[u8],
) -> Result<Vec<u8>, Box<Mismatch>> {
    let room = size(net, way) + rng.below(3);
    let seen = comparer.compare(rng, None, net, Question::Move { way, room })?;
    let written = seen.told()[0] as usize;
    Ok(seen.output.now()[..written.min(room)].to_vec())
}

/// A county; and towns of edition 03 that are as large as edition 02 allows, or
/// larger by a node, by a segment or by a foot.
pub fn of_county(comparer: &mut Comparer<'_>, rng: &mut Rng, county: &Subject) -> Done {
    asked(comparer, rng, &county.bytes, &ROOMS)?;
    for (more_nodes, more_segments) in [(1, 0), (0, 1), (1, 1)] {
        let town = large(rng, MOST_NODES + more_nodes, MOST_SEGMENTS + more_segments);
        asked(comparer, rng, &town.bytes(), &ROOMS)?;
    }
    let mut town = large(rng, MOST_NODES, MOST_SEGMENTS);
    there_and_back(comparer, rng, &town)?;
    for place in [0, MOST_SEGMENTS / 2, MOST_SEGMENTS - 1] {
        let street = &mut town.segments[place];
        street.length = rng.pick(&LONGER);
        asked_twice(comparer, rng, &town.bytes())?;
        town = town.shortened(NEWER);
    }
    Ok(())
}

/// A town of edition 03 with so many nodes and segments, all as long as edition 02
/// allows.
fn large(rng: &mut Rng, nodes: usize, segments: usize) -> Town {
    let mut town = draw::town_of(COUNTY, Shape::Grid, rng.bits(), segments);
    town.nodes = nodes as u16; // a grid's streets join about half as many
    for street in &mut town.segments {
        street.length = most_feet(NEWER);
    }
    town
}

/// The lengths of the segments of some bytes, as far as they are whole frames.
fn lengths_of(net: &[u8]) -> Vec<u32> {
    if net.len() < HEAD {
        return Vec::new();
    }
    let whole = frames(net).filter(|frame| frame.len() == segment_bytes(net[1]));
    whole.map(|frame| length(net, frame)).collect()
}

/// Which of nodes, segments and lengths are above what edition 02 allows.
fn above(net: &[u8]) -> [bool; 3] {
    let (nodes, segments) = counts(net);
    let long = lengths_of(net).iter().any(|&feet| feet > most_feet(NEWER));
    [nodes > MOST_NODES, segments > MOST_SEGMENTS, long]
}

/// Whether there is what a refusal after 8 is for, whatever other refusal there
/// is.
fn is_due(net: &[u8], way: Way, room: usize, number: u32) -> bool {
    match number {
        16 => net.get(1) != Some(&way.from()),
        17 => above(net).contains(&true),
        _ => room < size(net, way),
    }
}

fn room_case(way: Way, kind: &str) -> String {
    format!("{}: an output {kind}", name(way))
}

fn size_case(way: Way, (nodes, segments): (usize, usize)) -> String {
    format!("{}: {nodes} nodes and {segments} segments", name(way))
}

fn length_case(way: Way, feet: u32) -> String {
    format!("{}: a length of {feet}", name(way))
}

fn again_case(way: Way) -> String {
    let other = name(way.other());
    format!("{}, then {other}: the first bytes", name(way))
}

fn alone_case(way: Way, number: u32) -> String {
    format!("{} refused {number}: nothing else", name(way))
}

fn before_case(way: Way, number: u32, later: u32) -> String {
    format!("{} refused {number}: {later} too", name(way))
}

fn above_case(above: [bool; 3], short: bool) -> String {
    let all = ["nodes", "segments", "lengths"].into_iter().zip(above);
    let some: Vec<&str> = all.filter(|each| each.1).map(|each| each.0).collect();
    let output = if short { "too short" } else { "long enough" };
    let some = some.join(" and ");
    format!("move back refused 17: {some}, an output {output}")
}

fn longer_case(feet: u32) -> String {
    format!("move back refused 17: one length of {feet}")
}

fn place_case(place: &str) -> String {
    format!("move back refused 17: the {place} length")
}

/// What an answer about a move shows.
pub fn shown(net: &[u8], way: Way, room: usize, number: u32) -> Vec<String> {
    let size = size(net, way);
    let mut all = match number {
        0 => shown_of_moved(net, way),
        17 => shown_of_above(net, room < size),
        _ => Vec::new(),
    };
    if [0, 18].contains(&number) {
        all.push(room_case(way, room_kind(room, size)));
    }
    if number == 0 {
        return all;
    }
    let later = (16..=18).filter(|&later| later > number);
    let due: Vec<u32> = later.filter(|&n| is_due(net, way, room, n)).collect();
    if due.is_empty() {
        all.push(alone_case(way, number));
    }
    all.extend(due.iter().map(|&later| before_case(way, number, later)));
    all
}

/// The kind of an output, beside a network of so many bytes.
fn room_kind(room: usize, size: usize) -> &'static str {
    match room {
        0 => "0",
        _ if room > size => "longer",
        _ if room == size => "exact",
        _ if room == size - 1 => "one short",
        _ => "shorter",
    }
}

/// Sizes that networks have that are moved.
const SIZES: [(usize, usize); 4] = [(1, 0), (1, 1), (MOST_NODES, 0), (MOST_NODES, MOST_SEGMENTS)];

/// What a network that was moved shows.
fn shown_of_moved(net: &[u8], way: Way) -> Vec<String> {
    let size = SIZES.into_iter().find(|&of| of == counts(net));
    let mut all: Vec<String> = size.map(|of| size_case(way, of)).into_iter().collect();
    let lengths = lengths_of(net);
    let met = LENGTHS.into_iter().filter(|feet| lengths.contains(feet));
    all.extend(met.map(|feet| length_case(way, feet)));
    all
}

/// What a network that was refused with 17 shows.
fn shown_of_above(net: &[u8], short: bool) -> Vec<String> {
    let above = above(net);
    let mut all = vec![above_case(above, short)];
    let lengths = lengths_of(net);
    let long = |place: &usize| lengths[*place] > most_feet(NEWER);
    let places: Vec<usize> = (0..lengths.len()).filter(long).collect();
    if let (&[place], [false, false, true]) = (&places[..], above) {
        let feet = LONGER.into_iter().find(|&feet| feet == lengths[place]);
        all.extend(feet.map(longer_case));
        all.push(place_case(match place {
            0 => PLACES[0],
            _ if place + 1 < lengths.len() => PLACES[1],
            _ => PLACES[2],
        }));
    }
    all
}

/// Everything that comparisons have to show of moves.
pub fn must_show() -> Vec<String> {
    let mut all = Vec::new();
    for way in Way::BOTH {
        all.extend(ROOMS.map(|kind| room_case(way, kind)));
        all.extend(SIZES.map(|of| size_case(way, of)));
        all.extend(LENGTHS.map(|feet| length_case(way, feet)));
        all.push(again_case(way));
        all.extend([8, 16, 18].map(|number| alone_case(way, number)));
        let pairs = [(8, 16), (8, 17), (8, 18), (16, 18)];
        all.extend(pairs.map(|(number, later)| before_case(way, number, later)));
    }
    // An edition that has no move back has nothing above its limits.
    all.push(before_case(Way::Up, 16, 17));
    all.push(before_case(Way::Back, 17, 18));
    all.push(alone_case(Way::Back, 17));
    let one = [0, 1, 2].map(|one| [0, 1, 2].map(|each| each == one));
    for above in one.into_iter().chain([[true; 3]]) {
        all.extend([false, true].map(|short| above_case(above, short)));
    }
    all.extend(LONGER.map(longer_case));
    all.extend(PLACES.map(place_case));
    all
}

#[cfg(test)]
mod tests {
    use super::{Way, shown};
    use towns::town::{COUNTY, NEWER, Segment, Town, end};

    /// What is due besides a refusal is told from the bytes, whatever they are.
    #[test]
    fn refusals_that_hold_at_once() {
        let long = Segment::path(end(0, 0), end(0, 1), 65_536);
        let county = Town::new(1_001).edition(COUNTY).with(long).bytes();
        let newer = Town::new(1).edition(NEWER).bytes();
        for (net, way, room, number, cases) in [
            (&county, Way::Up, 38, 16, &["17 too", "18 too"][..]),
            (&county, Way::Up, 39, 16, &["17 too"]),
            (
                &county,
                Way::Back,
                36,
                17,
                &["nodes and lengths, an output too short", "18 too"],
            ),
            (&newer, Way::Up, 6, 18, &["nothing else"]),
            (&newer, Way::Back, 7, 16, &["nothing else"]),
            (&vec![9, 9], Way::Up, 7, 8, &["16 too"]),
            (&vec![], Way::Back, 0, 8, &["16 too", "18 too"]),
        ] {
            let mut shown = shown(net, way, room, number);
            shown.retain(|case| case.contains("refused"));
            let ends = |(case, end): (&String, &&str)| case.ends_with(*end);
            let all = shown.iter().zip(cases).all(ends);
            assert!(all && shown.len() == cases.len(), "{shown:?}, {cases:?}");
        }
    }
}
