//! What is asked about the reach of a node: maps, nearest nodes, and arguments
//! of every kind.

use crate::calls::Reach;
use crate::question::{Question, Seen};
use crate::rounds::{Done, Subject, enough, huge, odd_node, odd_tolerance, two_nodes};
use crate::{Comparer, Mismatch};
use oracle::Ways;
use splicereel::ffi::Told;
use towns::draw::Rng;
use towns::edition::EDITIONS;
use towns::lend::Lengths;
use towns::sizes::most_feet;
use towns::town::{Segment, Town, end};

/// A node and its least length.
type Entry = (usize, u32);

/// The kinds of greatest length that maps are asked with.
pub const GREATEST: [&str; 15] = [
    "0",
    "a node's",
    "one less than a node's",
    "one more than a node's",
    "one less and far more",
    "2^31 - 1",
    "2^31",
    "2^31 + 1",
    "2^32 - 2",
    "2^32 - 1",
    "2^32",
    "2^48 - 1",
    "2^48",
    "2^63",
    "the greatest",
];

/// Lengths where 31 bits end, by the names of [`GREATEST`]: in a county there are
/// nodes on either side.
const HALF: [(usize, &str); 3] = [
    ((1 << 31) - 1, "2^31 - 1"),
    (1 << 31, "2^31"),
    ((1 << 31) + 1, "2^31 + 1"),
];

/// Lengths that exclude no node, by the names of [`GREATEST`]; where a narrower
/// number is made of them, or of one more, or they are multiplied by 2^16, 0
/// comes out or nearly so.
const HUGE: [(usize, &str); 7] = [
    ((1 << 32) - 2, "2^32 - 2"),
    ((1 << 32) - 1, "2^32 - 1"),
    (1 << 32, "2^32"),
    ((1 << 48) - 1, "2^48 - 1"),
    (1 << 48, "2^48"),
    (1 << 63, "2^63"),
    (usize::MAX, "the greatest"),
];

/// The kinds of marks that nearest nodes are chosen by.
pub const MARKS: [&str; 8] = [
    "none",
    "all",
    "the start too",
    "one",
    "some",
    "out of reach",
    "as near as another",
    "past the last node",
];

/// The bytes that mark a node.
pub const VALUES: [u8; 4] = [1, 2, 128, 255];

/// The kinds of list that maps are asked with, by their numbers.
pub const LISTS: [&str; 6] = ["2N", "2N + 1", "2N - 1", "N", "fewer", "0"];
/// How many marks nearest nodes are asked with.
pub const MARKED: [&str; 5] = ["N", "N + 1", "N - 1", "fewer", "0"];
/// The kinds of scratch that both are asked with.
pub const SCRATCH: [&str; 5] = ["2S", "more", "best 2S - 1", "previous 2S - 1", "0"];

/// Towns of more segments are held to the slow implementation in some rounds
/// only.
const SLOW_SEGMENTS: usize = 120;

/// A node to leave, and what the slow implementation says of its town.
struct Start<'a, 'c> {
    comparer: &'a mut Comparer<'c>,
    subject: &'a Subject,
    slow: Option<Ways>,
    from: usize,
}

/// Maps from one node at every tolerance, cut at greatest lengths, held to
/// routes; nearest nodes held to maps.
pub fn reach(comparer: &mut Comparer<'_>, rng: &mut Rng, subject: &Subject) -> Done {
    let (from, to) = two_nodes(rng, subject);
    reach_of(comparer, rng, subject, from, to)
}

/// The same from a node; a route to another is asked for too.
pub fn reach_of(
    comparer: &mut Comparer<'_>,
    rng: &mut Rng,
    subject: &Subject,
    from: usize,
    to: usize,
) -> Done {
    let large = subject.town.segments.len() > SLOW_SEGMENTS;
    let slow = if large && rng.chance(80) {
        None
    } else {
        let size = if large { "large" } else { "small" };
        comparer.reached.count(format!("slow maps: {size} town"));
        subject.net.clone().map(Ways::over)
    };
    let mut start = Start {
        comparer,
        subject,
        slow,
        from,
    };
    let maps = start.whole(rng)?;
    let tolerance = rng.range(1, 4);
    let map = &maps[tolerance - 1];
    start.cut(rng, tolerance, map)?;
    start.routes(rng, tolerance, map, to)?;
    for kind in MARKS {
        start.nearest_of(rng, tolerance, map, kind)?;
    }
    Ok(())
}

/// The nearest where one node alone is marked: it is asked for within each
/// tolerance, and held to a map.
pub fn nearest_is(
    comparer: &mut Comparer<'_>,
    rng: &mut Rng,
    subject: &Subject,
    from: usize,
    node: usize,
) -> Done {
    let mut start = Start {
        comparer,
        subject,
        slow: None,
        from,
    };
    let mut marks = vec![0; subject.nodes()];
    marks[node] = rng.pick(&VALUES);
    for tolerance in 1..=4 {
        let map = start.map(rng, tolerance, usize::MAX)?;
        start.nearest(rng, tolerance, &map, &marks)?;
    }
    Ok(())
}

impl Start<'_, '_> {
    /// One map, held to the slow implementation's.
    fn map(
        &mut self,
        rng: &mut Rng,
        tolerance: usize,
        greatest: usize,
    ) -> Result<Vec<Entry>, Box<Mismatch>> {
        let (nodes, from) = (self.subject.nodes(), self.from);
        let list = 2 * nodes + rng.pick(&[0, 0, 1, 2, 3]);
        let reach = Reach {
            from,
            tolerance,
            greatest,
        };
        let question = Question::Map {
            reach,
            scratch: scratch_of(enough(rng, self.subject.runs())),
            list,
        };
        let seen = self.ask(rng, question)?;
        let map = seen.entries();
        if let Some(slow) = &mut self.slow {
            let must = slow.reach_map(from, tolerance, greatest, list);
            if must.as_ref() != Ok(&map) {
                let question = format!("{question:?}: {map:?}, must be {must:?}");
                return Err(self.complain(question, "another map than the slow implementation's"));
            }
        }
        Ok(map)
    }

    /// The nearest marked node, held to the slow implementation's and to a map
    /// of every node in reach.
    fn nearest(&mut self, rng: &mut Rng, tolerance: usize, map: &[Entry], marks: &[u8]) -> Done {
        let question = Question::Nearest {
            from: self.from,
            tolerance,
            marks,
            scratch: scratch_of(enough(rng, self.subject.runs())),
        };
        let seen = self.ask(rng, question)?;
        let near = nearest_told(&seen.told());
        let slow = self
            .slow
            .as_mut()
            .map(|slow| slow.nearest(self.from, tolerance, marks));
        let complaint = match slow {
            Some(must) if must != Ok(near) => {
                Err("another nearest node than the slow implementation's")
            }
            _ => nearest_agrees(map, marks, near),
        };
        if let Err(complaint) = complaint {
            let question = format!("{question:?}: {near:?}, the map is {map:?}");
            return Err(self.complain(question, complaint));
        }
        self.count_nearest(map, marks, near);
        Ok(())
    }

    fn ask(&mut self, rng: &mut Rng, question: Question<'_>) -> Result<Seen, Box<Mismatch>> {
        let Subject { net, bytes, .. } = self.subject;
        self.comparer.compare(rng, net.as_ref(), bytes, question)
    }

    fn complain(&self, question: String, complaint: &str) -> Box<Mismatch> {
        let bytes = &self.subject.bytes;
        self.comparer.disagreement(bytes, question, complaint)
    }

    /// The maps of every node in reach at tolerances 1 to 4, which must rise.
    fn whole(&mut self, rng: &mut Rng) -> Result<Vec<Vec<Entry>>, Box<Mismatch>> {
        let mut maps: Vec<Vec<Entry>> = Vec::new();
        for tolerance in 1..=4 {
            let (greatest, kind) = rng.pick(&HUGE);
            self.comparer.reached.count(greatest_case(kind));
            let map = self.map(rng, tolerance, greatest)?;
            if let Some(lower) = maps.last()
                && let Err(complaint) = rises(lower, &map)
            {
                let question = format!("from {}: {lower:?}, then {map:?}", self.from);
                return Err(self.complain(question, complaint));
            }
            maps.push(map);
        }
        Ok(maps)
    }

    /// Maps within the length of one of the nodes, and next to it: each must be
    /// the whole map as far as that length.
    fn cut(&mut self, rng: &mut Rng, tolerance: usize, map: &[Entry]) -> Done {
        // Rather one that is not the start.
        let others: Vec<Entry> = map.iter().filter(|entry| entry.1 > 0).copied().collect();
        let occurs = match others.len() {
            0 => 0,
            _ => rng.pick(&others).1 as usize,
        };
        let less = occurs.saturating_sub(1);
        let kinds = [
            (0, "0"),
            (occurs, "a node's"),
            (less, "one less than a node's"),
            (occurs + 1, "one more than a node's"),
            (huge(rng, less), "one less and far more"),
        ];
        for (greatest, kind) in kinds.into_iter().chain([rng.pick(&HALF)]) {
            let cut = self.map(rng, tolerance, greatest)?;
            if let Err(complaint) = is_cut(map, greatest, &cut) {
                let question = format!("from {}, {tolerance}, {greatest}: {cut:?}", self.from);
                return Err(self.complain(question, complaint));
            }
            if occurs > 0 {
                self.comparer.reached.count(greatest_case(kind));
            }
        }
        Ok(())
    }

    /// Routes to some nodes: found exactly where the map has them, as long.
    fn routes(&mut self, rng: &mut Rng, tolerance: usize, map: &[Entry], to: usize) -> Done {
        for to in [to, rng.pick(map).0, rng.below(self.subject.nodes())] {
            let question = Question::Search {
                from: self.from,
                to,
                tolerance: Some(tolerance),
                lengths: enough(rng, self.subject.runs()),
            };
            let told = self.ask(rng, question)?.told();
            let route = (told[0] == 1).then_some((to, told[2]));
            let entry = entry_of(map, to);
            if entry != route.as_ref() {
                let question = format!("{question:?}: {route:?}, the map has {entry:?}");
                return Err(self.complain(question, "map and route differ"));
            }
            let case = if route.is_some() { "in" } else { "not in" };
            self.comparer.reached.count(format!("route {case} the map"));
        }
        Ok(())
    }

    /// The nearest of nodes marked in one of the ways of [`MARKS`].
    fn nearest_of(&mut self, rng: &mut Rng, tolerance: usize, map: &[Entry], kind: &str) -> Done {
        let nodes = self.subject.nodes();
        let is_listed = |node: usize| entry_of(map, node).is_some();
        let one = match rng.below(3) {
            0 => rng.below(nodes),
            _ => rng.pick(map).0,
        };
        let tied = match kind {
            "as near as another" => tied_nodes(rng, map),
            _ => Vec::new(),
        };
        let mut marks: Vec<u8> = (0..nodes)
            .map(|node| match kind {
                "all" => true,
                "the start too" => node == self.from || rng.chance(20),
                "one" => node == one,
                "some" => rng.chance(20) && node != self.from,
                "out of reach" => !is_listed(node),
                "as near as another" => tied.contains(&node),
                _ => false,
            })
            .map(u8::from)
            .collect();
        let mut marked = 0;
        for mark in marks.iter_mut().filter(|mark| **mark != 0) {
            *mark = rng.pick(&VALUES);
            marked += 1;
        }
        if kind == "past the last node" || rng.chance(30) {
            let more = rng.range(1, 9);
            marks.extend((0..more).map(|_| rng.pick(&VALUES)));
        }
        if marked > 0 || ["none", "past the last node"].contains(&kind) {
            self.comparer.reached.count(marks_case(kind));
        }
        self.nearest(rng, tolerance, map, &marks)
    }

    /// Counts which mark was met, and what it was chosen among.
    fn count_nearest(&mut self, map: &[Entry], marks: &[u8], near: Option<Entry>) {
        let Some((node, feet)) = near else { return };
        let reached = &mut self.comparer.reached;
        reached.count(value_case(marks[node]));
        let as_near = map.iter().filter(|entry| entry.1 == feet);
        if as_near.filter(|entry| marks[entry.0] != 0).count() > 1 {
            reached.count("nearest: of several as near".into());
        }
    }
}

/// The scratch's part of what is lent to a search.
fn scratch_of(lengths: Lengths) -> [usize; 2] {
    [lengths.best, lengths.previous]
}

/// The entry of a node in a map, which has them in rising order.
fn entry_of(map: &[Entry], node: usize) -> Option<&Entry> {
    let place = map.binary_search_by_key(&node, |entry| entry.0);
    place.ok().map(|place| &map[place])
}

/// Nodes of a map that are as far as one of the others.
fn tied_nodes(rng: &mut Rng, map: &[Entry]) -> Vec<usize> {
    let mut lengths: Vec<u32> = map.iter().map(|entry| entry.1).collect();
    lengths.sort_unstable();
    let equal = lengths.windows(2).filter(|pair| pair[0] == pair[1]);
    let tied: Vec<u32> = equal.map(|pair| pair[0]).collect();
    if tied.is_empty() {
        return Vec::new();
    }
    let feet = rng.pick(&tied);
    let as_far = map.iter().filter(|entry| entry.1 == feet);
    as_far.map(|entry| entry.0).collect()
}

pub fn greatest_case(kind: &str) -> String {
    format!("greatest length: {kind}")
}

pub fn marks_case(kind: &str) -> String {
    format!("marks: {kind}")
}

pub fn value_case(value: u8) -> String {
    format!("nearest by a mark of {value}")
}

/// The node that Nearest told.
fn nearest_told(told: &Told) -> Option<Entry> {
    (told[0] == 1).then_some((told[1] as usize, told[2]))
}

/// Of maps of every node in reach, at one tolerance and at the next.
fn rises(lower: &[Entry], higher: &[Entry]) -> Result<(), &'static str> {
    for (node, feet) in lower {
        match entry_of(higher, *node) {
            None => return Err("a higher tolerance loses a node"),
            Some((_, other)) if other > feet => return Err("a higher tolerance is longer"),
            _ => {}
        }
    }
    Ok(())
}

/// Of a map of every node in reach, and one within a greatest length.
fn is_cut(map: &[Entry], greatest: usize, cut: &[Entry]) -> Result<(), &'static str> {
    let within = map.iter().filter(|entry| entry.1 as usize <= greatest);
    if within.eq(cut) {
        Ok(())
    } else {
        Err("not the whole map as far as the greatest length")
    }
}

/// Of a map of every node in reach, and the nearest of some.
fn nearest_agrees(map: &[Entry], marks: &[u8], near: Option<Entry>) -> Result<(), &'static str> {
    let marked = map.iter().filter(|entry| marks[entry.0] != 0);
    let first = marked.min_by_key(|(node, feet)| (*feet, *node));
    match (first, near) {
        (None, Some(_)) => Err("a nearest node though the map has no marked one"),
        (Some(_), None) => Err("none though the map has a marked node"),
        (first, near) if first != near.as_ref() => Err("not the map's nearest marked node"),
        _ => Ok(()),
    }
}

/// Which of two numbers comes first where a tie is met.
pub const TIES: [&str; 4] = [
    "the lower run leads to the higher node",
    "the lower run leads to the lower node",
    "the lower leg leads to the higher node",
    "the lower leg leads to the lower node",
];

/// Streets of one length from one node to all others: the nearest is the marked
/// one with the lowest number, by whichever run and leg it is met.
pub fn ties(comparer: &mut Comparer<'_>, rng: &mut Rng) -> Done {
    let nodes = rng.range(3, 9);
    let from = rng.below(nodes);
    let mut others: Vec<usize> = (0..nodes).filter(|&node| node != from).collect();
    let mut legs = [0, 1, 2, 3, 4, 5, 6, 7];
    rng.shuffle(&mut others);
    rng.shuffle(&mut legs);
    let edition = rng.pick(&EDITIONS);
    let feet = rng.range(1, most_feet(edition) as usize) as u32;
    let mut town = Town::new(nodes as u16).edition(edition);
    for (&node, leg) in others.iter().zip(legs) {
        let ends = [from, node].map(|node| end(node as u16, leg));
        let [a, b] = rng.pick(&[ends, [ends[1], ends[0]]]);
        town.segments.push(Segment::path(a, b, feet));
    }
    let (one, two) = (rng.below(others.len()), rng.below(others.len()));
    let mut marks = vec![0; nodes];
    for place in [one, two] {
        marks[others[place]] = rng.pick(&VALUES);
    }
    if one != two {
        let lower = others[one] < others[two];
        let order = |numbers: (usize, usize)| (numbers.0 < numbers.1) == lower;
        let legs = (usize::from(legs[one]), usize::from(legs[two]));
        for (lower, place) in [(order((one, two)), 0), (order(legs), 2)] {
            let tie = TIES[place + usize::from(lower)];
            comparer.reached.count(format!("tie: {tie}"));
        }
    }
    comparer.about = "streets of one length from one node".into();
    let subject = Subject::new(town);
    let mut start = Start {
        comparer,
        subject: &subject,
        slow: subject.net.clone().map(Ways::over),
        from,
    };
    let tolerance = rng.range(1, 4);
    let map = start.map(rng, tolerance, feet as usize)?;
    start.nearest(rng, tolerance, &map, &marks)
}

/// The numbers of a list, by the names of [`LISTS`], or the number of marks, by
/// those of [`MARKED`], where an entry has so many numbers.
fn entries(rng: &mut Rng, nodes: usize, size: usize, kind: &str) -> usize {
    let all = size * nodes;
    match kind {
        "2N + 1" | "N + 1" => all + 1,
        "2N - 1" | "N - 1" => all - 1,
        "N" => nodes,
        "fewer" => rng.below(all),
        "0" => 0,
        _ => all,
    }
}

/// Scratch by the names of [`SCRATCH`].
fn scratch(rng: &mut Rng, runs: usize, kind: &str) -> [usize; 2] {
    let short = runs.saturating_sub(1);
    match kind {
        "more" => [runs + rng.range(1, 3), runs + rng.range(1, 3)],
        "best 2S - 1" => [short, runs],
        "previous 2S - 1" => [runs, short],
        "0" => [0, 0],
        _ => [runs, runs],
    }
}

/// Every kind of list, of marks and of scratch, with good and bad nodes and
/// tolerances: which refusal comes first.
pub fn odd(comparer: &mut Comparer<'_>, rng: &mut Rng, subject: &Subject) -> Done {
    let scratches = |rng: &mut Rng| match rng.chance(40) {
        true => rng.pick(&SCRATCH),
        false => "2S",
    };
    for list in LISTS {
        let scratch = scratches(rng);
        odd_map(comparer, rng, subject, list, scratch)?;
    }
    for marks in MARKED {
        let scratch = scratches(rng);
        odd_nearest(comparer, rng, subject, marks, scratch)?;
    }
    for scratch in SCRATCH {
        odd_map(comparer, rng, subject, "2N", scratch)?;
        odd_nearest(comparer, rng, subject, "N", scratch)?;
    }
    Ok(())
}

/// One kind of each, for bytes that are no network or a large one.
pub fn some_odd(comparer: &mut Comparer<'_>, rng: &mut Rng, subject: &Subject) -> Done {
    let (list, marks) = (rng.pick(&LISTS), rng.pick(&MARKED));
    let scratch = rng.pick(&SCRATCH);
    odd_map(comparer, rng, subject, list, scratch)?;
    odd_nearest(comparer, rng, subject, marks, scratch)
}

fn odd_map(
    comparer: &mut Comparer<'_>,
    rng: &mut Rng,
    subject: &Subject,
    list_kind: &str,
    scratch_kind: &str,
) -> Done {
    let node = two_nodes(rng, subject).0;
    let reach = Reach {
        from: odd_node(rng, subject, node),
        tolerance: odd_tolerance(rng),
        greatest: rng.pick(&[0, 1_000, 10_000, (1 << 32) - 1, usize::MAX]),
    };
    let list = entries(rng, subject.nodes(), 2, list_kind);
    let question = Question::Map {
        reach,
        scratch: scratch(rng, subject.runs(), scratch_kind),
        list,
    };
    let (net, bytes) = (subject.net.as_ref(), &subject.bytes);
    let number = comparer.compare(rng, net, bytes, question)?.number;
    let reached = &mut comparer.reached;
    reached.count(format!("list: {list_kind}"));
    reached.count(format!("map scratch: {scratch_kind}"));
    if list < 2 * subject.nodes() {
        reached.count(few_case("map", number));
    }
    Ok(())
}

fn odd_nearest(
    comparer: &mut Comparer<'_>,
    rng: &mut Rng,
    subject: &Subject,
    marks_kind: &str,
    scratch_kind: &str,
) -> Done {
    let node = two_nodes(rng, subject).0;
    let length = entries(rng, subject.nodes(), 1, marks_kind);
    let percent = rng.pick(&[0, 10, 100]);
    let marks: Vec<u8> = (0..length)
        .map(|_| u8::from(rng.chance(percent)) * rng.pick(&VALUES))
        .collect();
    let question = Question::Nearest {
        from: odd_node(rng, subject, node),
        tolerance: odd_tolerance(rng),
        marks: &marks,
        scratch: scratch(rng, subject.runs(), scratch_kind),
    };
    let (net, bytes) = (subject.net.as_ref(), &subject.bytes);
    let number = comparer.compare(rng, net, bytes, question)?.number;
    let reached = &mut comparer.reached;
    reached.count(format!("marks lent: {marks_kind}"));
    reached.count(format!("nearest scratch: {scratch_kind}"));
    if length < subject.nodes() {
        reached.count(few_case("nearest", number));
    }
    Ok(())
}

/// A refusal of a call whose list or marks had too few entries: it need not be
/// 15.
pub fn few_case(call: &str, number: u32) -> String {
    format!("{call} with too few entries refused {number}")
}

#[cfg(test)]
mod tests {
    use super::{is_cut, nearest_agrees, rises};

    const MAP: [(usize, u32); 4] = [(0, 300), (2, 0), (3, 500), (5, 300)];

    #[test]
    fn maps_rise() {
        let shorter = [(0, 300), (1, 900), (2, 0), (3, 499), (5, 300)];
        assert_eq!(rises(&MAP, &MAP), Ok(()));
        assert_eq!(rises(&MAP, &shorter), Ok(()));
        assert!(rises(&shorter, &MAP).is_err(), "node 1 is lost");
        assert!(rises(&MAP, &MAP[..3]).is_err(), "node 5 is lost");
        let longer = [(0, 300), (2, 0), (3, 501), (5, 300)];
        assert!(rises(&MAP, &longer).is_err(), "node 3 is farther");
    }

    #[test]
    fn maps_are_cut_at_the_greatest_length() {
        let near = [(0, 300), (2, 0), (5, 300)];
        for (greatest, cut) in [
            (usize::MAX, &MAP[..]),
            (500, &MAP),
            (499, &near),
            (300, &near),
            (299, &MAP[1..2]),
            (0, &MAP[1..2]),
        ] {
            assert_eq!(is_cut(&MAP, greatest, cut), Ok(()));
            assert!(is_cut(&MAP, greatest, &[]).is_err());
        }
        assert!(is_cut(&MAP, 500, &near).is_err(), "500 is within 500");
        assert!(is_cut(&MAP, 499, &MAP).is_err(), "500 is not within 499");
        assert!(is_cut(&MAP, 300, &[(0, 301), (2, 0), (5, 300)]).is_err());
    }

    #[test]
    fn nearest_is_the_maps() {
        let agrees = |marks: [u8; 6], near| nearest_agrees(&MAP, &marks, near);
        assert_eq!(agrees([1, 1, 0, 1, 0, 1], Some((0, 300))), Ok(()));
        assert_eq!(agrees([0, 1, 0, 1, 0, 2], Some((5, 300))), Ok(()));
        assert_eq!(agrees([0, 1, 0, 0, 1, 0], None), Ok(()));
        assert_eq!(agrees([255; 6], Some((2, 0))), Ok(()));
        assert!(agrees([1, 1, 0, 1, 0, 1], Some((5, 300))).is_err(), "tie");
        assert!(agrees([0, 0, 0, 1, 0, 1], Some((3, 500))).is_err());
        assert!(agrees([0, 0, 0, 1, 0, 0], Some((3, 499))).is_err());
        assert!(agrees([0, 0, 0, 1, 0, 0], None).is_err());
        assert!(agrees([0, 1, 0, 0, 0, 0], Some((1, 300))).is_err());
    }
}
