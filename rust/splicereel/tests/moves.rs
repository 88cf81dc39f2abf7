//! The moves to another edition, in both forms: what they write, what they
//! refuse and in which order, and that no answer changes.

use splicereel::{Level, Network, Refusal, Route, Run, move_back, move_up};
use towns::Town;
use towns::draw::{Rng, Shape, damage_kept, town_of};
use towns::edition::EDITIONS;
use towns::lend::Guarded;
use towns::town::{COUNTY, NEWER, OLDER, Segment, end, longest_chain, westerby};

/// One way of moving, in both forms.
#[derive(Clone, Copy)]
struct Move {
    lending: fn(&[u8], &mut [u8]) -> Result<usize, Refusal>,
    owned: fn(&Network) -> Result<Network, Refusal>,
}

const UP: Move = Move {
    lending: move_up,
    owned: Network::to_county,
};
const BACK: Move = Move {
    lending: move_back,
    owned: Network::to_town,
};

impl Move {
    /// Holds both forms to what they must write, whatever room there is, or to
    /// their refusal.
    fn hold(self, net: &[u8], due: Result<&[u8], Refusal>) {
        let enough = due.map_or(0, <[u8]>::len);
        for room in [enough, enough + 1, enough + 100] {
            self.hold_lending(net, room, due);
        }
        let short = [0, 6, 7, enough / 2, enough.saturating_sub(1)];
        for room in short.into_iter().filter(|room| *room < enough) {
            self.hold_lending(net, room, Err(Refusal::TooShortForMove));
        }
        let network = Network::from_bytes(net.to_vec());
        let moved = network.and_then(|network| (self.owned)(&network));
        let told = moved.as_ref().map(Network::as_bytes);
        assert_eq!(told, due.as_ref().copied());
    }

    /// Moves between guards, into an output of so many bytes of garbage.
    fn hold_lending(self, net: &[u8], room: usize, due: Result<&[u8], Refusal>) {
        let rng = &mut Rng::new(room as u64);
        let (mut net, mut output) = (Guarded::holding(rng, net), Guarded::garbage(rng, room));
        let told = (self.lending)(net.lend(), output.lend());
        assert_eq!(told, due.map(<[u8]>::len));
        let written = due.unwrap_or(&[]);
        assert_eq!(&output.now()[..written.len()], written);
        assert!(net.untouched() && output.untouched_but(0, written.len()));
    }
}

/// Holds the moves of a town of edition 02 up, and back.
fn hold_both_ways(town: &Town) {
    let (town, county) = (town.bytes(), town.clone().edition(COUNTY).bytes());
    UP.hold(&town, Ok(&county));
    BACK.hold(&county, Ok(&town));
}

/// Rings of the longest paths of edition 02, with so many nodes and segments, at
/// most four for each node.
fn counted(nodes: u16, segments: u16) -> Town {
    let path = |number: u16| {
        let (node, ring) = (number % nodes, (number / nodes) as u8);
        let next = (node + 1) % nodes;
        Segment::path(end(node, ring), end(next, ring + 4), 52_800)
    };
    let mut town = Town::new(nodes).edition(NEWER);
    town.segments.extend((0..segments).map(path));
    town
}

#[test]
fn towns_move_up_and_back() {
    let mut rng = Rng::new(7);
    for (seed, shape) in (0..10).flat_map(|seed| Shape::ALL.map(|shape| (seed, shape))) {
        let size = rng.range(0, 60);
        hold_both_ways(&town_of(NEWER, shape, seed, size));
    }
}

#[test]
fn the_smallest_and_the_largest() {
    for nodes in [1, 2, 1_000] {
        hold_both_ways(&Town::new(nodes).edition(NEWER));
    }
    hold_both_ways(&longest_chain(NEWER));
    let largest = counted(1_000, 1_000);
    assert_eq!(largest.bytes().len(), 30_007);
    hold_both_ways(&largest);
}

/// Whether a county moves back.
fn is_within(county: &Town) -> bool {
    let counts = [usize::from(county.nodes), county.segments.len()];
    let longest = county.segments.iter().map(|segment| segment.length).max();
    counts.into_iter().all(|count| count <= 1_000) && longest.is_none_or(|feet| feet <= 52_800)
}

/// Counties as they are drawn: some are within the limits of edition 02.
#[test]
fn counties_move_back_where_they_are_within_the_limits() {
    let (mut rng, mut met) = (Rng::new(8), [0; 2]);
    for (seed, shape) in (0..8).flat_map(|seed| Shape::ALL.map(|shape| (seed, shape))) {
        let size = rng.pick(&[0, 1, 3, 12, 60, 1_000, 1_001, 2_000]);
        let county = town_of(COUNTY, shape, seed, size);
        let town = county.clone().edition(NEWER).bytes();
        let within = is_within(&county);
        let due = within.then_some(&town[..]).ok_or(Refusal::AboveLimits);
        BACK.hold(&county.bytes(), due);
        met[usize::from(within)] += 1;
    }
    assert!(met.into_iter().all(|count| count > 20), "{met:?}");
}

/// One node, one segment or one foot above the limits, and as many as there may
/// be.
#[test]
fn each_limit_is_met() {
    let county = |nodes, segments| counted(nodes, segments).edition(COUNTY);
    for (nodes, segments) in [(1_001, 0), (1_001, 5), (300, 1_001), (1_000, 1_001)] {
        let above = county(nodes, segments).bytes();
        BACK.hold(&above, Err(Refusal::AboveLimits));
    }
    for feet in [1, 255, 256, 52_799, 52_800, 52_801, 65_535, 65_536, 264_000] {
        for place in [0, 1, 5, 8] {
            let mut town = county(9, 9);
            town.segments[place].length = feet;
            match feet {
                ..=52_800 => hold_both_ways(&town.edition(NEWER)),
                _ => BACK.hold(&town.bytes(), Err(Refusal::AboveLimits)),
            }
        }
    }
}

#[test]
fn other_editions_have_no_move() {
    let none = Err(Refusal::NoSuchMove);
    for town in [Town::new(1), westerby(), counted(3, 3)] {
        let of = |edition| town.clone().edition(edition).bytes();
        UP.hold(&of(OLDER), none);
        BACK.hold(&of(OLDER), none);
        UP.hold(&of(COUNTY), none);
        BACK.hold(&of(NEWER), none);
    }
    // Above the limits too.
    UP.hold(&counted(1_001, 5).edition(COUNTY).bytes(), none);
}

/// Bytes that are no network: of an edition that has the move or not, within the
/// limits or not.
#[test]
fn bytes_that_are_no_network_come_first() {
    let mut rng = Rng::new(9);
    let none = Err(Refusal::NotANetwork);
    UP.hold(&[], none);
    BACK.hold(&[], none);
    let large = counted(1_001, 5).edition(COUNTY);
    let kinds = Shape::ALL.map(|shape| EDITIONS.map(|edition| town_of(edition, shape, 3, 9)));
    for town in kinds.as_flattened() {
        for town in [town, &large] {
            let bytes = damage_kept(&mut rng, town);
            UP.hold(&bytes, none);
            BACK.hold(&bytes, none);
        }
    }
}

/// Two networks have the same answers to every question; how many pairs of nodes
/// have a route at each tolerance, and how many have not.
fn hold_answers(one: &Network, other: &Network) -> [usize; 2] {
    let both = [one, other];
    for segment in 0..one.segments() {
        let [judged, again] = both.map(|network| network.judge_segment(segment));
        assert_eq!(judged, again);
    }
    let runs = 0..2 * one.segments() as u16;
    for (first, second) in runs.clone().flat_map(|p| runs.clone().map(move |q| (p, q))) {
        let (first, second) = (Run::from(first), Run::from(second));
        let [judged, again] = both.map(|network| network.judge_movement(first, second));
        assert_eq!(judged, again);
    }
    let (nodes, mut met) = (0..one.nodes(), [0; 2]);
    for (from, to) in nodes
        .clone()
        .flat_map(|a| nodes.clone().map(move |b| (a, b)))
    {
        let found = hold_routes(both, from, to);
        met = [met[0] + found, met[1] + Level::ALL.len() - found];
        let [least, again] = both.map(|network| network.least_stress(from, to).expect("one"));
        let told = |least: &Option<(Route, Level)>| {
            let least = least.as_ref();
            least.map(|(route, tolerance)| (route.feet(), *tolerance))
        };
        assert_eq!(told(&least), told(&again));
    }
    met
}

/// At each tolerance both have a route, as long, or none; each one's can be
/// ridden in the other. The number of tolerances that have one.
fn hold_routes([one, other]: [&Network; 2], from: usize, to: usize) -> usize {
    let mut found = 0;
    for tolerance in Level::ALL {
        let route = |network: &Network| network.route(from, to, tolerance).expect("an answer");
        match (route(one), route(other)) {
            (Some(route), Some(again)) => {
                assert_eq!(route.feet(), again.feet());
                ride(other, &route);
                ride(one, &again);
                found += 1;
            }
            (None, None) => {}
            differ => panic!("{differ:?}"),
        }
    }
    found
}

/// A route is one of this network too, at its level.
fn ride(network: &Network, route: &Route) {
    let runs = route.runs();
    let level = |run: &Run| {
        let closed = network.judge_movement(*run, *run) == Err(Refusal::NoSuchRun);
        assert!(!closed, "{run}");
        network.judge_segment(run.segment()).expect("one").level
    };
    let turned = |pair: &[Run]| network.judge_movement(pair[0], pair[1]);
    let turned = runs
        .windows(2)
        .map(|pair| turned(pair).expect("a movement"));
    let level = runs.iter().map(level).chain(turned).max();
    assert_eq!(level.unwrap_or(Level::One), route.level());
}

#[test]
fn answers_stay() {
    let coldwell = include_bytes!("../../../towns/coldwell.txt");
    let coldwell = Network::read(coldwell).expect("Coldwell");
    let drawn = Shape::ALL.map(|shape| town_of(NEWER, shape, 21, 12));
    let drawn = drawn.into_iter().filter(|town| town.nodes <= 30);
    let towns = [westerby()].into_iter().chain(drawn);
    let networks = towns.map(|town| Network::from_bytes(town.bytes()).expect("a network"));
    let mut met = [0; 2];
    for network in networks.chain([coldwell]) {
        let moved = network.to_county().expect("a move");
        let [found, none] = hold_answers(&network, &moved);
        met = [met[0] + found, met[1] + none];
    }
    assert!(met.into_iter().all(|count| count > 500), "{met:?}");
}
