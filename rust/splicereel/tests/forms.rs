//! The lending and the owned form of each call: refusals by name, and both
//! forms alike on random towns.

use splicereel::{
    Direction, Entry, Found, Lent, Level, MAX_NETWORK, Network, ReadRefusal, Refusal, RefusedLine,
    Run, Scratch, TOWN_LIST, TOWN_NODES, TOWN_RUNS, TOWN_SEGMENTS, judge_movement, judge_segment,
    least_stress, move_back, move_up, nearest, reach_map, read, refused_line, route,
};
use std::collections::HashSet;
use std::error::Error;
use towns::draw::{self, Rng, Shape, Spot, damage};
use towns::edition::EDITIONS;
use towns::lend::{Guarded, Lengths, Lent as Room};
use towns::town::{NEWER, Town, block_town};

/// Block town, its middle loop open one way only.
fn one_way_loop() -> Network {
    let mut town = block_town();
    town.segments[1].ways = 1;
    Network::read(&town.text()).expect("a network")
}

fn lent(room: &mut Room) -> Lent<'_> {
    Lent {
        best: room.best.lend(),
        previous: room.previous.lend(),
        buffer: room.buffer.lend(),
        place: room.place,
    }
}

/// What a reach map or the nearest node borrows of it.
fn scratch(room: &mut Room) -> Scratch<'_> {
    Scratch {
        best: room.best.lend(),
        previous: room.previous.lend(),
    }
}

/// The same for the twin, the place at the start.
fn slices(room: &mut Room) -> (&mut [u32], &mut [u32], &mut [u16]) {
    (room.best.lend(), room.previous.lend(), room.buffer.lend())
}

#[test]
fn each_refusal_of_read_has_its_name() {
    let mut rng = Rng::new(1);
    let town = draw::town(Shape::Grid, 3, 12);
    let names = [
        Refusal::NotDigits,
        Refusal::WrongCheck,
        Refusal::WrongFrame,
        Refusal::WrongField,
        Refusal::WrongCount,
        Refusal::LegTaken,
        Refusal::OutputTooShort,
    ];
    for (number, refusal) in (1..).zip(names) {
        for spot in Spot::ALL {
            let damaged = damage(&mut rng, &town, number, spot).expect("damage");
            let line = u32::try_from(damaged.refusal.1).expect("a line");
            let mut output = vec![9; damaged.output];
            let refused = Err(ReadRefusal { refusal, line });
            assert_eq!(
                read(&damaged.text, &mut output),
                refused,
                "{}",
                damaged.what
            );
            assert!(output.iter().all(|&byte| byte == 9));
            let told = refused_line(&damaged.text, damaged.output);
            let mut lines = damaged.text.split(|&byte| byte == b'\n');
            let part = lines.nth(damaged.refusal.1 - 1).expect("a line");
            assert_eq!(told, RefusedLine { refusal, part }, "{}", damaged.what);
            assert_eq!(told.part.as_ptr(), part.as_ptr(), "{}", damaged.what);
            if number != 7 {
                assert_eq!(Network::read(&damaged.text).map(|_| 0), refused);
                assert_eq!(Network::refused_line(&damaged.text), Some(told));
            }
        }
    }
}

/// Holds the refused line of a text, for an output of so many bytes, to a
/// refusal, a place and a number of bytes; by the addresses, also where the
/// part is empty.
fn hold_line(text: &[u8], room: usize, refusal: Refusal, start: usize, length: usize) {
    let told = refused_line(text, room);
    let place = told.part.as_ptr() as usize - text.as_ptr() as usize;
    let words = String::from_utf8_lossy(text);
    assert_eq!(told.refusal, refusal, "{words:?}");
    assert_eq!((place, told.part.len()), (start, length), "{words:?}");
    assert_eq!(told.part, &text[start..start + length]);
    if room >= MAX_NETWORK {
        let owned = Network::refused_line(text);
        let refused = Network::read(text).is_err();
        assert_eq!(owned, refused.then_some(told), "{words:?}");
        let same = |owned: RefusedLine<'_>| owned.part.as_ptr() == told.part.as_ptr();
        assert!(owned.is_none_or(same), "{words:?}");
    }
}

#[test]
fn refused_lines_lie_in_the_text() {
    use Refusal::{NoRefusedLine, NotDigits, OutputTooShort, WrongCount, WrongFrame};
    let head = Town::new(1).text();
    let block = block_town().text();
    let and = |more: &[u8]| [&head[..], more].concat();
    let all = MAX_NETWORK;
    hold_line(b"", all, WrongFrame, 0, 0);
    hold_line(b"", 0, WrongFrame, 0, 0);
    hold_line(b"\n", all, NotDigits, 0, 0);
    hold_line(b"\n\n", all, NotDigits, 0, 0);
    hold_line(b"0", all, NotDigits, 0, 1);
    // S 0.
    hold_line(&head, all, NoRefusedLine, 15, 0);
    hold_line(&head, 7, NoRefusedLine, 15, 0);
    hold_line(&head, 6, OutputTooShort, 0, 14);
    hold_line(&head[..14], all, NotDigits, 0, 14);
    hold_line(&and(b"\n"), all, NotDigits, 15, 0);
    hold_line(&and(b"\n"), 6, OutputTooShort, 0, 14);
    hold_line(&and(b"00"), all, NotDigits, 15, 2);
    hold_line(&and(&block[15..]), all, WrongCount, 15, 60);
    // Carriage returns.
    hold_line(&and(b"00\r\n00"), all, NotDigits, 15, 3);
    hold_line(b"010100010000FD\r\n", all, NotDigits, 0, 15);
    // Three lines after the head; too few, cut, and parted by an empty one.
    hold_line(&block, 96, OutputTooShort, 0, 14);
    for room in [97, all, 1 << 32, usize::MAX] {
        hold_line(&block, room, NoRefusedLine, 198, 0);
        hold_line(&block[..15], room, WrongCount, 15, 0);
        hold_line(&block[..137], room, WrongCount, 137, 0);
        hold_line(&block[..197], room, NotDigits, 137, 60);
        let parted = [&block[..76], b"\n", &block[76..]].concat();
        hold_line(&parted, room, NotDigits, 76, 0);
    }
}

#[test]
fn each_refusal_of_the_judges_has_its_name() {
    let network = one_way_loop();
    let net = network.as_bytes();
    assert_eq!(judge_segment(&net[1..], 0), Err(Refusal::NotANetwork));
    assert_eq!(judge_segment(net, 3), Err(Refusal::NoSuchRun));
    assert_eq!(network.judge_segment(usize::MAX), Err(Refusal::NoSuchRun));
    assert_eq!(judge_movement(&[], 0, 0), Err(Refusal::NotANetwork));
    assert_eq!(judge_movement(net, 0, 3), Err(Refusal::NoSuchRun), "closed");
    assert_eq!(judge_movement(net, 0, usize::MAX), Err(Refusal::NoSuchRun));
    let (there, back) = (Run::from(0), Run::from(1));
    let answer = network.judge_movement(there, back);
    assert_eq!(answer, Err(Refusal::NoMovement));
}

#[test]
fn each_refusal_of_the_searches_has_its_name() {
    let network = one_way_loop();
    let net = network.as_bytes();
    let short = Lengths {
        previous: 5,
        ..Lengths::exact(6)
    };
    let far = Lengths {
        place: usize::MAX,
        ..Lengths::exact(6)
    };
    for (bytes, from, tolerance, lengths, refusal) in [
        (&net[..36], 9, 9, short, Refusal::NotANetwork),
        (net, 3, 9, short, Refusal::NoSuchNode),
        (net, usize::MAX, 9, far, Refusal::NoSuchNode),
        (net, 0, 0, short, Refusal::NoSuchTolerance),
        (net, 0, usize::MAX, far, Refusal::NoSuchTolerance),
        (net, 0, 4, short, Refusal::NoRoom),
        (net, 0, 1, far, Refusal::NoRoom),
    ] {
        let mut room = Room::garbage(&mut Rng::new(1), lengths);
        let answer = route(bytes, from, 2, tolerance, lent(&mut room));
        assert_eq!(answer, Err(refusal));
        let least = match refusal {
            Refusal::NoSuchTolerance => Refusal::NoRoom,
            other => other,
        };
        let answer = least_stress(bytes, from, 2, lent(&mut room));
        assert_eq!(answer, Err(least));
        assert!(room.untouched());
    }
    assert_eq!(network.route(0, 3, Level::One), Err(Refusal::NoSuchNode));
    assert_eq!("5".parse::<Level>(), Err(Refusal::NoSuchTolerance));
    assert_eq!(network.least_stress(3, 0), Err(Refusal::NoSuchNode));
}

#[test]
fn each_refusal_of_the_reach_has_its_name() {
    let network = one_way_loop();
    let net = network.as_bytes();
    let exact = Lengths::exact(6);
    let short = Lengths {
        previous: 5,
        ..exact
    };
    // The entries that list and marks have room for.
    for (bytes, from, tolerance, lengths, entries, refusal) in [
        (&net[..36], 9, 9, short, 0, Refusal::NotANetwork),
        (net, 3, 9, short, 0, Refusal::NoSuchNode),
        (net, usize::MAX, 0, short, 2, Refusal::NoSuchNode),
        (net, 0, 0, short, 0, Refusal::NoSuchTolerance),
        (net, 0, usize::MAX, exact, 3, Refusal::NoSuchTolerance),
        (net, 0, 4, short, 0, Refusal::NoRoom),
        (net, 0, 4, exact, 0, Refusal::TooFewEntries),
        (net, 0, 4, exact, 2, Refusal::TooFewEntries),
    ] {
        let mut rng = Rng::new(1);
        let mut room = Room::garbage(&mut rng, lengths);
        // One number more is no entry.
        let mut list = Guarded::garbage(&mut rng, 2 * entries + 1);
        let marks = vec![1; entries];
        let told = scratch(&mut room);
        let answer = reach_map(bytes, from, tolerance, usize::MAX, told, list.lend());
        assert_eq!(answer.map(|entries| entries.len()), Err(refusal));
        let answer = nearest(bytes, from, tolerance, &marks, scratch(&mut room));
        assert_eq!(answer, Err(refusal));
        assert!(room.untouched() && list.untouched());
    }
    for from in [3, usize::MAX] {
        let none = Err(Refusal::NoSuchNode);
        assert_eq!(network.reach_map(from, Level::One, 0).map(|_| ()), none);
        assert_eq!(network.nearest(from, Level::One, []).map(|_| ()), none);
        assert_eq!(network.nearest(0, Level::One, [0, from]).map(|_| ()), none);
    }
}

#[test]
fn refusals_have_numbers_and_words() {
    let mut words = HashSet::new();
    for number in 1..=18 {
        let refusal = Refusal::from_number(number);
        assert_eq!(refusal.number(), number);
        assert_ne!(refusal, Refusal::Unknown(number));
        assert!(words.insert(refusal.to_string()), "{refusal} comes twice");
    }
    for number in [0, 19, u32::MAX] {
        assert_eq!(Refusal::from_number(number), Refusal::Unknown(number));
        assert_eq!(Refusal::Unknown(number).number(), number);
    }
    let refused = Network::read(b"").expect_err("an empty text");
    assert_eq!(
        refused.to_string(),
        "line 1: the kind or the length of a frame is wrong for its position"
    );
    assert!(refused.source().is_none(), "its words would come twice");
}

/// A call about a town takes less than 64 KiB of stack, as the header says; the
/// thread's own needs get 16 more. Counties are in counties.rs.
#[test]
fn calls_fit_a_small_stack() {
    let town = draw::town(Shape::Grid, 11, TOWN_SEGMENTS);
    let (text, net, last) = (town.text(), town.bytes(), usize::from(town.nodes) - 1);
    let newer = town.edition(NEWER).bytes();
    let calls = move || {
        let mut output = vec![0; MAX_NETWORK];
        let mut room = Room::exact(TOWN_RUNS);
        let read = read(&text, &mut output).is_ok()
            && refused_line(&text, MAX_NETWORK).refusal == Refusal::NoRefusedLine;
        let judged =
            judge_segment(&net, TOWN_SEGMENTS - 1).is_ok() && judge_movement(&net, 0, 0).is_err();
        let routed = route(&net, 0, last, 4, lent(&mut room)).is_ok();
        let least = least_stress(&net, 0, last, lent(&mut room)).is_ok();
        let (mut list, marks) = (vec![0; TOWN_LIST], vec![0; TOWN_NODES]);
        let mapped = reach_map(&net, 0, 4, usize::MAX, scratch(&mut room), &mut list).is_ok();
        let near = nearest(&net, 0, 4, &marks, scratch(&mut room)) == Ok(None);
        let mut back = vec![0; newer.len()];
        let up = move_up(&newer, &mut output).unwrap_or(0);
        let moved = move_back(&output[..up], &mut back).is_ok() && back == newer;
        read && judged && routed && least && mapped && near && moved
    };
    let small = std::thread::Builder::new().stack_size(80 * 1024);
    let thread = small.spawn(calls).expect("a thread");
    assert!(thread.join().expect("no panic"));
}

/// Both forms, on towns of every shape and edition: the same bytes, levels, routes and
/// reach, as long as the twin's.
#[test]
fn forms_are_alike() {
    let mut rng = Rng::new(5);
    let (mut ridden, mut reached) = (0, 0);
    for seed in 0..260 {
        let shape = Shape::ALL[seed as usize % Shape::ALL.len()];
        let edition = EDITIONS[seed as usize / Shape::ALL.len() % EDITIONS.len()];
        let size = rng.range(0, 60);
        let town = draw::town_of(edition, shape, seed, size);
        let network = Network::read(&town.text()).expect("a network");
        let mut output = vec![0; MAX_NETWORK];
        let written = read(&town.text(), &mut output).expect("a network");
        assert_eq!(&output[..written], network.as_bytes());
        assert_eq!(Network::refused_line(&town.text()), None);
        assert_eq!(network.edition(), edition);
        assert_eq!(network.nodes(), usize::from(town.nodes));
        assert_eq!(network.segments(), town.segments.len());
        assert_eq!(Network::from_bytes(town.bytes()).as_ref(), Ok(&network));
        for segment in 0..network.segments() {
            let (level, measure) = twin::judge_segment(network.as_bytes(), segment).expect("one");
            let judged = network.judge_segment(segment).expect("one");
            assert_eq!(judged.level.number(), usize::from(level));
            assert_eq!(judged.measure.number(), usize::from(measure));
        }
        for _ in 0..6 {
            let (from, to) = (rng.below(network.nodes()), rng.below(network.nodes()));
            ridden += ways(&network, from, to);
        }
        let from = rng.below(network.nodes());
        reached += reach(&mut rng, &network, from);
    }
    assert!(ridden > 500, "{ridden} routes that are not empty");
    assert!(reached > 5_000, "{reached} nodes in reach");
}

/// Every tolerance and the least, in both forms; the number of routes that are
/// not empty.
fn ways(network: &Network, from: usize, to: usize) -> usize {
    let (net, runs) = (network.as_bytes(), 2 * network.segments());
    let mut ridden = 0;
    for tolerance in Level::ALL {
        let mut room = Room::exact(runs);
        let found = route(net, from, to, tolerance.number(), lent(&mut room)).expect("an answer");
        let owned = network.route(from, to, tolerance).expect("an answer");
        ridden += same(&room, found, owned.as_ref());
        let mut room = Room::exact(runs);
        let (best, previous, buffer) = slices(&mut room);
        let twins = twin::route(net, from, to, tolerance as u8, best, previous, buffer, 0);
        let twins = twins.expect("an answer").map(|found| found.length);
        assert_eq!(found.map(|found| found.feet), twins);
    }
    let mut room = Room::exact(runs);
    let found = least_stress(net, from, to, lent(&mut room)).expect("an answer");
    let owned = network.least_stress(from, to).expect("an answer");
    let level = |tolerance: u8| Level::from_number(tolerance.into());
    let mut spare = Room::exact(runs);
    let (best, previous, buffer) = slices(&mut spare);
    let twins = twin::least_stress(net, from, to, best, previous, buffer, 0);
    let twins = twins
        .expect("an answer")
        .and_then(|(_, tolerance)| level(tolerance));
    assert_eq!(found.map(|(_, tolerance)| tolerance), twins);
    assert_eq!(owned.as_ref().map(|(_, tolerance)| *tolerance), twins);
    let owned = owned.map(|(route, _)| route);
    ridden + same(&room, found.map(|(found, _)| found), owned.as_ref())
}

/// The same route in both forms; 1 where it is not empty.
fn same(room: &Room, found: Option<Found>, owned: Option<&splicereel::Route>) -> usize {
    let (Some(found), Some(owned)) = (found, owned) else {
        assert!(found.is_none() && owned.is_none());
        return 0;
    };
    assert_eq!((found.feet, found.level), (owned.feet(), owned.level()));
    let runs: Vec<Run> = room
        .runs(found.count)
        .iter()
        .map(|&run| run.into())
        .collect();
    assert_eq!(runs, owned.runs());
    for run in &runs {
        let odd = usize::from(run.direction() == Direction::BToA);
        assert_eq!(2 * run.segment() + odd, run.number());
    }
    usize::from(found.count > 0)
}

/// The least length to each node by a route of its own, where there is one.
fn by_routes(network: &Network, from: usize, tolerance: Level) -> Vec<Entry> {
    let feet = |to| network.route(from, to, tolerance).expect("an answer");
    (0..network.nodes())
        .filter_map(|node| {
            feet(node).map(|route| Entry {
                node,
                feet: route.feet(),
            })
        })
        .collect()
}

/// Maps and nearest nodes at every tolerance, in both forms; the number of
/// entries listed.
fn reach(rng: &mut Rng, network: &Network, from: usize) -> usize {
    let mut listed = 0;
    for tolerance in Level::ALL {
        let all = by_routes(network, from, tolerance);
        // A length that occurs, one foot less, and none that excludes a node.
        let occurs = all[rng.below(all.len())].feet as usize;
        for greatest in [occurs, occurs.saturating_sub(1), usize::MAX] {
            let within = |entry: &&Entry| entry.feet as usize <= greatest;
            let known: Vec<Entry> = all.iter().filter(within).copied().collect();
            hold_map(network, from, tolerance, greatest, &known);
            listed += known.len();
        }
        let marks: Vec<u8> = (0..network.nodes())
            .map(|_| if rng.chance(25) { 128 } else { 0 })
            .collect();
        let among = all.iter().filter(|entry| marks[entry.node] != 0);
        let known = among.min_by_key(|entry| (entry.feet, entry.node)).copied();
        hold_nearest(network, from, tolerance, &marks, known);
    }
    listed
}

/// Holds both forms of a reach map to its entries.
fn hold_map(network: &Network, from: usize, tolerance: Level, greatest: usize, known: &[Entry]) {
    let map = network.reach_map(from, tolerance, greatest);
    let map = map.expect("an answer");
    assert_eq!(map.entries(), known);
    assert!(map.iter().eq(&map));
    for node in 0..=network.nodes() {
        let entry = known.iter().find(|entry| entry.node == node);
        assert_eq!(map.feet_to(node), entry.map(|entry| entry.feet));
    }
    let mut room = Room::exact(2 * network.segments());
    let mut list = vec![7; 2 * network.nodes() + 1];
    let (net, lent) = (network.as_bytes(), scratch(&mut room));
    let entries = reach_map(net, from, tolerance.number(), greatest, lent, &mut list);
    assert!(entries.expect("an answer").eq(map));
    let later = &list[2 * known.len()..];
    assert!(later.iter().all(|&number| number == 7));
}

/// Holds both forms of the nearest node to an answer.
fn hold_nearest(
    network: &Network,
    from: usize,
    tolerance: Level,
    marks: &[u8],
    known: Option<Entry>,
) {
    let marked = (0..marks.len()).rev().filter(|&node| marks[node] != 0);
    assert_eq!(network.nearest(from, tolerance, marked), Ok(known));
    let mut room = Room::exact(2 * network.segments());
    let (net, lent) = (network.as_bytes(), scratch(&mut room));
    let lending = nearest(net, from, tolerance.number(), marks, lent);
    assert_eq!(lending, Ok(known));
}
