//! Every call, in both forms, about the largest county of edition 03 and about
//! networks round the size where a town ends, on threads with small stacks.

mod county;

use county::{FEET, OutAndBack};
use splicereel::{
    COUNTY_STACK, Entry, Found, Judged, Lent, Level, MAX_FEET, MAX_LIST, MAX_NETWORK, MAX_NODES,
    MAX_RUNS, MAX_SEGMENTS, MAX_TEXT, Measure, Network, ReadRefusal, Refusal, RefusedLine, Route,
    Run, Scratch, TOWN_STACK, judge_movement, judge_segment, least_stress, move_back, move_up,
    nearest, reach_map, read, refused_line, route,
};

/// Stack for what a thread itself needs, beside a call.
const OWN: usize = 16 << 10;

/// Runs a test on a thread with a stack of so many bytes.
fn on_a_stack(bytes: usize, test: impl FnOnce() + Send + 'static) {
    let thread = std::thread::Builder::new().stack_size(bytes).spawn(test);
    thread.expect("a thread").join().expect("no panic");
}

/// The network with its text and its kept bytes.
struct Kept {
    county: OutAndBack,
    text: Vec<u8>,
    bytes: Vec<u8>,
}

impl Kept {
    fn new(county: OutAndBack) -> Kept {
        let text = county.text();
        let mut bytes = vec![0; MAX_NETWORK];
        let written = read(&text, &mut bytes).expect("a network");
        bytes.truncate(written);
        Kept {
            county,
            text,
            bytes,
        }
    }

    fn network(&self) -> Network {
        Network::read(&self.text).expect("a network")
    }

    /// Feet of the one quiet way from the start to the end.
    fn feet(&self) -> u32 {
        FEET * self.county.runs() as u32
    }

    /// Every node with its least length from the start within tolerance 3.
    fn entries(&self) -> Vec<Entry> {
        let row = (0..=self.county.last()).map(|node| Entry {
            node,
            feet: FEET * node as u32,
        });
        let end = Entry {
            node: self.county.end(),
            feet: self.feet(),
        };
        row.chain([end]).collect()
    }
}

/// Scratch, buffer and list for the largest network.
struct Room {
    best: Vec<u32>,
    previous: Vec<u32>,
    buffer: Vec<u16>,
    list: Vec<u32>,
}

impl Room {
    fn new() -> Room {
        Room {
            best: vec![7; MAX_RUNS],
            previous: vec![7; MAX_RUNS],
            buffer: vec![7; MAX_RUNS],
            list: vec![7; MAX_LIST],
        }
    }

    fn lent(&mut self) -> Lent<'_> {
        Lent {
            best: &mut self.best,
            previous: &mut self.previous,
            buffer: &mut self.buffer,
            place: 0,
        }
    }

    fn scratch(&mut self) -> (Scratch<'_>, &mut [u32]) {
        let scratch = Scratch {
            best: &mut self.best,
            previous: &mut self.previous,
        };
        (scratch, &mut self.list)
    }
}

/// The largest network has the sizes that the crate names, and its longest way
/// is near the longest that a call tells, above 31 bits.
#[test]
fn the_largest_county_has_the_largest_sizes() {
    let kept = Kept::new(OutAndBack::LARGEST);
    assert_eq!([MAX_NODES, MAX_SEGMENTS], [8_000; 2]);
    assert_eq!((kept.text.len(), MAX_TEXT), (520_015, 520_015));
    assert_eq!((kept.bytes.len(), MAX_NETWORK), (256_007, 256_007));
    assert_eq!((kept.feet(), MAX_FEET), (4_223_208_000, 4_224_000_000));
    assert_eq!(
        MAX_FEET - kept.feet(),
        FEET * (MAX_RUNS - kept.county.runs()) as u32
    );
    assert!(kept.feet() > i32::MAX as u32);
}

#[test]
fn lending_calls_about_a_county() {
    on_a_stack(COUNTY_STACK + OWN, || lending(OutAndBack::LARGEST));
    on_a_stack(COUNTY_STACK + OWN, || {
        lending(OutAndBack { segments: 1_001 })
    });
}

/// The counts decide: with a thousand of each, a network of edition 03 is a town.
#[test]
fn lending_calls_about_a_town_of_edition_03() {
    on_a_stack(TOWN_STACK + OWN, || lending(OutAndBack { segments: 1_000 }));
    on_a_stack(TOWN_STACK + OWN, || lending(OutAndBack { segments: 5 }));
}

#[test]
fn owned_calls() {
    for segments in [5, 1_000, 1_001, 8_000] {
        on_a_stack(2 << 20, move || owned(OutAndBack { segments }));
    }
}

fn lending(county: OutAndBack) {
    let kept = Kept::new(county);
    lending_judges(&kept);
    lending_routes(&kept);
    lending_reach(&kept);
    lending_refusals(&kept);
    refused_lines(&kept.text, kept.bytes.len());
}

fn lending_judges(kept: &Kept) {
    let (net, end) = (&kept.bytes, kept.county.end());
    let path = Judged {
        level: Level::One,
        measure: Measure::SeparatePath,
    };
    for segment in [0, 1, end - 1, end] {
        assert_eq!(judge_segment(net, segment), Ok(path));
    }
    assert_eq!(judge_segment(net, end + 1), Err(Refusal::NoSuchRun));
    for (first, second, level) in movements(kept.county) {
        assert_eq!(judge_movement(net, first, second), level);
    }
}

/// Movements of a network, and those that are none.
fn movements(county: OutAndBack) -> [(usize, usize, Result<Level, Refusal>); 7] {
    let (leaving, last) = (2 * county.end(), 2 * county.last());
    [
        (0, 2, Ok(Level::One)),
        (0, leaving, Ok(Level::Four)),
        (3, leaving, Ok(Level::One)),
        (last - 2, last, Ok(Level::One)),
        (last, last - 1, Ok(Level::One)),
        (2, 3, Err(Refusal::NoMovement)),
        (0, leaving + 1, Err(Refusal::NoSuchRun)),
    ]
}

/// Holds a route to the one quiet way, whichever way round the loop it rides.
fn hold_quiet(county: OutAndBack, runs: &[usize]) {
    let [out, back] = county.halves();
    let (before, after) = runs.split_at(out.len());
    assert_eq!(before, out);
    let (turned, after) = after.split_first().expect("the loop");
    assert_eq!(turned / 2, county.last());
    assert_eq!(after, back);
}

fn lending_routes(kept: &Kept) {
    let (net, county, mut room) = (&kept.bytes, kept.county, Room::new());
    let quiet = Found {
        count: county.runs(),
        feet: kept.feet(),
        level: Level::One,
    };
    for tolerance in 1..=3 {
        let found = route(net, 0, county.end(), tolerance, room.lent());
        assert_eq!(found, Ok(Some(quiet)));
        let runs = room.buffer[..quiet.count].iter().map(|&run| run.into());
        hold_quiet(county, &runs.collect::<Vec<usize>>());
        let later = &room.buffer[quiet.count..];
        assert!(later.iter().all(|&run| run == 7));
    }
    let least = least_stress(net, 0, county.end(), room.lent());
    assert_eq!(least, Ok(Some((quiet, Level::One))));
    let across = Found {
        count: 2,
        feet: 2 * FEET,
        level: Level::Four,
    };
    let found = route(net, 0, county.end(), 4, room.lent());
    assert_eq!(found, Ok(Some(across)));
    assert_eq!(usize::from(room.buffer[1]), 2 * county.end());
    assert_eq!(route(net, county.end(), 0, 4, room.lent()), Ok(None));
    assert_eq!(least_stress(net, county.last(), 0, room.lent()), Ok(None));
}

fn lending_reach(kept: &Kept) {
    let (net, county, mut room) = (&kept.bytes, kept.county, Room::new());
    let all = kept.entries();
    // A node's own length, one foot less, half of the range, and beyond it.
    let farthest = kept.feet() as usize;
    for greatest in [0, farthest - 1, farthest, 1 << 31, 1 << 32, usize::MAX] {
        let known = all.iter().filter(|entry| entry.feet as usize <= greatest);
        let known: Vec<Entry> = known.copied().collect();
        room.list.fill(7);
        let (scratch, list) = room.scratch();
        let entries = reach_map(net, 0, 3, greatest, scratch, list).expect("an answer");
        assert!(entries.eq(known.iter().copied()), "{greatest}");
        let later = &room.list[2 * known.len()..];
        assert!(later.iter().all(|&number| number == 7));
    }
    for (tolerance, marked, known) in nearest_marked(kept) {
        let mut marks = vec![0; county.end() + 1];
        marked.iter().for_each(|&node| marks[node] = 255);
        let told = nearest(net, 0, tolerance.number(), &marks, room.scratch().0);
        assert_eq!(told, Ok(known));
    }
    let marks = vec![1; county.end()];
    let too_few = nearest(net, 0, 4, &marks, room.scratch().0);
    assert_eq!(too_few, Err(Refusal::TooFewEntries));
}

/// Nodes that are marked, and the nearest of them from the start.
fn nearest_marked(kept: &Kept) -> [(Level, Vec<usize>, Option<Entry>); 4] {
    let (end, last) = (kept.county.end(), kept.county.last());
    let entry = |node, feet| Some(Entry { node, feet });
    [
        (Level::Three, vec![end], entry(end, kept.feet())),
        (
            Level::Three,
            vec![last, end],
            entry(last, FEET * last as u32),
        ),
        (Level::Four, vec![last, end], entry(end, 2 * FEET)),
        (Level::Four, vec![], None),
    ]
}

/// One number less than is due, in each slice of which some are due.
fn lending_refusals(kept: &Kept) {
    let (net, end, runs) = (&kept.bytes, kept.county.end(), 2 * kept.county.end() + 2);
    for short in 0..3 {
        let mut room = Room::new();
        let length = |slice| runs - usize::from(short == slice);
        room.best.truncate(length(0));
        room.previous.truncate(length(1));
        room.buffer.truncate(length(2));
        let refused = route(net, 0, end, 4, room.lent());
        assert_eq!(refused, Err(Refusal::NoRoom));
    }
    let mut room = Room::new();
    room.list.truncate(2 * end + 1);
    let (scratch, list) = room.scratch();
    let refused = reach_map(net, 0, 4, 0, scratch, list).err();
    assert_eq!(refused, Some(Refusal::TooFewEntries));
    let refused = route(net, end + 1, 0, 4, room.lent());
    assert_eq!(refused, Err(Refusal::NoSuchNode));
    let mut output = vec![0; MAX_NETWORK];
    assert_eq!(move_up(net, &mut output), Err(Refusal::NoSuchMove));
    assert_eq!(move_back(net, &mut output), Err(Refusal::AboveLimits));
    let mut wrong = kept.bytes.clone();
    *wrong.last_mut().expect("bytes") ^= 1;
    let refused = judge_segment(&wrong, 0);
    assert_eq!(refused, Err(Refusal::NotANetwork));
}

/// The text, and the text with its last line wrong, missing, twice, or one foot
/// too long; the last line of the largest county is line 8,001.
fn refused_lines(text: &[u8], bytes: usize) {
    let (before, last) = text.split_at(text.len() - 65);
    let line = text.len() / 65 + 1;
    let mut wrong = last.to_vec();
    wrong[63] = if last[63] == b'0' { b'1' } else { b'0' };
    let digits = |place: usize| str::from_utf8(&last[2 * place..2 * place + 2]).expect("digits");
    let frame = (0..31).map(|place| u8::from_str_radix(digits(place), 16).expect("a byte"));
    let mut longer: Vec<u8> = frame.collect();
    longer[7..11].copy_from_slice(&(FEET + 1).to_be_bytes());
    let longer = county::line(&longer);
    let refused = [
        (&[before, &wrong].concat(), Refusal::WrongCheck, line, 64),
        (&[before, &longer].concat(), Refusal::WrongField, line, 64),
        (&before.to_vec(), Refusal::WrongCount, line, 0),
        (&[text, last].concat(), Refusal::WrongCount, line + 1, 64),
    ];
    for (text, refusal, line, length) in refused {
        let mut output = vec![9; MAX_NETWORK];
        let told = Err(ReadRefusal {
            refusal,
            line: line as u32,
        });
        assert_eq!(read(text, &mut output), told);
        assert!(output.iter().all(|&byte| byte == 9));
        assert_eq!(Network::read(text).map(|_| 0), told);
        let start = (15 + 65 * (line - 2)).min(text.len());
        let part = &text[start..start + length];
        let shown = refused_line(text, MAX_NETWORK);
        assert_eq!(shown, RefusedLine { refusal, part });
        assert_eq!(shown.part.as_ptr(), part.as_ptr());
        assert_eq!(Network::refused_line(text), Some(shown));
    }
    assert_eq!(Network::refused_line(text), None);
    let in_order = |room| refused_line(text, room).refusal;
    assert_eq!(in_order(bytes), Refusal::NoRefusedLine);
    assert_eq!(in_order(bytes - 1), Refusal::OutputTooShort);
}

fn owned(county: OutAndBack) {
    let kept = Kept::new(county);
    let network = kept.network();
    assert_eq!(network.as_bytes(), kept.bytes);
    assert_eq!(
        Network::from_bytes(kept.bytes.clone()).as_ref(),
        Ok(&network)
    );
    let count = county.end() + 1;
    assert_eq!(
        (network.edition(), network.nodes(), network.segments()),
        (3, count, count)
    );
    owned_judges(&network, county);
    owned_routes(&network, &kept);
    owned_reach(&network, &kept);
    assert_eq!(network.to_county(), Err(Refusal::NoSuchMove));
    assert_eq!(network.to_town(), Err(Refusal::AboveLimits));
}

fn owned_judges(network: &Network, county: OutAndBack) {
    for segment in [0, county.last(), county.end()] {
        let judged = network.judge_segment(segment).expect("a segment");
        assert_eq!(judged.measure, Measure::SeparatePath);
    }
    let run = |number: usize| Run::from(number as u16);
    for (first, second, level) in movements(county) {
        assert_eq!(network.judge_movement(run(first), run(second)), level);
    }
}

fn owned_routes(network: &Network, kept: &Kept) {
    let (county, end) = (kept.county, kept.county.end());
    let hold = |route: &Route| {
        assert_eq!((route.feet(), route.level()), (kept.feet(), Level::One));
        let runs = route.runs().iter().map(|run| run.number());
        hold_quiet(county, &runs.collect::<Vec<usize>>());
    };
    for tolerance in [Level::One, Level::Two, Level::Three] {
        hold(
            &network
                .route(0, end, tolerance)
                .expect("an answer")
                .expect("a way"),
        );
    }
    let (route, tolerance) = network
        .least_stress(0, end)
        .expect("an answer")
        .expect("a way");
    assert_eq!(tolerance, Level::One);
    hold(&route);
    let across = network.route(0, end, Level::Four).expect("an answer");
    assert_eq!(across.map(|route| route.feet()), Some(2 * FEET));
    assert_eq!(network.least_stress(end, 0), Ok(None));
    let refused = network.route(0, end + 1, Level::Four);
    assert_eq!(refused, Err(Refusal::NoSuchNode));
}

fn owned_reach(network: &Network, kept: &Kept) {
    let all = kept.entries();
    let farthest = kept.feet() as usize;
    let map = |greatest| network.reach_map(0, Level::Three, greatest).expect("a map");
    assert_eq!(map(farthest).entries(), all);
    assert_eq!(map(usize::MAX).entries(), all);
    let nearer = map(farthest - 1);
    assert_eq!(nearer.entries(), &all[..kept.county.end()]);
    assert_eq!(nearer.feet_to(kept.county.end()), None);
    for (tolerance, marked, known) in nearest_marked(kept) {
        assert_eq!(network.nearest(0, tolerance, marked), Ok(known));
    }
}
