//! Each refusal, its order among the others, and what it leaves alone.

mod search;

use oracle::Net;
use search::{least_stress, route};
use towns::draw::{self, Rng, Shape, Spot, damage, damage_kept};
use towns::edition::EDITIONS;
use towns::lend::{Guarded, Lengths, Lent};
use towns::sizes::{most_feet, most_nodes, segment_bytes};
use towns::town::{Approach, Segment, Town, block_town, check, end, head, head_of, line, text_of};
use towns::town::{COUNTY, NEWER, OLDER};
use twin::{Found, MAX_NETWORK, is_network, judge_movement, judge_segment, read, refused_line};
use twin::{move_back, move_up, nearest, reach_map};

/// Reads twice, here and with the oracle, and tests what the output keeps and
/// which line is told as refused.
fn answer(text: &[u8], room: usize) -> Result<usize, (u8, usize)> {
    let mut output: Guarded<u8> = Guarded::garbage(&mut Rng::new(room as u64), room);
    let answer = read(text, output.lend());
    match (answer, oracle::read(text, room)) {
        (Ok(written), Ok(kept)) => {
            assert_eq!(written, kept.len());
            assert_eq!(output.now()[..written], kept);
            assert!(output.untouched_but(0, written));
            assert!(is_network(&kept));
        }
        (Err(one), Err(other)) => {
            assert_eq!(one, other, "{:?}", String::from_utf8_lossy(text));
            assert!(output.untouched());
        }
        (one, other) => panic!(
            "{one:?} and {other:?} for {:?}",
            String::from_utf8_lossy(text)
        ),
    }
    let told = refused_line(text, room);
    assert_eq!(told.0, answer.map_or_else(|(number, _)| number, |_| 14));
    assert_eq!(told, oracle::refused_line(text, room), "{text:?}");
    answer
}

/// An output that is longer than the texts of these tests need.
const ROOM: usize = 4_000;

fn full(text: &[u8]) -> Result<usize, (u8, usize)> {
    answer(text, ROOM)
}

fn sealed(mut body: Vec<u8>) -> Vec<u8> {
    body.push(check(&body));
    body
}

fn lines(frames: &[&[u8]]) -> Vec<u8> {
    frames.iter().flat_map(|frame| line(frame)).collect()
}

fn path(a: (u16, u8), b: (u16, u8)) -> Segment {
    Segment::path(end(a.0, a.1), end(b.0, b.1), 100)
}

#[test]
fn empty_and_ends() {
    assert_eq!(full(b""), Err((3, 1)));
    assert_eq!(full(b"\n"), Err((1, 1)));
    assert_eq!(full(b"\n\n"), Err((1, 1)));
    assert_eq!(full(b"0"), Err((1, 1)));
    assert_eq!(full(b"00"), Err((1, 1)));
    assert_eq!(full(b"00\n"), Err((3, 1)));
    assert_eq!(full(b"01\n"), Err((2, 1)));
    let empty = Town::new(1).text();
    assert_eq!(empty, b"010100010000FD\n");
    assert_eq!(full(&empty), Ok(7));
    assert_eq!(full(&empty[..14]), Err((1, 1)));
    assert_eq!(full(&[&empty[..], b"\n"].concat()), Err((1, 2)));
    assert_eq!(full(&[&empty[..], b"0"].concat()), Err((1, 2)));
    assert_eq!(full(&[&empty[..], b"00\n"].concat()), Err((3, 2)));
    let block = block_town().text();
    assert_eq!(full(&block), Ok(97));
    assert_eq!(full(&[&block[..], b"\n"].concat()), Err((1, 5)));
    assert_eq!(full(&block[..block.len() - 1]), Err((1, 4)));
}

#[test]
fn heads() {
    assert_eq!(full(&line(&head(1_000, 0))), Ok(7));
    assert_eq!(full(&line(&head_of(2, 1_000, 0))), Ok(7));
    assert_eq!(full(&line(&head_of(3, 8_000, 0))), Ok(7));
    let largest = line(&head_of(3, 8_000, 8_000));
    assert_eq!(answer(&largest, MAX_NETWORK), Err((5, 2)));
    assert_eq!(answer(&largest, MAX_NETWORK - 1), Err((7, 1)));
    for (frame, number) in [
        (head(0, 0), 4),
        (head(1_001, 0), 4),
        (head(1, 1_001), 4),
        (sealed(vec![1, 0, 0, 1, 0, 0]), 4),
        (sealed(vec![1, 4, 0, 1, 0, 0]), 4),
        (sealed(vec![1, 255, 0, 1, 0, 0]), 4),
        (sealed(vec![1, 2, 0, 0, 0, 0]), 4),
        (sealed(vec![1, 2, 0, 1, 3, 233]), 4),
        (head_of(2, 1_001, 0), 4),
        (head_of(3, 0, 0), 4),
        (head_of(3, 8_001, 0), 4),
        (head_of(3, 1, 8_001), 4),
        (head_of(3, 8_000, 8_001), 4),
        (sealed(vec![2, 1, 0, 1, 0, 0]), 3),
        (sealed(vec![2, 9, 0, 0, 9, 9]), 3),
        (sealed(vec![1, 1, 0, 1, 0, 0, 0]), 3),
        (sealed(vec![1, 1, 0, 1, 0]), 3),
        (vec![1, 1, 0, 1, 0, 0, 0], 2),
        (vec![9, 1, 0, 1, 0, 0, 0], 2),
    ] {
        assert_eq!(full(&line(&frame)), Err((number, 1)), "{frame:?}");
    }
}

#[test]
fn order_within_a_line() {
    let first = path((0, 0), (1, 0)).frame();
    let head1 = head(2, 1);
    let head2 = head(2, 2);
    let mut twice = path((0, 0), (1, 1));
    // 6 alone, by an earlier frame and by the frame's other end.
    assert_eq!(full(&lines(&[&head2, &first, &twice.frame()])), Err((6, 3)));
    let own = path((1, 3), (1, 3)).frame();
    assert_eq!(full(&lines(&[&head2, &first, &own])), Err((6, 3)));
    // 4 before 6.
    twice.ways = 0;
    assert_eq!(full(&lines(&[&head2, &first, &twice.frame()])), Err((4, 3)));
    // 5 before 4 and 6.
    assert_eq!(full(&lines(&[&head1, &first, &twice.frame()])), Err((5, 3)));
    // 3 before 5.
    let mut wrong = twice.frame();
    wrong[0] = 3;
    draw::seal(&mut wrong);
    assert_eq!(full(&lines(&[&head1, &first, &wrong])), Err((3, 3)));
    assert_eq!(full(&lines(&[&head1, &first, &head1])), Err((3, 3)));
    // 2 before 3.
    wrong[29] ^= 1;
    assert_eq!(full(&lines(&[&head1, &first, &wrong])), Err((2, 3)));
    // 1 before 2.
    let mut text = lines(&[&head1, &first, &wrong]);
    let at = text.len() - 2;
    text[at] = b'x';
    assert_eq!(full(&text), Err((1, 3)));
    text[at] = b'0';
    text.pop();
    assert_eq!(full(&text), Err((1, 3)));
}

/// A frame of the other width is 3: after 1 and 2, before 5, 4 and 6.
#[test]
fn widths_of_frames() {
    for edition in EDITIONS {
        let other = if edition == COUNTY { NEWER } else { COUNTY };
        let good = path((0, 0), (1, 0));
        let first = good.frame_of(edition);
        for bad in [good, path((5, 0), (1, 9)), path((0, 1), (1, 1))] {
            let wrong = bad.frame_of(other);
            assert_eq!(wrong.len(), segment_bytes(other));
            for segments in [1, 2] {
                let head = head_of(edition, 2, segments);
                let mut text = lines(&[&head, &first, &wrong]);
                assert_eq!(full(&text), Err((3, 3)));
                assert!(!is_network(&[&head[..], &first, &wrong].concat()));
                let check = text.len() - 2;
                text[check] = if text[check] == b'0' { b'1' } else { b'0' };
                assert_eq!(full(&text), Err((2, 3)));
                text[check] = b' ';
                assert_eq!(full(&text), Err((1, 3)));
            }
        }
        // Frames of the other width alone, and as many bytes as there should be.
        let town = Town::new(2).edition(edition).with(good);
        assert_eq!(full(&town.text()), Ok(7 + segment_bytes(edition)));
        let head = town.head();
        let mut frame = good.frame_of(other);
        assert!(!is_network(&[&head[..], &frame].concat()));
        frame.resize(segment_bytes(edition), 0);
        draw::seal(&mut frame);
        let answer = full(&lines(&[&head, &frame]));
        assert_eq!(answer.is_ok(), is_network(&[&head[..], &frame].concat()));
    }
}

/// The new values are 4 under edition 01, after 5 and before 6, at the line that
/// has them.
#[test]
fn new_values_under_edition_01() {
    let good = path((0, 2), (1, 2));
    let marked = good_segment().street(2, 1, 25, 12, 16);
    let signal = path((0, 0), (1, 0)).at_a(Approach::signal(true));
    for new in [marked, signal] {
        let town = Town::new(2).with(good).with(new);
        for (edition, answer) in [(OLDER, Err((4, 3))), (NEWER, Ok(67)), (COUNTY, Ok(71))] {
            let town = town.clone().edition(edition);
            assert_eq!(full(&town.text()), answer);
            assert_eq!(is_network(&town.bytes()), answer.is_ok());
        }
        let twice = Segment { a: good.a, ..new };
        for (edition, number) in [(OLDER, 4), (NEWER, 6), (COUNTY, 6)] {
            let [one, other] = [good, twice].map(|segment| segment.frame_of(edition));
            let frames = [head_of(edition, 2, 1), one.clone(), other.clone()];
            assert_eq!(full(&text_of(&frames)), Err((5, 3)));
            let frames = [head_of(edition, 2, 2), one, other];
            assert_eq!(full(&text_of(&frames)), Err((number, 3)));
            assert!(!is_network(&frames.concat()));
        }
    }
}

#[test]
fn output_too_short() {
    let town = block_town();
    let text = town.text();
    for room in 0..97 {
        assert_eq!(answer(&text, room), Err((7, 1)));
    }
    assert_eq!(answer(&text, 97), Ok(97));
    // Before anything of line 2, but after all of line 1.
    let head_only = &text[..15];
    assert_eq!(answer(head_only, 96), Err((7, 1)));
    assert_eq!(answer(head_only, 97), Err((5, 2)));
    assert_eq!(answer(&[head_only, b"zz"].concat(), 96), Err((7, 1)));
    assert_eq!(answer(&[head_only, b"zz"].concat(), 97), Err((1, 2)));
    assert_eq!(answer(&line(&head(3, 1_001)), 0), Err((4, 1)));
    assert_eq!(answer(&text[..14], 0), Err((1, 1)));
    assert_eq!(answer(b"", 0), Err((3, 1)));
    assert_eq!(answer(&Town::new(1).text(), 6), Err((7, 1)));
}

/// Number, start and end of the refused line, with room for every network.
fn told(text: &[u8]) -> (u8, usize, usize) {
    let (number, part) = refused_line(text, usize::MAX);
    assert_eq!((number, part.clone()), refused_line(text, MAX_NETWORK));
    assert_eq!((number, part.clone()), oracle::refused_line(text, 1 << 32));
    (number, part.start, part.end)
}

#[test]
fn refused_lines() {
    let head = Town::new(1).text();
    let and = |more: &[u8]| [&head[..], more].concat();
    assert_eq!(told(b""), (3, 0, 0));
    assert_eq!(told(b"\n"), (1, 0, 0));
    assert_eq!(told(b"\n0"), (1, 0, 0));
    assert_eq!(told(b"0"), (1, 0, 1));
    assert_eq!(told(b"00\n00\n"), (3, 0, 2));
    assert_eq!(told(&head), (14, 15, 15));
    assert_eq!(told(&head[..14]), (1, 0, 14));
    assert_eq!(told(&and(b"\n00\n")), (1, 15, 15));
    assert_eq!(told(&and(b"00")), (1, 15, 17));
    assert_eq!(told(&and(b"00\r\n00")), (1, 15, 18));
    assert_eq!(told(b"010100010000FD\r\n"), (1, 0, 15));
    let block = block_town().text();
    assert_eq!(told(&block), (14, 198, 198));
    assert_eq!(told(&and(&block[15..])), (5, 15, 75));
    assert_eq!(told(&block[..15]), (5, 15, 15), "too few");
    assert_eq!(told(&block[..137]), (5, 137, 137), "too few");
    assert_eq!(told(&block[..197]), (1, 137, 197), "no last 0A");
    let parted = [&block[..76], b"\n", &block[76..]].concat();
    assert_eq!(told(&parted), (1, 76, 76), "an empty line");
    for room in 0..97 {
        for text in [&block[..], &block[..15], &block[..16], &parted[..]] {
            assert_eq!(refused_line(text, room), (7, 0..14), "the head line");
        }
    }
    assert_eq!(refused_line(&block, 97), (14, 198..198));
}

/// Lines far longer than any frame: their end is theirs alone.
#[test]
fn long_refused_lines() {
    let block = block_town().text();
    let digits = vec![b'0'; 100_000];
    for (before, line) in [(0, 1), (15, 2), (137, 4)] {
        let with = |middle: &[u8]| [&block[..before], middle, b"\n", &block[before..]].concat();
        let end = before + digits.len();
        assert_eq!(answer(&with(&digits), MAX_NETWORK), Err((3, line)));
        assert_eq!(told(&with(&digits)), (3, before, end));
        let mut other = digits.clone();
        other[7] = b'1';
        assert_eq!(told(&with(&other)), (2, before, end));
        for bad in [0, 50_000, 99_999] {
            let mut other = digits.clone();
            other[bad] = b'x';
            assert_eq!(told(&with(&other)), (1, before, end));
        }
        let cut = [&block[..before], &digits[..]].concat();
        assert_eq!(told(&cut), (1, before, end));
    }
}

#[test]
fn numbers_of_segments() {
    let one = path((0, 0), (1, 0)).frame();
    let two = path((0, 1), (1, 1)).frame();
    assert_eq!(full(&lines(&[&head(2, 1), &one])), Ok(37));
    assert_eq!(full(&lines(&[&head(2, 0), &one])), Err((5, 2)));
    assert_eq!(full(&lines(&[&head(2, 1), &one, &two])), Err((5, 3)));
    assert_eq!(full(&lines(&[&head(2, 3), &one, &two])), Err((5, 4)));
    let most = lines(&[&head(2, 1_000)]);
    assert_eq!(answer(&most, MAX_NETWORK), Err((5, 2)));
}

/// A segment with a crossing and a turn lane at B, nothing at A.
fn good_segment() -> Segment {
    path((0, 0), (1, 0))
        .street(1, 1, 25, 30, 0)
        .at_b(Approach::crossing(2, 3, 25).turning(1, 100, 15))
}

/// Whether a town of this one segment is accepted; if not, the number is 4,
/// and its bytes are no network.
fn accepted(edition: u8, segment: Segment) -> bool {
    let town = Town::new(2).edition(edition).with(segment);
    let answer = full(&town.text());
    let size = 7 + segment_bytes(edition);
    assert!([Ok(size), Err((4, 2))].contains(&answer), "{segment:?}");
    assert_eq!(is_network(&town.bytes()), answer.is_ok());
    answer.is_ok()
}

/// Sets a field to each number, and asks which are accepted, in every edition.
fn field<T: Copy + std::fmt::Debug>(
    numbers: impl IntoIterator<Item = T> + Clone,
    set: impl Fn(&mut Segment, T),
    good: impl Fn(T) -> bool,
) {
    for edition in EDITIONS {
        field_of(edition, numbers.clone(), &set, &good);
    }
}

/// The same in one edition.
fn field_of<T: Copy + std::fmt::Debug>(
    edition: u8,
    numbers: impl IntoIterator<Item = T>,
    set: impl Fn(&mut Segment, T),
    good: impl Fn(T) -> bool,
) {
    for number in numbers {
        let mut segment = good_segment();
        set(&mut segment, number);
        let answer = accepted(edition, segment);
        assert_eq!(answer, good(number), "{number:?}, {edition}: {segment:?}");
    }
}

#[test]
fn fields_of_the_ends() {
    // The ends stay at different nodes.
    field([0, 2, 255, 256, 65_535], |s, n| s.a.node = n, |n| n < 2);
    field([1, 2, 255, 256, 65_535], |s, n| s.b.node = n, |n| n < 2);
    field(0..=255, |s, n| s.a.leg = n, |n| n < 8);
    field(0..=255, |s, n| s.b.leg = n, |n| n < 8);
}

#[test]
fn lengths() {
    for edition in EDITIONS {
        let mut lengths = vec![0, 1, 255, 256, 52_800, 52_801, 65_535];
        if edition == COUNTY {
            lengths.extend([65_536, 65_537, 263_999, 264_000, 264_001, 264_001 + 65_536]);
            lengths.extend([1 << 24, 1 << 24 | 1, 500 << 16, 1 << 31, u32::MAX]);
        }
        let within = |n| (1..=most_feet(edition)).contains(&n);
        field_of(edition, lengths, |s, n| s.length = n, within);
    }
}

#[test]
fn fields_of_the_street() {
    let every = 0..=255u8;
    // With reach 30, forms 0 and 3 are against the rules.
    field(every.clone(), |s, n| s.form = n, |n| n == 1 || n == 2);
    field(every.clone(), |s, n| s.ways = n, |n| (1..=3).contains(&n));
    field(every.clone(), |s, n| s.lanes = n, |n| (1..=12).contains(&n));
    field(every.clone(), |s, n| s.speed = n, |n| (5..=85).contains(&n));
    field(every.clone(), |s, n| s.reach = n, |n| n <= 60);
    // Later editions have a mark more, on a street of any form but a path.
    for (edition, most) in [(OLDER, 15), (NEWER, 31), (COUNTY, 31)] {
        field_of(edition, every.clone(), |s, n| s.marks = n, |n| n <= most);
        let mixed = |s: &mut Segment, n| *s = s.street(0, 2, 25, 0, n);
        field_of(edition, every.clone(), mixed, |n| n <= most);
        let unparked = |s: &mut Segment, n| *s = s.street(2, 2, 25, 12, n);
        field_of(edition, every.clone(), unparked, |n| n <= most);
        field_of(
            edition,
            every.clone(),
            |s, n| *s = s.street(3, 0, 0, 0, n),
            |n| n == 0,
        );
    }
    // A path has lanes, speed, reach and marks 0.
    let path = path((0, 0), (1, 0));
    for edition in EDITIONS {
        assert!(accepted(edition, path));
        for one in [(1, 0, 0, 0), (0, 5, 0, 0), (0, 0, 1, 0), (0, 0, 0, 1)] {
            assert!(!accepted(
                edition,
                path.street(3, one.0, one.1, one.2, one.3)
            ));
        }
    }
}

#[test]
fn fields_of_the_approaches() {
    let every = 0..=255u8;
    let lanes = |n| (1..=12).contains(&n);
    let speed = |n| (5..=85).contains(&n);
    field(
        every.clone(),
        |s, n| s.at_b.control = n,
        |n| (2..=4).contains(&n),
    );
    field(every.clone(), |s, n| s.at_b.lanes = n, lanes);
    field(every.clone(), |s, n| s.at_b.speed = n, speed);
    field(
        every.clone(),
        |s, n| s.at_b.turn = n,
        |n| (1..=3).contains(&n),
    );
    field(every.clone(), |s, n| s.at_b.turn_speed = n, speed);
    let lengths = [0, 1, 255, 256, 2_000, 2_001, 65_535];
    field(
        lengths,
        |s, n| s.at_b.turn_length = n,
        |n| (1..=2_000).contains(&n),
    );
    // The approach at A crosses nothing and has no turn lane.
    let zero = |n| n == 0;
    for (edition, signals) in [(OLDER, &[1][..]), (NEWER, &[1, 5]), (COUNTY, &[1, 5])] {
        let crosses_nothing = |n| n == 0 || signals.contains(&n);
        let every = every.clone();
        field_of(edition, every, |s, n| s.at_a.control = n, crosses_nothing);
    }
    field(every.clone(), |s, n| s.at_a.lanes = n, zero);
    field(every.clone(), |s, n| s.at_a.speed = n, zero);
    field(every.clone(), |s, n| s.at_a.turn = n, zero);
    field(every, |s, n| s.at_a.turn_speed = n, zero);
    field(lengths, |s, n| s.at_a.turn_length = n, |n| n == 0);
}

/// Lanes and speed of a signal are 0, the improved one's too.
#[test]
fn fields_of_signals() {
    for (control, lanes, speed) in [(1, 0, 0), (5, 0, 0), (5, 1, 0), (5, 0, 5), (5, 2, 25)] {
        let crossed = Approach::crossing(control, lanes, speed);
        for edition in [NEWER, COUNTY] {
            let answer = accepted(edition, good_segment().at_b(crossed));
            assert_eq!(answer, lanes + speed == 0, "{crossed:?}");
        }
        let answer = accepted(OLDER, good_segment().at_a(crossed));
        assert_eq!(answer, control == 1, "{crossed:?}");
    }
}

#[test]
fn damage_meets_its_number() {
    let mut rng = Rng::new(5);
    let mut met = [0; 8];
    for seed in 0..400 {
        let shape = Shape::ALL[seed as usize % Shape::ALL.len()];
        let segments = rng.range(0, 40);
        let town = draw::town_of(rng.pick(&EDITIONS), shape, seed, segments);
        assert!(is_network(&town.bytes()));
        for number in 1..=7 {
            for spot in Spot::ALL {
                if let Some(d) = damage(&mut rng, &town, number, spot) {
                    assert_eq!(answer(&d.text, d.output), Err(d.refusal), "{}", d.what);
                    met[usize::from(number)] += 1;
                }
            }
        }
    }
    assert!(met[1..].iter().all(|&n| n > 500), "{met:?}");
}

/// Texts changed at random: here and the oracle must answer alike.
#[test]
fn changed_texts() {
    let mut rng = Rng::new(6);
    for seed in 0..6_000 {
        let shape = Shape::ALL[seed as usize % Shape::ALL.len()];
        let segments = rng.range(0, 8);
        let mut text = draw::town_of(rng.pick(&EDITIONS), shape, seed, segments).text();
        for _ in 0..rng.range(1, 3) {
            draw::change(&mut rng, &mut text);
        }
        let room = rng.pick(&[ROOM, ROOM, 7, 67, 71, 100, 0]);
        let _ = answer(&text, room);
    }
}

/// Fields changed and sealed again, so that 4 and 6 are often reached.
#[test]
fn changed_fields() {
    let mut rng = Rng::new(7);
    let mut answers = [0; 8];
    for seed in 0..20_000 {
        let shape = Shape::ALL[seed as usize % Shape::ALL.len()];
        let segments = rng.range(1, 6);
        let town = draw::town_of(rng.pick(&EDITIONS), shape, seed, segments);
        let mut frames = town.frames();
        let place = rng.below(frames.len());
        let frame = &mut frames[place];
        let at = rng.below(frame.len());
        let number = rng.pick(&[
            0, 1, 2, 3, 4, 5, 6, 7, 8, 12, 13, 16, 31, 32, 60, 61, 85, 86, 255,
        ]);
        frame[at] = number;
        draw::seal(frame);
        let kept = frames.concat();
        let number = full(&text_of(&frames)).map_or_else(|(number, _)| number, |_| 0);
        answers[usize::from(number)] += 1;
        assert_eq!(is_network(&kept), number == 0);
        assert_eq!(Net::parse(&kept).is_some(), number == 0);
    }
    assert!(
        [0, 3, 4, 5, 6].iter().all(|&n: &usize| answers[n] > 50),
        "{answers:?}"
    );
}

/// Damage to the text of a county: at its first, a middle and its last line.
#[test]
fn damaged_counties() {
    let mut rng = Rng::new(10);
    let mut last = 0;
    for (seed, segments) in [(1, 8_000), (2, 1_001), (3, 4_000)] {
        let county = draw::town_of(COUNTY, Shape::Ring, seed, segments);
        let size = county.bytes().len();
        assert_eq!(answer(&county.text(), size), Ok(size));
        for number in (1..=7).flat_map(|number| [number; 4]) {
            for spot in Spot::ALL {
                let Some(d) = damage(&mut rng, &county, number, spot) else {
                    continue;
                };
                assert_eq!(answer(&d.text, d.output), Err(d.refusal), "{}", d.what);
                last = last.max(d.refusal.1);
            }
        }
    }
    assert_eq!(last, 8_002);
    // As many nodes as there may be, and a node more in a frame.
    for edition in EDITIONS {
        let most = most_nodes(edition) as u16;
        for (node, accepted) in [(most - 1, true), (most, false)] {
            let town = Town::new(most).edition(edition);
            let town = town.with(path((0, 0), (node, 7)));
            let size = 7 + segment_bytes(edition);
            let told = if accepted { Ok(size) } else { Err((4, 2)) };
            assert_eq!(full(&town.text()), told);
            assert_eq!(is_network(&town.bytes()), accepted);
        }
    }
}

#[test]
fn kept_bytes() {
    let mut rng = Rng::new(8);
    for seed in 0..5_000 {
        let shape = Shape::ALL[seed as usize % Shape::ALL.len()];
        let segments = rng.range(0, 12);
        let town = draw::town_of(rng.pick(&EDITIONS), shape, seed, segments);
        let net = town.bytes();
        assert!(is_network(&net) && Net::parse(&net).is_some());
        let bad = damage_kept(&mut rng, &town);
        assert!(
            !is_network(&bad) && Net::parse(&bad).is_none(),
            "{net:?} {bad:?}"
        );
        refused_everywhere(&bad);
    }
    for length in 0..200 {
        refused_everywhere(&vec![0; length]);
    }
}

/// 8 from every call, whatever else is wrong, and nothing written.
fn refused_everywhere(bad: &[u8]) {
    assert_eq!(judge_segment(bad, 5_000), Err(8));
    assert_eq!(judge_movement(bad, 5_000, 0), Err(8));
    let lengths = Lengths {
        place: 9,
        ..Lengths::exact(4)
    };
    let mut lent = Lent::garbage(&mut Rng::new(4), lengths);
    assert_eq!(route(&mut lent, bad, 9_999, 0, 0), Err(8));
    assert_eq!(least_stress(&mut lent, bad, 9_999, 0), Err(8));
    let (best, previous) = (lent.best.lend(), lent.previous.lend());
    let map = reach_map(bad, 9_999, 0, 0, best, previous, &mut []);
    assert_eq!(map, Err(8));
    assert_eq!(nearest(bad, 9_999, 0, &[], best, previous), Err(8));
    assert_eq!(move_up(bad, &mut []), Err(8));
    assert_eq!(move_back(bad, &mut []), Err(8));
    assert!(lent.untouched());
}

#[test]
fn refusals_of_the_judges() {
    let mut town = block_town();
    town.segments[1].ways = 1;
    let net = town.bytes();
    assert_eq!(judge_segment(&net, 2), Ok((1, 6)));
    assert_eq!(judge_segment(&net, 3), Err(12));
    assert_eq!(judge_segment(&net, usize::MAX), Err(12));
    assert_eq!(judge_movement(&net, 0, 6), Err(12));
    assert_eq!(judge_movement(&net, 6, 0), Err(12));
    assert_eq!(judge_movement(&net, usize::MAX, usize::MAX), Err(12));
    assert_eq!(judge_movement(&net, 0, 3), Err(12), "closed");
    assert_eq!(judge_movement(&net, 3, 0), Err(12), "closed");
    assert_eq!(
        judge_movement(&net, 4, 3),
        Err(12),
        "closed, and no movement either"
    );
    assert_eq!(judge_movement(&net, 0, 0), Err(13));
    assert_eq!(judge_movement(&net, 0, 1), Err(13), "back by the same leg");
    assert_eq!(judge_movement(&net, 4, 0), Err(13), "another node");
    assert_eq!(judge_movement(&net, 0, 2), Ok(1), "the right-hand exit");
    assert_eq!(judge_movement(&net, 0, 4), Ok(4));
    assert_eq!(judge_movement(&net, 2, 2), Ok(1), "a loop after itself");
    let net = block_town().bytes();
    assert_eq!(judge_movement(&net, 2, 3), Err(13), "a loop turned round");
    assert_eq!(judge_movement(&net, 3, 3), Ok(1));
    assert_eq!(judge_movement(&net, 0, 3), Ok(4));
}

#[test]
fn refusals_of_the_routes() {
    let net = block_town().bytes();
    // from, to, tolerance, best, previous, buffer, place; then Route's and
    // Least stress's refusal.
    for (from, to, tolerance, best, previous, buffer, place, one, other) in [
        (3, 0, 0, 0, 0, 0, 1, 9, 9),
        (0, 3, 0, 0, 0, 0, 1, 9, 9),
        (usize::MAX, usize::MAX, 2, 6, 6, 6, 0, 9, 9),
        (0, 2, 0, 5, 6, 6, 0, 10, 11),
        (0, 2, 5, 6, 5, 6, 0, 10, 11),
        (0, 2, 255, 6, 5, 6, 0, 10, 11),
        (0, 2, 4, 5, 6, 6, 0, 11, 11),
        (0, 2, 4, 6, 5, 6, 0, 11, 11),
        (0, 2, 4, 6, 6, 5, 0, 11, 11),
        (0, 2, 4, 6, 6, 6, 1, 11, 11),
        (0, 2, 4, 6, 6, 6, 6, 11, 11),
        (0, 2, 4, 6, 6, 6, 7, 11, 11),
        (0, 2, 4, 6, 6, 6, usize::MAX, 11, 11),
        (1, 1, 4, 6, 6, 7, 2, 11, 11),
    ] {
        let lengths = Lengths {
            best,
            previous,
            buffer,
            place,
        };
        let mut lent = Lent::garbage(&mut Rng::new(6), lengths);
        assert_eq!(route(&mut lent, &net, from, to, tolerance), Err(one));
        assert_eq!(least_stress(&mut lent, &net, from, to), Err(other));
        assert!(lent.untouched());
    }
}

#[test]
fn no_segments() {
    let net = Town::new(2).bytes();
    let empty = Found {
        count: 0,
        length: 0,
        level: 1,
    };
    assert_eq!(judge_segment(&net, 0), Err(12));
    assert_eq!(judge_movement(&net, 0, 0), Err(12));
    for buffer in 0..3 {
        let at = |place| {
            let lengths = Lengths {
                buffer,
                place,
                ..Lengths::exact(0)
            };
            Lent::garbage(&mut Rng::new(3), lengths)
        };
        for place in 0..=buffer {
            let mut lent = at(place);
            for tolerance in 1..=4 {
                assert_eq!(route(&mut lent, &net, 0, 0, tolerance), Ok(Some(empty)));
                assert_eq!(route(&mut lent, &net, 1, 1, tolerance), Ok(Some(empty)));
                assert_eq!(route(&mut lent, &net, 0, 1, tolerance), Ok(None));
            }
            assert_eq!(least_stress(&mut lent, &net, 0, 0), Ok(Some((empty, 1))));
            assert_eq!(least_stress(&mut lent, &net, 0, 1), Ok(None));
            assert_eq!(route(&mut lent, &net, 0, 2, 1), Err(9));
            assert!(lent.untouched());
        }
        let mut beyond = at(buffer + 1);
        assert_eq!(route(&mut beyond, &net, 0, 0, 1), Err(11));
        assert_eq!(least_stress(&mut beyond, &net, 0, 0), Err(11));
        assert!(beyond.untouched());
    }
}

#[test]
fn noise() {
    let mut rng = Rng::new(9);
    for _ in 0..5_000 {
        let length = rng.below(100);
        let text: Vec<u8> = (0..length).map(|_| rng.bits() as u8).collect();
        let _ = full(&text);
        let text: Vec<u8> = (0..length).map(|_| rng.pick(b"000012AF\n")).collect();
        let _ = full(&text);
    }
}
