//! Edition 03 of Note 6 of document 02, by hand.

use oracle::{Net, Ways, read};
use towns::town::{Approach, COUNTY, NEWER, OLDER, Segment, Town};
use towns::town::{block_town, end, head_of, line};

/// What Read says of a text, and whether Read keeps what [`Net`] parses.
fn answer(frames: &[Vec<u8>]) -> Result<usize, (u8, usize)> {
    let text: Vec<u8> = frames.iter().flat_map(|frame| line(frame)).collect();
    let kept = read(&text, usize::MAX);
    assert_eq!(kept.is_ok(), Net::parse(&frames.concat()).is_some());
    kept.map(|kept| kept.len())
}

fn path(feet: u32) -> Segment {
    Segment::path(end(0, 2), end(1, 6), feet)
}

#[test]
fn counts_of_each_edition() {
    for (edition, nodes, segments, told) in [
        (OLDER, 1_000, 0, Ok(7)),
        (NEWER, 1_000, 0, Ok(7)),
        (OLDER, 1_001, 0, Err((4, 1))),
        (NEWER, 1_001, 0, Err((4, 1))),
        (NEWER, 1, 1_001, Err((4, 1))),
        (COUNTY, 0, 0, Err((4, 1))),
        (COUNTY, 1, 0, Ok(7)),
        (COUNTY, 1_001, 0, Ok(7)),
        (COUNTY, 8_000, 0, Ok(7)),
        (COUNTY, 8_000, 8_000, Err((5, 2))),
        (COUNTY, 8_001, 0, Err((4, 1))),
        (COUNTY, 1, 8_001, Err((4, 1))),
        (4, 1, 0, Err((4, 1))),
    ] {
        assert_eq!(answer(&[head_of(edition, nodes, segments)]), told);
    }
}

#[test]
fn lengths_of_each_edition() {
    for (edition, feet, told) in [
        (NEWER, 52_800, Ok(37)),
        (NEWER, 52_801, Err((4, 2))),
        (COUNTY, 0, Err((4, 2))),
        (COUNTY, 1, Ok(39)),
        (COUNTY, 65_535, Ok(39)),
        (COUNTY, 65_536, Ok(39)),
        (COUNTY, 264_000, Ok(39)),
        (COUNTY, 264_001, Err((4, 2))),
        (COUNTY, 1 << 24 | 1, Err((4, 2))),
        (COUNTY, u32::MAX, Err((4, 2))),
    ] {
        let frames = [head_of(edition, 2, 1), path(feet).frame_of(edition)];
        assert_eq!(answer(&frames), told, "{edition}: {feet}");
    }
}

/// A frame of the other width is 3: after 2, and before 5 and 4.
#[test]
fn widths_of_each_edition() {
    for edition in [OLDER, NEWER, COUNTY] {
        for of in [OLDER, NEWER, COUNTY] {
            let same = (edition == COUNTY) == (of == COUNTY);
            let told = answer(&[head_of(edition, 2, 1), path(9).frame_of(of)]);
            assert_eq!(told.is_ok(), same);
            assert_eq!(told.err(), (!same).then_some((3, 2)));
            let beyond = [head_of(edition, 2, 0), path(0).frame_of(of)];
            assert_eq!(answer(&beyond), Err((if same { 5 } else { 3 }, 2)));
            let mut wrong = path(9).frame_of(of);
            wrong[3] += 1;
            assert_eq!(answer(&[head_of(edition, 2, 1), wrong]), Err((2, 2)));
        }
    }
}

/// A frame of edition 03, byte by byte.
#[test]
fn a_frame_by_hand() {
    let head = "010300020001F9\n";
    let street = ["02000002000106", "00040100", "000302190001", "D1\n"];
    let zeros = "0".repeat(28);
    let [ends, feet, traffic, check] = street;
    let digits = [head, ends, feet, traffic, &zeros, check]
        .concat()
        .into_bytes();
    let kept = read(&digits, 39).expect("a network");
    assert_eq!(kept[7 + 7..7 + 11], [0, 4, 1, 0]);
    assert_eq!(read(&digits, 38), Err((7, 1)));
    let net = Net::parse(&kept).expect("a network");
    // Mixed traffic at two lanes is level 2 with a marked centreline.
    assert_eq!(net.segment(0), Ok((2, 5)));
    assert_eq!(Ways::over(net).route(0, 1, 2), Ok(Some(0x4_0100)));
}

/// Block town with streets of 200,000 feet: no length is cut.
#[test]
fn block_town_of_a_county() {
    let mut town = block_town().edition(COUNTY);
    for street in &mut town.segments {
        street.length = 200_000;
    }
    let mut ways = Ways::over(Net::parse(&town.bytes()).expect("a network"));
    assert_eq!(ways.route(0, 2, 3), Ok(Some(600_000)));
    assert_eq!(ways.least_stress(0, 2), Ok(Some((600_000, 1))));
    assert_eq!(ways.route(0, 2, 4), Ok(Some(400_000)));
    let map = ways.reach_map(0, 4, 399_999, 6);
    assert_eq!(map, Ok(vec![(0, 0), (1, 200_000)]));
    assert_eq!(ways.nearest(0, 3, &[0, 0, 1]), Ok(Some((2, 600_000))));
}

/// The longest route that a county of two kinds of street has: out by all of a
/// chain, round a loop, and back, as long as 32 bits hold and 31 do not.
#[test]
fn out_and_back() {
    const MOST: u32 = 264_000;
    let hard = Approach::crossing(2, 6, 40);
    let last = 7_998;
    let mut county = Town::new(8_000)
        .edition(COUNTY)
        .with(Segment::path(end(0, 0), end(1, 4), MOST).at_b(hard))
        .with(Segment::path(end(1, 6), end(7_999, 0), MOST))
        .with(Segment::path(end(last, 2), end(last, 0), MOST));
    for node in 1..last {
        let next = Segment::path(end(node, 0), end(node + 1, 4), MOST);
        county.segments.push(next);
    }
    assert_eq!(county.segments.len(), 8_000);
    let mut ways = Ways::over(Net::parse(&county.bytes()).expect("a network"));
    let runs = 1 + 2 * 7_997 + 1 + 1;
    assert_eq!(ways.route(0, 7_999, 3), Ok(Some(runs * MOST)));
    assert_eq!(ways.route(0, 7_999, 4), Ok(Some(2 * MOST)));
    assert!(runs * MOST > 1 << 31);
}
