//! Every example that the paper prints, through the calls and the oracle.

mod search;

use oracle::Net;
use search::{least_stress, route};
use towns::draw::Rng;
use towns::lend::{Lengths, Lent};
use towns::town::{Approach, Segment, Town, block_town, end};
use towns::town::{BLOCKED, CENTRELINE, COUNTY, MEDIAN, NEWER, OLDER, RESIDENTIAL, TURN_LANE};
use twin::{Found, judge_movement, judge_segment, read};

/// Level and measure of one street of edition 01, checked with the oracle.
fn street(form: u8, lanes: u8, speed: u8, reach: u8, marks: u8) -> (u8, u8) {
    let segment = Segment::path(end(0, 2), end(1, 6), 500).street(form, lanes, speed, reach, marks);
    judged(OLDER, segment)
}

/// Level and measure of one street of edition 02, open so; edition 03 has the
/// same, at any length.
fn newer(ways: u8, form: u8, lanes: u8, speed: u8, reach: u8, marks: u8) -> (u8, u8) {
    let segment = Segment::path(end(0, 2), end(1, 6), 500).ways(ways);
    let street = segment.street(form, lanes, speed, reach, marks);
    let answer = judged(NEWER, street);
    let length = 264_000;
    assert_eq!(judged(COUNTY, Segment { length, ..street }), answer);
    answer
}

fn judged(edition: u8, segment: Segment) -> (u8, u8) {
    let net = Town::new(2).edition(edition).with(segment).bytes();
    let answer = judge_segment(&net, 0).expect("a network");
    assert_eq!(Net::parse(&net).expect("a network").segment(0), Ok(answer));
    answer
}

/// Levels straight on and onto the right-hand exit, with this approach.
fn approach(approach: Approach) -> (u8, u8) {
    approach_of(OLDER, approach)
}

/// The same in an edition.
fn approach_of(edition: u8, approach: Approach) -> (u8, u8) {
    let net = Town::new(4)
        .edition(edition)
        .with(Segment::path(end(0, 0), end(1, 4), 100).at_b(approach))
        .with(Segment::path(end(1, 0), end(2, 4), 100))
        .with(Segment::path(end(1, 3), end(3, 4), 100))
        .bytes();
    let answer = (
        judge_movement(&net, 0, 2).unwrap(),
        judge_movement(&net, 0, 4).unwrap(),
    );
    let oracle = Net::parse(&net).unwrap();
    assert_eq!(
        (oracle.movement(0, 2), oracle.movement(0, 4)),
        (Ok(answer.0), Ok(answer.1))
    );
    answer
}

fn crossing(control: u8, lanes: u8, speed: u8) -> u8 {
    let (straight, right) = approach(Approach::crossing(control, lanes, speed));
    assert_eq!(right, 1);
    straight
}

fn turn_lane(kind: u8, length: u16, speed: u8) -> u8 {
    let (straight, right) = approach(Approach::default().turning(kind, length, speed));
    assert_eq!(straight, right);
    right
}

#[test]
fn mixed_traffic() {
    assert_eq!(street(0, 2, 25, 0, 0), (1, 5));
    assert_eq!(street(0, 2, 25, 0, CENTRELINE), (2, 5));
    assert_eq!(street(0, 3, 25, 0, RESIDENTIAL), (2, 5));
    assert_eq!(street(0, 2, 26, 0, CENTRELINE), (3, 5));
    assert_eq!(street(0, 2, 31, 0, CENTRELINE), (4, 5));
}

#[test]
fn beside_parking() {
    assert_eq!(street(1, 1, 25, 27, 0), (3, 2));
    assert_eq!(street(1, 1, 25, 28, 0), (2, 2));
    assert_eq!(street(1, 1, 25, 30, 0), (1, 1));
}

/// Note 2 of document 02: below 25 mph, or residential, 27 and under gives 2;
/// the governing measure is chosen as before.
#[test]
fn quiet_streets_with_narrow_parking_lanes() {
    assert_eq!(street(1, 1, 24, 27, 0), (2, 2));
    assert_eq!(street(1, 1, 25, 27, RESIDENTIAL), (2, 2));
    assert_eq!(street(1, 1, 25, 27, CENTRELINE), (3, 2));
    assert_eq!(street(1, 1, 30, 0, RESIDENTIAL), (2, 2));
    assert_eq!(street(1, 1, 31, 27, RESIDENTIAL), (3, 3));
    assert_eq!(street(1, 1, 24, 27, BLOCKED), (3, 4));
    assert_eq!(street(1, 2, 24, 27, RESIDENTIAL), (3, 1));
    // Form 2 has no such footnote.
    assert_eq!(street(2, 1, 24, 11, RESIDENTIAL), (2, 2));
}

#[test]
fn without_parking() {
    assert_eq!(street(2, 2, 30, 12, MEDIAN), (2, 1));
    assert_eq!(street(2, 1, 35, 12, 0), (3, 3));
    assert_eq!(street(2, 1, 36, 12, 0), (4, 3));
}

#[test]
fn separate_path() {
    assert_eq!(street(3, 0, 0, 0, 0), (1, 6));
}

#[test]
fn crossings() {
    assert_eq!(crossing(3, 6, 25), 2);
    assert_eq!(crossing(4, 3, 25), 2);
    assert_eq!(crossing(4, 3, 26), 4);
    assert_eq!(crossing(2, 6, 30), 4);
    assert_eq!(
        approach(Approach {
            control: 1,
            ..Approach::default()
        }),
        (1, 1)
    );
}

#[test]
fn turn_lanes() {
    assert_eq!(turn_lane(3, 75, 15), 1);
    assert_eq!(turn_lane(3, 76, 15), 3);
    assert_eq!(turn_lane(3, 151, 15), 4);
}

/// "To 3 lanes: 1 or 2 to 25 mph, 2 or 3 at 26 to 30, else 4; the lower of a
/// pair exactly when .. 4 or 5 lanes: 3 to 25 mph, else 4. 6 or more: 4."
#[test]
fn mixed_traffic_as_written() {
    for speed in 5..=85u8 {
        for lanes in 1..=12u8 {
            for marks in 0..16u8 {
                let low = lanes <= 2 && (marks & RESIDENTIAL != 0 || marks & CENTRELINE == 0);
                let level = match (lanes, speed) {
                    (..=3, ..=25) => 2 - u8::from(low),
                    (..=3, 26..=30) => 3 - u8::from(low),
                    (4 | 5, ..=25) => 3,
                    _ => 4,
                };
                assert_eq!(street(0, lanes, speed, 0, marks), (level, 5));
            }
        }
    }
}

/// "Measure 1, lanes: one 1, more 3. Measure 2, reach: 30 and over 1, 28 or 29
/// 2, 27 and under 3", and by Note 2 "2 there for 27 and under". "Measure 3,
/// speed by band: 1, 2, 3, 4. Measure 4, blocked often 3, else 1."
#[test]
fn beside_parking_as_written() {
    for speed in 5..=85u8 {
        for (reach, marks) in (0..=60u8).flat_map(|reach| (0..16u8).map(move |m| (reach, m))) {
            let there = speed < 25 || marks & RESIDENTIAL != 0;
            for lanes in [1, 2, 12] {
                let four = [
                    if lanes == 1 { 1 } else { 3 },
                    match reach {
                        30.. => 1,
                        28 | 29 => 2,
                        ..=27 => 3 - u8::from(there),
                    },
                    1 + [25, 30, 35].iter().filter(|&&last| speed > last).count() as u8,
                    if marks & BLOCKED != 0 { 3 } else { 1 },
                ];
                let level = *four.iter().max().expect("four");
                let measure = 1 + four.iter().position(|&each| each == level).expect("one");
                assert_eq!(
                    street(1, lanes, speed, reach, marks),
                    (level, measure as u8)
                );
            }
        }
    }
}

/// Both ends of each band, every number of lanes.
#[test]
fn crossings_as_written() {
    let rows = [
        ([5, 25], "124", "112", "1224"),
        ([26, 30], "124", "123", "1244"),
        ([31, 35], "234", "234", "2444"),
        ([36, 85], "344", "344", "4444"),
    ];
    let digit = |text: &str, at: usize| text.as_bytes()[at] - b'0';
    for (speeds, no_island, island, one_way) in rows {
        for speed in speeds {
            for lanes in 1..=12u8 {
                let wide = usize::from(lanes > 3) + usize::from(lanes > 5);
                let lane = usize::from(lanes.min(4)) - 1;
                assert_eq!(crossing(2, lanes, speed), digit(no_island, wide));
                assert_eq!(crossing(3, lanes, speed), digit(island, wide));
                assert_eq!(crossing(4, lanes, speed), digit(one_way, lane));
            }
        }
    }
}

#[test]
fn turn_lanes_as_written() {
    for (kind, length, speed, level) in [
        (1, 1, 5, 2),
        (1, 150, 15, 2),
        (1, 151, 15, 3),
        (1, 150, 16, 3),
        (1, 2_000, 20, 3),
        (1, 1, 21, 4),
        (2, 2_000, 15, 3),
        (2, 1, 16, 4),
        (3, 1, 5, 1),
        (3, 75, 16, 4),
        (3, 150, 15, 3),
        (3, 150, 16, 4),
        (3, 151, 15, 4),
    ] {
        let answer = turn_lane(kind, length, speed);
        assert_eq!(answer, level, "{kind} {length} {speed}");
    }
}

/// The greater of turn lane and crossing, the turn lane alone to the right.
#[test]
fn both_on_one_approach() {
    let both = |kind, length, speed, control, lanes, mph| {
        approach(Approach::crossing(control, lanes, mph).turning(kind, length, speed))
    };
    assert_eq!(both(1, 100, 15, 2, 6, 25), (4, 2));
    assert_eq!(both(2, 100, 15, 2, 4, 25), (3, 3));
    assert_eq!(both(3, 200, 15, 3, 4, 25), (4, 4));
}

/// Note 5 of document 02, on streets open both ways: a turn lane in the middle
/// widens a reach, and the mixed level, at twice the lanes, is taken where it is
/// lower.
#[test]
fn newer_rules_both_ways() {
    assert_eq!(newer(3, 1, 1, 25, 27, 0), (1, 5));
    assert_eq!(newer(3, 1, 1, 25, 27, TURN_LANE), (1, 1));
    assert_eq!(newer(3, 2, 3, 25, 12, 0), (3, 1));
    assert_eq!(newer(3, 2, 1, 26, 12, BLOCKED | CENTRELINE), (3, 4));
    let calm = BLOCKED | CENTRELINE | RESIDENTIAL;
    assert_eq!(newer(3, 2, 1, 26, 12, calm), (2, 5));
    let marks = TURN_LANE | CENTRELINE;
    assert_eq!(newer(3, 1, 1, 26, 23, marks), (3, 2));
    assert_eq!(newer(3, 1, 1, 26, 24, marks), (2, 2));
    assert_eq!(newer(3, 1, 1, 26, 26, marks), (2, 3));
    // Form 2 from 8 half feet on.
    assert_eq!(newer(3, 2, 1, 26, 7, marks), (2, 2));
    assert_eq!(newer(3, 2, 1, 26, 8, marks), (1, 1));
    assert_eq!(newer(3, 1, 12, 25, 30, TURN_LANE), (3, 1), "24 lanes");
}

/// Open one way, nothing is widened, and the mixed level is looked up at the
/// street's own lanes.
#[test]
fn newer_rules_one_way() {
    for ways in [1, 2] {
        assert_eq!(newer(ways, 2, 3, 25, 12, 0), (2, 5));
        assert_eq!(newer(ways, 1, 1, 25, 27, TURN_LANE), (1, 5));
        assert_eq!(newer(ways, 1, 1, 26, 24, TURN_LANE | CENTRELINE), (3, 2));
        assert_eq!(newer(ways, 2, 1, 26, 8, TURN_LANE | CENTRELINE), (2, 2));
    }
}

/// Forms 0 and 3 keep their levels, the mark has no effect on form 0, and a
/// footnote of Note 2 holds for the reach as it is counted.
#[test]
fn newer_rules_elsewhere() {
    for (lanes, speed, marks) in [(2, 25, 0), (2, 25, CENTRELINE), (3, 26, 2), (4, 25, 0)] {
        let older = street(0, lanes, speed, 0, marks);
        for ways in 1..=3 {
            assert_eq!(newer(ways, 0, lanes, speed, 0, marks), older);
            assert_eq!(newer(ways, 0, lanes, speed, 0, marks | TURN_LANE), older);
        }
    }
    assert_eq!(newer(3, 3, 0, 0, 0, 0), (1, 6));
    // Residential, 30 mph and 23 + 4 half feet: 2 by the footnote.
    assert_eq!(newer(3, 1, 1, 30, 23, TURN_LANE | RESIDENTIAL), (2, 2));
    assert_eq!(newer(3, 1, 1, 31, 23, TURN_LANE | RESIDENTIAL), (3, 3));
}

/// The levels of edition 02 told by those of edition 01, as the note says it.
#[test]
fn newer_rules_as_written() {
    let reaches = [0, 7, 8, 11, 12, 23, 24, 25, 26, 27, 28, 29, 30, 60];
    for speed in [5, 24, 25, 26, 30, 31, 35, 36, 85] {
        for (ways, lanes) in (1..=3u8).flat_map(|ways| [1, 2, 3, 4, 6, 12].map(|l| (ways, l))) {
            for (reach, marks) in reaches.iter().flat_map(|&r| (0..32u8).map(move |m| (r, m))) {
                let (mark, others) = (marks & TURN_LANE, marks & !TURN_LANE);
                let widened = ways == 3 && lanes == 1 && mark != 0;
                let counts = reach + if widened { 4 } else { 0 };
                let through = if ways == 3 { 2 * lanes } else { lanes };
                // Beyond a frame's 12 lanes the table has nothing new.
                let mixed = street(0, through.min(12), speed, 0, others).0;
                for form in [1, 2] {
                    let own = street(form, lanes, speed, counts.min(60), others);
                    let must = if mixed < own.0 { (mixed, 5) } else { own };
                    assert_eq!(newer(ways, form, lanes, speed, reach, marks), must);
                }
            }
        }
    }
}

/// "Control 1 is level 4 and control 5 is level 1", onto the right-hand exit the
/// turn lane's level alone.
#[test]
fn signals() {
    let (plain, improved) = (Approach::signal(false), Approach::signal(true));
    let lane = |approach: Approach| approach.turning(1, 100, 15);
    assert_eq!(approach_of(OLDER, plain), (1, 1));
    assert_eq!(approach_of(OLDER, lane(plain)), (2, 2));
    for edition in [NEWER, COUNTY] {
        assert_eq!(approach_of(edition, plain), (4, 1));
        assert_eq!(approach_of(edition, lane(plain)), (4, 2));
        assert_eq!(approach_of(edition, improved), (1, 1));
        assert_eq!(approach_of(edition, lane(improved)), (2, 2));
        // Nothing else that is crossed has another level.
        for (control, lanes, speed) in [(0, 0, 0), (2, 6, 25), (3, 6, 25), (4, 3, 26)] {
            let crossing = Approach::crossing(control, lanes, speed);
            assert_eq!(approach_of(edition, crossing), approach(crossing));
        }
    }
}

/// What Block town's three segments need, from a place on, and five numbers
/// more.
fn lent(place: usize) -> Lent {
    let lengths = Lengths {
        buffer: 11,
        place,
        ..Lengths::exact(6)
    };
    Lent::garbage(&mut Rng::new(77), lengths)
}

/// A route's count, length and level.
fn found(count: usize, length: u32, level: u8) -> Found {
    Found {
        count,
        length,
        level,
    }
}

#[test]
fn block_town_at_each_tolerance() {
    let net = block_town().bytes();
    for tolerance in 1..=3 {
        let mut lent = lent(2);
        let answer = route(&mut lent, &net, 0, 2, tolerance);
        assert_eq!(answer, Ok(Some(found(3, 1_500, 1))));
        assert_eq!(lent.runs(3), [0, 2, 4]);
        assert!(lent.written(3));
    }
    let mut across = lent(0);
    let answer = route(&mut across, &net, 0, 2, 4);
    assert_eq!(answer, Ok(Some(found(2, 600, 4))));
    assert_eq!(across.runs(2), [0, 4]);
    assert!(across.written(2));

    let mut least = lent(5);
    let answer = least_stress(&mut least, &net, 0, 2);
    assert_eq!(answer, Ok(Some((found(3, 1_500, 1), 1))));
    assert_eq!(least.runs(3), [0, 2, 4]);
    assert!(least.written(3));

    // Back there is nothing to cross.
    let answer = least_stress(&mut lent(0), &net, 2, 0);
    assert_eq!(answer, Ok(Some((found(2, 600, 1), 1))));
}

/// The paper's two inputs of program levels, as bytes.
fn printed_inputs() -> (Vec<u8>, Vec<u8>) {
    let refused =
        b"010100020001FB\n0200000200010601f400030219000100000000000000000000000000000000E1 \n";
    let mut accepted = b"010100020001FB\n0200000200010601F4000302190001".to_vec();
    accepted.extend([b'0'; 28]);
    accepted.extend(b"E1\n");
    (refused.to_vec(), accepted)
}

#[test]
fn program_levels() {
    let (refused, accepted) = printed_inputs();
    let mut output = vec![9; twin::MAX_NETWORK];
    assert_eq!(read(&refused, &mut output), Err((1, 2)));
    assert_eq!(oracle::levels(&refused), "refused 1 2\n");
    assert!(output.iter().all(|&b| b == 9));
    assert_eq!(read(&accepted, &mut output), Ok(37));
    assert!(output[37..].iter().all(|&b| b == 9));
    assert_eq!(judge_segment(&output[..37], 0), Ok((2, 5)));
    assert_eq!(oracle::levels(&accepted), "0 2 5\n");
    // As the builder makes it.
    let town =
        Town::new(2).with(Segment::path(end(0, 2), end(1, 6), 500).street(0, 2, 25, 0, CENTRELINE));
    assert_eq!(town.text(), accepted);
    assert_eq!(town.bytes(), output[..37]);
}
