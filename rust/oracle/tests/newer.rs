//! The newer rules of Note 5 of document 02, by hand; edition 03 has them too.

use oracle::{Net, levels, read};
use towns::town::{Approach, COUNTY, NEWER, OLDER, Segment, Town, end};
use towns::town::{BLOCKED, CENTRELINE, RESIDENTIAL, TURN_LANE};

/// A street from node 0 to node 1.
fn street(ways: u8, form: u8, [lanes, speed, reach, marks]: [u8; 4]) -> Segment {
    let path = Segment::path(end(0, 2), end(1, 6), 500).ways(ways);
    path.street(form, lanes, speed, reach, marks)
}

/// Level and measure of a street, if its town is a network of the edition.
fn judge(edition: u8, street: Segment) -> Option<(u8, u8)> {
    let town = Town::new(2).edition(edition).with(street);
    let kept = read(&town.text(), usize::MAX);
    assert_eq!(kept.as_ref().err(), kept.is_err().then_some(&(4, 2)));
    assert_eq!(kept.is_ok(), Net::parse(&town.bytes()).is_some());
    let net = Net::parse(&kept.ok()?)?;
    Some(net.segment(0).expect("one segment"))
}

#[test]
fn streets() {
    let narrow = CENTRELINE | TURN_LANE;
    for (ways, form, fields, older, newer) in [
        (3, 1, [1, 25, 27, 0], Some((3, 2)), (1, 5)),
        (3, 1, [1, 25, 27, TURN_LANE], None, (1, 1)),
        (1, 2, [3, 25, 12, 0], Some((3, 1)), (2, 5)),
        (2, 2, [3, 25, 12, 0], Some((3, 1)), (2, 5)),
        (3, 2, [3, 25, 12, 0], Some((3, 1)), (3, 1)),
        (
            3,
            2,
            [1, 26, 12, BLOCKED | CENTRELINE],
            Some((3, 4)),
            (3, 4),
        ),
        (
            3,
            2,
            [1, 26, 12, BLOCKED | CENTRELINE | RESIDENTIAL],
            Some((3, 4)),
            (2, 5),
        ),
        (3, 1, [1, 26, 23, narrow], None, (3, 2)),
        (3, 1, [1, 26, 24, narrow], None, (2, 2)),
        (3, 1, [1, 26, 26, narrow], None, (2, 3)),
        (1, 1, [1, 26, 24, narrow], None, (3, 2)),
        (3, 2, [1, 26, 8, narrow], None, (1, 1)),
        (2, 2, [1, 26, 8, narrow], None, (2, 2)),
        (3, 0, [2, 25, 0, CENTRELINE], Some((2, 5)), (2, 5)),
        (3, 0, [2, 25, 0, CENTRELINE | TURN_LANE], None, (2, 5)),
    ] {
        let street = street(ways, form, fields);
        assert_eq!(judge(OLDER, street), older, "{street:?}");
        for edition in [NEWER, COUNTY] {
            assert_eq!(judge(edition, street), Some(newer), "{street:?}");
        }
    }
}

#[test]
fn values_of_no_edition() {
    let path = Segment::path(end(0, 2), end(1, 6), 500);
    let fault = |control, lanes, speed| path.at_a(Approach::crossing(control, lanes, speed));
    for street in [
        street(3, 1, [1, 25, 27, 32]),
        street(3, 0, [1, 25, 0, 63]),
        street(3, 3, [0, 0, 0, TURN_LANE]),
        fault(6, 0, 0),
        fault(6, 2, 25),
        fault(5, 2, 25),
        fault(5, 0, 5),
        fault(5, 1, 0),
    ] {
        for edition in [OLDER, NEWER, COUNTY] {
            assert_eq!(judge(edition, street), None, "{street:?}");
        }
    }
    for edition in [0, 4, 255] {
        let text = Town::new(2).edition(edition).with(path).text();
        assert_eq!(levels(&text), "refused 4 1\n");
    }
}

/// Straight on, and onto the right-hand exit.
#[test]
fn signals() {
    let levels = |edition: u8, approach: Approach| {
        let net = Town::new(4)
            .edition(edition)
            .with(Segment::path(end(0, 0), end(1, 4), 100).at_b(approach))
            .with(Segment::path(end(1, 0), end(2, 4), 100))
            .with(Segment::path(end(1, 3), end(3, 4), 100));
        let net = Net::parse(&net.bytes())?;
        Some([2, 4].map(|run| net.movement(0, run).expect("a movement")))
    };
    for (improved, older, newer) in [(false, Some([1, 1]), [4, 1]), (true, None, [1, 1])] {
        let signal = Approach::signal(improved);
        assert_eq!(levels(OLDER, signal), older);
        let [straight, _] = newer;
        let lane = signal.turning(2, 100, 15);
        for edition in [NEWER, COUNTY] {
            assert_eq!(levels(edition, signal), Some(newer));
            assert_eq!(levels(edition, lane), Some([straight.max(3), 3]));
        }
    }
}
