//! Move up and Move back against the oracle, with what is lent between guards.

use towns::draw::{Rng, Shape, damage_kept, town_of};
use towns::edition::EDITIONS;
use towns::lend::Guarded;
use towns::sizes::{HEAD, most_feet, most_nodes, most_segments, segment_bytes};
use towns::town::{COUNTY, NEWER, longest_chain};

/// What a move wrote, or its refusal.
type Moved = Result<Vec<u8>, u8>;

/// Moves into an output of so many bytes, here and by the oracle; tests what the
/// output keeps.
fn answer(net: &[u8], to: u8, room: usize) -> Moved {
    let mut output: Guarded<u8> = Guarded::garbage(&mut Rng::new(room as u64), room);
    let (here, slow) = match to {
        COUNTY => (
            twin::move_up(net, output.lend()),
            oracle::move_up(net, room),
        ),
        _ => (
            twin::move_back(net, output.lend()),
            oracle::move_back(net, room),
        ),
    };
    assert_eq!(here, slow.as_ref().map(Vec::len).map_err(|&number| number));
    let written = slow.as_ref().map_or(&[][..], |bytes| bytes);
    assert!(output.untouched_but(0, written.len()));
    assert_eq!(output.now().get(..written.len()), Some(written));
    slow
}

/// Both ways with as much room as is needed, a byte less, more and none.
fn answers(net: &[u8]) -> [Moved; 2] {
    [COUNTY, NEWER].map(|to| {
        let counted = net
            .get(4..6)
            .map_or(0, |s| usize::from(s[0]) << 8 | usize::from(s[1]));
        let exact = HEAD + segment_bytes(to) * counted;
        for room in [0, exact - 1] {
            assert!(answer(net, to, room).is_err());
        }
        let moved = answer(net, to, exact);
        assert_eq!(answer(net, to, exact + 5), moved);
        moved
    })
}

#[test]
fn towns_of_each_edition() {
    let mut rng = Rng::new(12);
    let mut met = [0; 19];
    for seed in 0..4_000 {
        let shape = Shape::ALL[seed as usize % Shape::ALL.len()];
        let town = town_of(rng.pick(&EDITIONS), shape, seed, rng.range(0, 40));
        for net in [town.bytes(), damage_kept(&mut rng, &town)] {
            for moved in answers(&net) {
                met[moved.map_or_else(usize::from, |_| 0)] += 1;
            }
        }
        if usize::from(town.nodes) <= most_nodes(NEWER) {
            let newer = town.shortened(NEWER).edition(NEWER);
            let (kept, county) = (newer.bytes(), newer.edition(COUNTY).bytes());
            assert_eq!(answers(&kept), [Ok(county.clone()), Err(16)]);
            assert_eq!(answers(&county), [Err(16), Ok(kept)]);
        }
    }
    assert!(
        [0, 8, 16, 17].iter().all(|&n: &usize| met[n] > 500),
        "{met:?}"
    );
}

/// As large as edition 02 allows, and larger by a node, a segment or a foot.
#[test]
fn the_largest() {
    let most = (most_nodes(NEWER) as u16, most_segments(NEWER));
    let ring = town_of(COUNTY, Shape::Ring, 3, most.1 + 1);
    assert!(ring.nodes > most.0 && ring.segments.len() > most.1);
    let mut star = town_of(COUNTY, Shape::Star, 3, most.1 + 4);
    star.segments.truncate(most.1 + 1);
    assert!(star.nodes < most.0 && star.segments.len() > most.1);
    for larger in [ring, star] {
        let larger = larger.shortened(NEWER);
        assert_eq!(answers(&larger.bytes()), [Err(16), Err(17)]);
    }

    let mut ring = town_of(NEWER, Shape::Ring, 3, most.1);
    assert_eq!((ring.nodes, ring.segments.len()), most);
    ring.segments
        .iter_mut()
        .for_each(|street| street.length = most_feet(NEWER));
    let kept = ring.bytes();
    ring.edition = COUNTY;
    assert_eq!(answers(&kept), [Ok(ring.bytes()), Err(16)]);
    assert_eq!(answers(&ring.bytes()), [Err(16), Ok(kept)]);
    ring.nodes += 1;
    assert_eq!(answers(&ring.bytes()), [Err(16), Err(17)]);
    ring.nodes -= 1;
    for place in [0, 500, most.1 - 1] {
        for feet in [52_801, 65_535, 65_536, 264_000] {
            let mut ring = ring.clone();
            ring.segments[place].length = feet;
            assert_eq!(answers(&ring.bytes()), [Err(16), Err(17)]);
        }
    }
    assert_eq!(answers(&longest_chain(COUNTY).bytes()), [Err(16), Err(17)]);
}
