//! Reach map and Nearest of a town whose lengths are known.

use oracle::{Net, Ways};
use towns::town::block_town;

fn block() -> Ways {
    Ways::over(Net::parse(&block_town().bytes()).expect("a network"))
}

#[test]
fn maps_of_block_town() {
    let round = [(0, 0), (1, 300), (2, 1_500)];
    let across = [(0, 0), (1, 300), (2, 600)];
    for (tolerance, greatest, entries) in [
        (3, 1_500, &round[..]),
        (3, 1_499, &round[..2]),
        (4, 600, &across),
        (4, 599, &across[..2]),
        (4, 0, &across[..1]),
        (4, usize::MAX, &across),
    ] {
        let map = block().reach_map(0, tolerance, greatest, 6);
        assert_eq!(map.as_deref(), Ok(entries));
    }
}

#[test]
fn nearest_of_block_town() {
    for (tolerance, marks, nearest) in [
        (3, [0, 0, 1], Some((2, 1_500))),
        (4, [0, 0, 255], Some((2, 600))),
        (4, [0, 2, 1], Some((1, 300))),
        (4, [1, 1, 1], Some((0, 0))),
        (4, [0, 0, 0], None),
    ] {
        assert_eq!(block().nearest(0, tolerance, &marks), Ok(nearest));
    }
    // Both as far as each other.
    assert_eq!(block().nearest(1, 4, &[1, 0, 1]), Ok(Some((0, 300))));
}

#[test]
fn refusals() {
    for (from, tolerance, entries, number) in [
        (3, 0, 0, 9),
        (usize::MAX, 4, 3, 9),
        (0, 0, 0, 10),
        (0, 5, 3, 10),
        (0, 4, 0, 15),
        (2, 1, 2, 15),
    ] {
        let map = block().reach_map(from, tolerance, 0, 2 * entries);
        assert_eq!(map, Err(number));
        let marks = vec![1; entries];
        assert_eq!(block().nearest(from, tolerance, &marks), Err(number));
    }
    assert_eq!(block().reach_map(0, 4, 0, 5), Err(15));
}
