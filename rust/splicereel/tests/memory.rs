//! What the owned calls allocate follows from the network's own size: nothing
//! about a town is as large as a county.

use splicereel::{Level, Network};
use std::alloc::{GlobalAlloc, Layout, System};
use std::cell::Cell;

/// The system's allocator, which keeps the size of each thread's largest block.
struct Watched;

thread_local! {
    static LARGEST: Cell<usize> = const { Cell::new(0) };
}

// SAFETY: every call goes on to the system's allocator as it came.
unsafe impl GlobalAlloc for Watched {
    unsafe fn alloc(&self, layout: Layout) -> *mut u8 {
        LARGEST.set(LARGEST.get().max(layout.size()));
        unsafe { System.alloc(layout) }
    }

    unsafe fn dealloc(&self, block: *mut u8, layout: Layout) {
        unsafe { System.dealloc(block, layout) }
    }
}

#[global_allocator]
static WATCHED: Watched = Watched;

/// What a call gives, and the bytes of the largest block that it allocated.
fn watched<T>(call: impl FnOnce() -> T) -> (T, usize) {
    LARGEST.set(0);
    let given = call();
    (given, LARGEST.get())
}

/// With N nodes and S segments: 32 bytes for a segment and a head, 8 for each
/// run's numbers, 16 for each entry of a map, and of a moved network its bytes.
#[test]
fn a_town_allocates_by_its_own_size() {
    let text: &[u8] = include_bytes!("../../../towns/block-town.txt");
    let (network, most) = watched(|| Network::read(text).expect("Block town"));
    assert_eq!((network.nodes(), network.segments()), (3, 3));
    assert_eq!(most, 7 + 32 * 3);
    // The head alone, which counts three segments that are missing.
    let (refused, most) = watched(|| Network::read(&text[..15]).is_err());
    assert!(refused && most == 7 + 32 * 3, "{most}");
    let (route, most) = watched(|| network.route(0, 2, Level::Four));
    assert!(route.is_ok() && most <= 8 * 6, "{most}");
    let (route, most) = watched(|| network.least_stress(0, 2));
    assert!(route.is_ok() && most <= 8 * 6, "{most}");
    let (map, most) = watched(|| network.reach_map(0, Level::Four, usize::MAX));
    assert!(map.is_ok() && most <= 16 * 4, "{most}");
    let (found, most) = watched(|| network.nearest(0, Level::Four, [2]));
    assert!(found.is_ok() && most <= 8 * 6, "{most}");
    let newer = b"010200020001FA\n0200000200010601F4010301191A020000000000000000000000000000C6\n";
    let newer = Network::read(newer).expect("a street");
    let (county, most) = watched(|| newer.to_county().expect("a move"));
    assert_eq!(most, 7 + 32);
    let (town, most) = watched(|| county.to_town());
    assert!(town == Ok(newer) && most == 7 + 30, "{most}");
    let (_, most) = watched(|| [network.judge_segment(0).is_ok(); 2]);
    assert_eq!(most, 0);
    let (_, most) = watched(|| Network::refused_line(text).is_none());
    assert_eq!(most, 0);
}
