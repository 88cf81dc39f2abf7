//! Move up and Move back by hand.

use oracle::{move_back, move_up, read};
use towns::town::{COUNTY, NEWER, OLDER, Segment, Town, block_town, end};

/// Block town of edition 02, and the same of edition 03: two bytes 0 before each
/// length, and one less in the head's check.
const BLOCK: [&str; 2] = [
    "010200030003F7\n\
     02000000000104012C03030000000002061E0000000000000000000000A0\n\
     020001020001060384030300000000000000000000000000000000000067\n\
     02000100000204012C0303000000000000000000000000000000000000C4\n",
    "010300030003F6\n\
     020000000001040000012C03030000000002061E0000000000000000000000A0\n\
     0200010200010600000384030300000000000000000000000000000000000067\n\
     020001000002040000012C0303000000000000000000000000000000000000C4\n",
];

#[test]
fn block_town_up_and_back() {
    let [newer, county] = BLOCK.map(|text| read(text.as_bytes(), 200).expect("a network"));
    assert_eq!((newer.len(), county.len()), (97, 103));
    assert_eq!(newer, block_town().edition(NEWER).bytes());
    assert_eq!(county, block_town().edition(COUNTY).bytes());
    for room in [103, 104, usize::MAX] {
        assert_eq!(move_up(&newer, room).as_ref(), Ok(&county));
    }
    for room in [97, 98, usize::MAX] {
        assert_eq!(move_back(&county, room).as_ref(), Ok(&newer));
    }
    for room in [0, 7, 96] {
        assert_eq!(move_up(&newer, room), Err(18));
        assert_eq!(move_back(&county, room), Err(18));
    }
    assert_eq!(move_up(&newer, 102), Err(18));
}

/// What each way says of a network, with so much room.
fn both(net: &[u8], room: usize) -> [Result<usize, u8>; 2] {
    [move_up(net, room), move_back(net, room)].map(|moved| moved.map(|bytes| bytes.len()))
}

#[test]
fn editions() {
    let town = |edition| block_town().edition(edition).bytes();
    for room in [0, 200] {
        assert_eq!(both(&town(OLDER), room), [Err(16), Err(16)]);
        for edition in [0, 4, 255] {
            assert_eq!(both(&town(edition), room), [Err(8), Err(8)]);
        }
    }
    assert_eq!(both(&town(NEWER), 200), [Ok(103), Err(16)]);
    assert_eq!(both(&town(COUNTY), 200), [Err(16), Ok(97)]);
    assert_eq!(both(&town(NEWER)[..96], 0), [Err(8), Err(8)]);
    assert_eq!(both(&town(COUNTY)[..102], 0), [Err(8), Err(8)]);
    assert_eq!(both(&[], 0), [Err(8), Err(8)]);
}

/// A town of edition 03 that is as large as edition 02 allows, and what is a
/// little larger.
#[test]
fn limits() {
    let path = |s: u16, feet| {
        let (node, leg) = (s / 4, s as u8 % 4);
        Segment::path(end(node, leg), end(node, leg + 4), feet)
    };
    let county = |nodes, segments: u16, longest| {
        let mut town = Town::new(nodes).edition(COUNTY);
        town.segments = (0..segments).map(|s| path(s, 52_800)).collect();
        if let Some(street) = town.segments.last_mut() {
            street.length = longest;
        }
        town.bytes()
    };
    let large = county(1_000, 1_000, 52_800);
    assert_eq!(both(&large, 30_007), [Err(16), Ok(30_007)]);
    assert_eq!(both(&large, 30_006), [Err(16), Err(18)]);
    let kept = move_back(&large, usize::MAX).expect("a network");
    assert_eq!(move_up(&kept, 32_007).as_ref(), Ok(&large));
    assert_eq!(move_up(&kept, 32_006), Err(18));
    assert_eq!(both(&county(1_000, 0, 0), 7), [Err(16), Ok(7)]);
    for above in [
        county(1_001, 1_000, 52_800),
        county(1_000, 1_001, 52_800),
        county(1_000, 1_000, 52_801),
        county(1_001, 0, 0),
        county(8_000, 8_000, 264_000),
        county(1, 1, 65_536),
    ] {
        for room in [0, usize::MAX] {
            assert_eq!(both(&above, room), [Err(16), Err(17)]);
        }
    }
}
