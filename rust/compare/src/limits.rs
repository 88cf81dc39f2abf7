//! What is asked at the limits that editions have for sizes: counts of a head,
//! lengths, the width of a frame.

use crate::editions::{both_say, of, older};
use crate::question::Question;
use crate::rounds::{Done, Subject, pair};
use crate::{Comparer, lines, moves};
use oracle::Net;
use towns::draw::Rng;
use towns::edition::EDITIONS;
use towns::sizes::{
    HEAD, MOST_BYTES, length_bytes, most_feet, most_nodes, most_segments, segment_bytes,
};
use towns::town::{COUNTY, NEWER, head_of, text_of};

/// Counts that a head is asked with.
const COUNTS: [u16; 7] = [0, 1, 1_000, 1_001, 8_000, 8_001, u16::MAX];

/// What a head counts.
const COUNTED: [&str; 2] = ["N", "S"];

fn count_case(counted: &str, count: u16, [read, judge]: [u32; 2]) -> String {
    format!("a head of {counted} {count}: Read says {read}, Judge a segment {judge}")
}

/// What the papers say of a head alone with such a count.
fn says_of_count(edition: u8, counted: &str, count: u16) -> [u32; 2] {
    let count = usize::from(count);
    match counted {
        "N" if count == 0 || count > most_nodes(edition) => [4, 8],
        "N" => [0, 12],
        _ if count == 0 => [0, 12],
        _ if count > most_segments(edition) => [4, 8],
        _ => [5, 8],
    }
}

/// A head without segments, two counts of it by turns in every edition.
pub fn heads(comparer: &mut Comparer<'_>, rng: &mut Rng) -> Done {
    for edition in EDITIONS {
        let (counted, count) = (rng.pick(&COUNTED), rng.pick(&COUNTS));
        let (nodes, segments) = if counted == "N" {
            (count, 0)
        } else {
            (1, count)
        };
        let head = head_of(edition, nodes, segments);
        // Enough where the head is in order.
        let room = (HEAD + segment_bytes(edition) * usize::from(segments)).min(MOST_BYTES);
        let net = Net::parse(&head);
        let read = lines::text(comparer, rng, &text_of(std::slice::from_ref(&head)), room)?;
        let question = Question::Segment { segment: 0 };
        let judge = comparer.compare(rng, net.as_ref(), &head, question)?;
        let case = count_case(counted, count, [read, judge.number]);
        comparer.reached.count(of(edition, &case));
        let kinds = if segments == 0 {
            &moves::ROOMS[..]
        } else {
            &["0"]
        };
        moves::asked(comparer, rng, &head, kinds)?;
    }
    Ok(())
}

/// Lengths on either side of what an edition allows, and of what its bytes tell
/// apart.
const LENGTHS: [(&str, [u32; 6]); 6] = [
    ("0", [0; 6]),
    ("to 52,800", [1, 2, 255, 256, 52_799, 52_800]),
    (
        "to 65,535",
        [52_801, 52_802, 60_000, 65_000, 65_534, 65_535],
    ),
    (
        "to 264,000",
        [65_536, 65_537, 131_072, 196_608, 263_999, 264_000],
    ),
    (
        "of low bytes that would do",
        [
            264_000 + 65_536,
            (5 << 16) | 500,
            (1 << 24) | 500,
            (1 << 31) | 500,
            500 << 16,
            u32::MAX - 65_000,
        ],
    ),
    (
        "over 264,000",
        [264_001, 264_002, 1 << 24, 1 << 31, u32::MAX, u32::MAX - 1],
    ),
];

fn length_case(kind: &str, [read, judge]: [u32; 2]) -> String {
    format!("a length {kind}: Read says {read}, Judge a segment {judge}")
}

/// Whether the bytes of an edition's length hold so many feet.
fn holds(edition: u8, feet: u32) -> bool {
    length_bytes(edition) == 4 || feet < 1 << 16
}

/// A street of the town in each edition with a length of each kind; the ends of
/// those that edition 03 alone has, as a pair.
pub fn lengths(comparer: &mut Comparer<'_>, rng: &mut Rng, subject: &Subject) -> Done {
    let Some(plain) = older(subject.town.clone()).filter(|town| !town.segments.is_empty()) else {
        return Ok(());
    };
    for (kind, numbers) in LENGTHS {
        let segment = rng.below(plain.segments.len());
        let feet = rng.pick(&numbers);
        for edition in EDITIONS.into_iter().filter(|&e| holds(e, feet)) {
            let mut town = plain.clone().edition(edition);
            town.segments[segment].length = feet;
            let street = town.segments[segment];
            let said = both_say(comparer, rng, town.clone(), segment)?;
            comparer
                .reached
                .count(of(edition, &length_case(kind, said)));
            if edition == COUNTY && said == [0, 0] {
                let [from, to] = [street.a, street.b].map(|end| usize::from(end.node));
                pair(comparer, rng, &Subject::new(town), from, to)?;
            }
        }
    }
    Ok(())
}

fn width_case(bytes: usize, [read, judge]: [u32; 2]) -> String {
    format!("frames of {bytes} bytes: Read says {read}, Judge a segment {judge}")
}

/// The town's segments in frames of each width under the head of each edition; and
/// under a head that names none.
pub fn widths(comparer: &mut Comparer<'_>, rng: &mut Rng, subject: &Subject) -> Done {
    let Some(plain) = older(subject.town.clone()).filter(|town| !town.segments.is_empty()) else {
        return Ok(());
    };
    for (edition, width) in WIDTHS {
        let mut frames = plain.clone().edition(width).frames();
        frames[0] = head_of(edition, plain.nodes, plain.segments.len() as u16);
        let (text, bytes) = (text_of(&frames), frames.concat());
        let read = lines::text(comparer, rng, &text, bytes.len() + 2 * frames.len())?;
        let question = Question::Segment { segment: 0 };
        let net = Net::parse(&bytes);
        let judge = comparer.compare(rng, net.as_ref(), &bytes, question)?;
        let case = width_case(segment_bytes(width), [read, judge.number]);
        comparer.reached.count(of(edition, &case));
        moves::asked_twice(comparer, rng, &bytes)?;
    }
    Ok(())
}

/// A head's edition, and one of which the frames are.
const WIDTHS: [(u8, u8); 8] = [
    (1, NEWER),
    (1, COUNTY),
    (2, NEWER),
    (2, COUNTY),
    (3, NEWER),
    (3, COUNTY),
    (4, NEWER),
    (4, COUNTY),
];

/// What the papers say of frames of one edition's width under a head of another.
fn says_of_width(edition: u8, width: u8) -> [u32; 2] {
    match edition {
        4 => [4, 8],
        _ if segment_bytes(edition) == segment_bytes(width) => [0, 0],
        _ => [3, 8],
    }
}

/// Everything that comparisons have to show of these limits.
pub fn must_show() -> Vec<String> {
    let mut all = Vec::new();
    for edition in EDITIONS {
        for (counted, count) in COUNTED.iter().flat_map(|c| COUNTS.map(|count| (c, count))) {
            let said = says_of_count(edition, counted, count);
            all.push(of(edition, &count_case(counted, count, said)));
        }
        for (kind, numbers) in LENGTHS {
            let feet = numbers[0];
            let said = if (1..=most_feet(edition)).contains(&feet) {
                [0, 0]
            } else {
                [4, 8]
            };
            let case = of(edition, &length_case(kind, said));
            all.extend(holds(edition, feet).then_some(case));
        }
    }
    for (edition, width) in WIDTHS {
        let said = says_of_width(edition, width);
        all.push(of(edition, &width_case(segment_bytes(width), said)));
    }
    all
}
