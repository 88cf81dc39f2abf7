//! Inputs of programs `levels` and `examples_refused`.

use crate::{Folder, nodes_alone};
use oracle::MOST_INPUT;
use std::io;
use towns::draw::{self, Rng, Shape, Spot, damage};
use towns::sizes::{COUNTY_SEGMENTS, MOST_SEGMENTS};
use towns::town::{
    Approach, CENTRELINE, COUNTY, IMPROVED_SIGNAL, NEWER, OLDER, SIGNAL, Segment, TURN_LANE, Town,
    block_town, check, end, head, head_of, line,
};

pub fn write(out: &Folder) -> io::Result<()> {
    let printed = Town::new(2)
        .with(Segment::path(end(0, 2), end(1, 6), 500).street(0, 2, 25, 0, CENTRELINE))
        .text();
    out.put("printed-accepted", &printed)?;
    let refused =
        b"010100020001FB\n0200000200010601f400030219000100000000000000000000000000000000E1 \n";
    out.refused("printed-refused", refused, 1, 2)?;
    ends_of_texts(out, &printed)?;
    inner_lines(out)?;
    order_within_a_line(out)?;
    each_number(out)?;
    two_editions(out)?;
    counties(out)?;
    sizes_of_counties(out)?;
    let thousand = whole_towns(out)?;
    round_the_limit(out, &thousand)?;
    round_the_limit_of_counties(out)
}

impl Folder {
    /// An input that is made to be refused with the number and at the line.
    fn refused(&self, name: &str, input: &[u8], number: u8, line: usize) -> io::Result<()> {
        let meant = format!("refused {number} {line}\n");
        assert_eq!(oracle::levels(input), meant, "{name}");
        self.put(name, input)
    }
}

fn ends_of_texts(out: &Folder, printed: &[u8]) -> io::Result<()> {
    let and = |more: &[u8]| [printed, more].concat();
    let empty = Town::new(1).text();
    out.put("s0-n1", &empty)?;
    out.put("s0-n1000", &nodes_alone().text())?;
    for (name, input, number, line) in [
        ("empty", Vec::new(), 3, 1),
        ("only-0a", b"\n".to_vec(), 1, 1),
        ("s0-no-final-0a", empty[..14].to_vec(), 1, 1),
        ("no-final-0a", printed[..printed.len() - 1].to_vec(), 1, 2),
        ("two-final-0a", and(b"\n"), 1, 3),
        ("byte-after", and(b"0"), 1, 3),
        ("zero-byte-line-after", and(b"00\n"), 3, 3),
        ("head-after", and(&printed[..15]), 3, 3),
        ("segment-after", and(&printed[15..]), 5, 3),
        ("head-only", printed[..15].to_vec(), 5, 2),
        ("carriage-returns", carriage_returns(printed), 1, 1),
        (
            "s0-segment-after",
            [&empty[..], &printed[15..]].concat(),
            5,
            2,
        ),
    ] {
        out.refused(name, &input, number, line)?;
    }
    Ok(())
}

/// Lines between others that are empty or end with a carriage return, and
/// segments missing after some.
fn inner_lines(out: &Folder) -> io::Result<()> {
    let block = block_town().text();
    let with = |more: &[u8], at: usize| [&block[..at], more, &block[at..]].concat();
    out.refused("empty-line-inside", &with(b"\n", 76), 1, 3)?;
    out.refused("carriage-return-inside", &with(b"\r", 136), 1, 3)?;
    out.refused("last-segment-missing", &block[..137], 5, 4)
}

fn carriage_returns(text: &[u8]) -> Vec<u8> {
    text.iter()
        .flat_map(|&b| if b == b'\n' { vec![b'\r', b] } else { vec![b] })
        .collect()
}

/// Each line has the lower-ranked faults as well.
fn order_within_a_line(out: &Folder) -> io::Result<()> {
    let first = Segment::path(end(0, 0), end(1, 0), 100).frame();
    let with =
        |segments: u16, last: &[u8]| [line(&head(2, segments)), line(&first), line(last)].concat();
    let own = Segment::path(end(1, 5), end(1, 5), 9).frame();
    out.refused("order-6-own", &with(2, &own), 6, 3)?;
    let mut bad = Segment::path(end(0, 0), end(1, 1), 100);
    out.refused("order-6", &with(2, &bad.frame()), 6, 3)?;
    bad.speed = 200;
    out.refused("order-4-6", &with(2, &bad.frame()), 4, 3)?;
    out.refused("order-5-4-6", &with(1, &bad.frame()), 5, 3)?;
    let mut frame = bad.frame();
    frame[0] = 1;
    draw::seal(&mut frame);
    out.refused("order-3-5-4-6", &with(1, &frame), 3, 3)?;
    frame[29] ^= 0x40;
    let mut text = with(1, &frame);
    out.refused("order-2-3-5-4-6", &text, 2, 3)?;
    let at = text.len() - 10;
    text[at] = b'g';
    out.refused("order-1-2-3-5-4-6", &text, 1, 3)?;
    let mut edition = vec![1, 4, 0, 0, 9, 9];
    edition.push(check(&edition));
    out.refused("edition", &line(&edition), 4, 1)
}

/// A street with the values of edition 02, in each edition; and the first values
/// that edition 02 has not.
fn two_editions(out: &Folder) -> io::Result<()> {
    let street = |marks: u8, control: u8| {
        let lane = Segment::path(end(0, 2), end(1, 6), 500).street(1, 1, 26, 24, marks);
        Town::new(2).with(lane.at_b(Approach::crossing(control, 0, 0)))
    };
    let text = |edition: u8, marks: u8, control: u8| street(marks, control).edition(edition).text();
    out.put(
        "edition-02",
        &text(NEWER, CENTRELINE + TURN_LANE, IMPROVED_SIGNAL),
    )?;
    out.put("edition-01", &text(OLDER, CENTRELINE, SIGNAL))?;
    out.refused("turn-lane-in-01", &text(OLDER, TURN_LANE, SIGNAL), 4, 2)?;
    out.refused("control-5-in-01", &text(OLDER, 0, IMPROVED_SIGNAL), 4, 2)?;
    out.refused("marks-32-in-02", &text(NEWER, 32, SIGNAL), 4, 2)?;
    out.refused("control-6-in-02", &text(NEWER, 0, 6), 4, 2)
}

/// A street of a length from node 0 to node 1.
fn link(feet: u32, marks: u8, control: u8) -> Segment {
    let lane = Segment::path(end(0, 2), end(1, 6), feet).street(1, 1, 26, 24, marks);
    lane.at_b(Approach::crossing(control, 0, 0))
}

/// The text of a network of edition 03 with one street.
fn county(nodes: u16, link: Segment) -> Vec<u8> {
    Town::new(nodes).edition(COUNTY).with(link).text()
}

/// Edition 03: its values and lengths.
fn counties(out: &Folder) -> io::Result<()> {
    let known = CENTRELINE + TURN_LANE;
    out.put("edition-03", &county(2, link(500, known, IMPROVED_SIGNAL)))?;
    out.refused("marks-32-in-03", &county(2, link(500, 32, SIGNAL)), 4, 2)?;
    out.refused("control-6-in-03", &county(2, link(500, 0, 6)), 4, 2)?;
    for feet in [52_801, 65_535, 65_536, 264_000] {
        let name = format!("length-{feet}-in-03");
        out.put(&name, &county(2, link(feet, known, SIGNAL)))?;
    }
    for feet in [0, 264_001, 1 << 24 | 500, u32::MAX] {
        let name = format!("length-{feet}-in-03");
        out.refused(&name, &county(2, link(feet, known, SIGNAL)), 4, 2)?;
    }
    let short = Town::new(2).edition(NEWER).with(link(52_801, 0, SIGNAL));
    out.refused("length-52801-in-02", &short.text(), 4, 2)
}

/// Frames of the width that an edition has not, and counts that edition 03 alone
/// has.
fn sizes_of_counties(out: &Folder) -> io::Result<()> {
    for (edition, other, width) in [
        (OLDER, COUNTY, 32),
        (NEWER, COUNTY, 32),
        (COUNTY, NEWER, 30),
    ] {
        let frame = link(500, 0, SIGNAL).frame_of(other);
        let text = [line(&head_of(edition, 2, 1)), line(&frame)].concat();
        out.refused(&format!("{width}-bytes-in-0{edition}"), &text, 3, 2)?;
    }
    for (edition, nodes, segments) in [(NEWER, 1_001, 0), (COUNTY, 8_001, 0), (COUNTY, 1, 8_001)] {
        let name = match segments {
            0 => format!("nodes-{nodes}-in-0{edition}"),
            _ => format!("segments-{segments}-in-0{edition}"),
        };
        let text = line(&head_of(edition, nodes, segments));
        out.refused(&name, &text, 4, 1)?;
    }
    out.put("nodes-1001-in-03", &county(1_001, link(500, 0, SIGNAL)))?;
    let last = Segment {
        b: end(7_999, 6),
        ..link(500, 0, SIGNAL)
    };
    out.put("nodes-8000-in-03", &county(8_000, last))
}

/// Each number a program can meet, at the first, a middle, the last line.
fn each_number(out: &Folder) -> io::Result<()> {
    let mut rng = Rng::new(2_024);
    let town = draw::town(Shape::Grid, 3, 12);
    for number in 1..=6 {
        for (spot, place) in Spot::ALL.into_iter().zip(["first", "middle", "last"]) {
            // Four are drawn and the first is stored; one draw less would change
            // all that come after it.
            let four = [(); 4].map(|()| damage(&mut rng, &town, number, spot));
            if let [Some(damaged), ..] = four {
                let name = format!("refusal-{number}-{place}-0");
                let (number, line) = damaged.refusal;
                out.refused(&name, &damaged.text, number, line)?;
            }
        }
    }
    Ok(())
}

/// Towns of every shape, and one of as many segments as a town may have; gives
/// its text.
fn whole_towns(out: &Folder) -> io::Result<Vec<u8>> {
    for shape in Shape::ALL {
        let name = format!("town-{}", shape.name());
        out.put(&name, &draw::town(shape, 77, 60).text())?;
    }
    let thousand = draw::town(Shape::Wild, 1, MOST_SEGMENTS).text();
    assert_eq!(thousand.len(), 61_015);
    out.put("thousand", &thousand)?;
    let mut damaged = thousand.clone();
    damaged[61_000] ^= 1;
    out.refused("thousand-last-line-check", &damaged, 2, MOST_SEGMENTS + 1)?;
    Ok(thousand)
}

/// Round the most bytes that are judged. A line of zeros passes 1 and 2 and
/// fails 3, unless the cut takes its 0A; then it fails 1.
fn round_the_limit(out: &Folder, thousand: &[u8]) -> io::Result<()> {
    let last = MOST_SEGMENTS + 1;
    let zeros = |before: &[u8], count: usize| [before, &vec![b'0'; count], b"\n"].concat();
    let exact = zeros(thousand, 4_520);
    assert_eq!(exact.len(), MOST_INPUT);
    let garbage = [&exact[..], b"garbage\n0", &[b'0'; 3_000]].concat();
    let fewer = draw::town(Shape::Tree, 1, MOST_SEGMENTS - 1).text();
    assert_eq!(fewer.len() + 4_582, MOST_INPUT);
    out.refused("longer-cut-in-line", &zeros(thousand, 4_522), 1, last + 1)?;
    out.refused("longer-garbage-after", &garbage, 3, last + 1)?;
    out.refused("longer-cut-before-0a", &zeros(&fewer, 4_582), 1, last)?;
    out.refused("exact-65536", &exact, 3, last + 1)
}

/// Lines of edition 03 have 65 bytes, so that 1,008 of them are judged at most.
fn round_the_limit_of_counties(out: &Folder) -> io::Result<()> {
    let text = |segments: usize| draw::town_of(COUNTY, Shape::Grid, 1, segments).text();
    let most = text(1_008);
    assert_eq!(most.len() + 1, MOST_INPUT);
    out.put("county-1008", &most)?;
    out.refused("county-1009", &text(1_009), 1, 1_010)?;
    // Of a county's text the first bytes alone are judged.
    let whole = text(COUNTY_SEGMENTS);
    assert_eq!(whole.len(), 520_015);
    out.refused("county-8000", &whole[..70_000], 1, 1_010)?;
    out.refused("county-8000-missing", &whole[..most.len()], 5, 1_010)
}
