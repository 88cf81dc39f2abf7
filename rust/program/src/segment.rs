//! A segment's frame, field by field: its layout, and what may stand in it; and
//! the layout of a head.
//!
//! Nothing here decides anything. A file is accepted or refused by the proved
//! calls; this reads the fields that a page shows, writes those of a table as a
//! frame, and finds the words for a frame that was refused.

use crate::edition::Edition;
use std::ops::{Range, RangeInclusive};

/// Name and width in bytes of each field, in the order of the frame, between
/// its kind and its check; a length may be wider, see [`layout`].
const LAYOUT: [(&str, usize); 23] = [
    ("A node", 2),
    ("A leg", 1),
    ("B node", 2),
    ("B leg", 1),
    ("length", 2),
    ("form", 1),
    ("ways", 1),
    ("lanes", 1),
    ("speed", 1),
    ("reach", 1),
    ("marks", 1),
    ("control at B", 1),
    ("lanes crossed at B", 1),
    ("speed crossed at B", 1),
    ("turn-lane kind at B", 1),
    ("turn-lane length at B", 2),
    ("turning speed at B", 1),
    ("control at A", 1),
    ("lanes crossed at A", 1),
    ("speed crossed at A", 1),
    ("turn-lane kind at A", 1),
    ("turn-lane length at A", 2),
    ("turning speed at A", 1),
];

/// The same of a head.
const HEAD_LAYOUT: [(&str, usize); 3] = [("edition", 1), ("nodes", 2), ("segments", 2)];

/// Places in the layout.
pub const A_NODE: usize = 0;
pub const A_LEG: usize = 1;
pub const B_NODE: usize = 2;
pub const B_LEG: usize = 3;
pub const LENGTH: usize = 4;
pub const FORM: usize = 5;
pub const WAYS: usize = 6;
pub const LANES: usize = 7;
pub const SPEED: usize = 8;
pub const REACH: usize = 9;
pub const MARKS: usize = 10;
pub const AT_B: usize = 11;
pub const AT_A: usize = 17;

/// Places in an approach.
pub const CONTROL: usize = 0;
pub const CROSSED: usize = 1;
pub const CROSSED_SPEED: usize = 2;
pub const TURN: usize = 3;
pub const TURN_LENGTH: usize = 4;
pub const TURN_SPEED: usize = 5;

/// The bytes of a head.
pub const HEAD_BYTES: usize = 7;
pub const HEAD_KIND: u8 = 1;
pub const SEGMENT_KIND: u8 = 2;

/// The layout under an edition.
fn layout(edition: Edition) -> [(&'static str, usize); LAYOUT.len()] {
    let mut layout = LAYOUT;
    layout[LENGTH].1 = edition.length_bytes;
    layout
}

/// A field's name.
pub fn name(field: usize) -> &'static str {
    LAYOUT[field].0
}

/// A field as it stands in a frame's line.
#[derive(Clone, Debug, PartialEq, Eq)]
pub struct Field {
    pub name: &'static str,
    /// Its digits, counted from 0 at the line's first.
    pub digits: Range<usize>,
    pub number: u32,
}

/// The fields of a head, kind and check too; those past its end are 0.
pub fn head_fields(frame: &[u8]) -> Vec<Field> {
    fields(&HEAD_LAYOUT, frame)
}

/// The fields of a segment of an edition, kind and check too; those past its end
/// are 0.
pub fn segment_fields(edition: Edition, frame: &[u8]) -> Vec<Field> {
    fields(&layout(edition), frame)
}

fn fields(layout: &[(&'static str, usize)], frame: &[u8]) -> Vec<Field> {
    let (kind, check) = ([("kind", 1)], [("check", 1)]);
    let mut end = 0;
    let field = |&(name, width): &(&'static str, usize)| {
        let start = end;
        end += width;
        let bytes = frame.get(start..end).unwrap_or(&[]);
        Field {
            name,
            digits: 2 * start..2 * end,
            number: bytes
                .iter()
                .fold(0, |sum, &byte| sum << 8 | u32::from(byte)),
        }
    };
    kind.iter().chain(layout).chain(&check).map(field).collect()
}

/// The digits of fields of a segment that stand together, counted from 0 at
/// the line's first.
pub fn digits(edition: Edition, together: RangeInclusive<usize>) -> Range<usize> {
    let fields = segment_fields(edition, &[]);
    // The kind stands before them.
    fields[1 + together.start()].digits.start..fields[1 + together.end()].digits.end
}

/// A head of an edition that is known.
#[derive(Clone, Copy, Debug, PartialEq, Eq)]
pub struct Head {
    pub edition: Edition,
    pub nodes: u32,
    pub segments: u32,
}

impl Head {
    /// The fields of a frame; none where its edition is not known.
    pub fn decode(frame: &[u8]) -> Option<Head> {
        let [_, edition, nodes, segments, _] = &head_fields(frame)[..] else {
            return None;
        };
        Some(Head {
            edition: Edition::numbered(edition.number)?,
            nodes: nodes.number,
            segments: segments.number,
        })
    }

    /// The frame with these fields, its check computed; numbers that are too
    /// large as in [`Segment::frame`].
    pub fn frame(&self) -> Vec<u8> {
        let numbers = [self.edition.number, self.nodes, self.segments];
        frame(HEAD_KIND, &HEAD_LAYOUT, &numbers)
    }
}

/// A segment as its fields' numbers.
#[derive(Clone, Debug, Default, PartialEq, Eq)]
pub struct Segment([u32; LAYOUT.len()]);

impl Segment {
    /// The fields of a frame of an edition; those past its end are 0.
    pub fn decode(edition: Edition, frame: &[u8]) -> Segment {
        let mut segment = Segment::default();
        // The kind stands before them.
        let fields = segment_fields(edition, frame).into_iter().skip(1);
        for (number, field) in segment.0.iter_mut().zip(fields) {
            *number = field.number;
        }
        segment
    }

    /// The frame of an edition with these fields, its check computed. A number
    /// that its bytes do not hold becomes the greatest that they do, which no
    /// field may have.
    pub fn frame(&self, edition: Edition) -> Vec<u8> {
        frame(SEGMENT_KIND, &layout(edition), &self.0)
    }

    /// The number in a field.
    pub fn get(&self, field: usize) -> u32 {
        self.0[field]
    }

    /// Writes a number.
    pub fn set(&mut self, field: usize, number: u32) {
        self.0[field] = number;
    }

    /// Node and leg of an end, where `node` is [`A_NODE`] or [`B_NODE`].
    pub fn end(&self, node: usize) -> (u32, u32) {
        (self.get(node), self.get(node + 1))
    }
}

fn frame(kind: u8, layout: &[(&str, usize)], numbers: &[u32]) -> Vec<u8> {
    let mut frame = vec![kind];
    for ((_, width), number) in layout.iter().zip(numbers) {
        let most = u32::MAX >> (32 - 8 * width);
        frame.extend(&(*number).min(most).to_be_bytes()[4 - width..]);
    }
    frame.push(check(&frame));
    frame
}

/// A frame's line: uppercase digits and a line feed.
pub fn line(frame: &[u8]) -> String {
    const DIGITS: &[u8; 16] = b"0123456789ABCDEF";
    let pair = |byte: &u8| [byte >> 4, byte & 15].map(|digit| DIGITS[usize::from(digit)]);
    let digits = frame.iter().flat_map(pair);
    digits.chain(*b"\n").map(char::from).collect()
}

/// The byte that makes a frame's bytes sum to 0 modulo 256.
pub fn check(body: &[u8]) -> u8 {
    body.iter().fold(0u8, |sum, byte| sum.wrapping_sub(*byte))
}

/// What may stand in a field.
#[derive(Debug)]
pub struct Rule {
    /// The field.
    pub field: usize,
    /// What may stand there.
    pub range: RangeInclusive<u32>,
    /// When.
    pub when: &'static str,
}

/// The first rule that a segment of a town with this head breaks, in the order
/// of the fields.
pub fn broken(segment: &Segment, head: Head) -> Option<Rule> {
    let mut rules = rules(segment, head).into_iter();
    rules.find(|rule| !rule.is_kept(segment))
}

/// `; edition 02 has 0 to 31`: the first later edition in which a field may have
/// the number that breaks its rule, with what may stand there; nothing where
/// there is none.
pub fn later(segment: &Segment, head: Head, field: usize) -> String {
    let mut kept = head.edition.later().filter_map(|edition| {
        let rules = rules(segment, Head { edition, ..head });
        let rule = rules.into_iter().find(|rule| rule.field == field)?;
        let words = format!("; edition {edition} has {}", span(&rule.range));
        rule.is_kept(segment).then_some(words)
    });
    kept.next().unwrap_or_default()
}

/// The first rule that is broken, in words, and which later edition has that
/// number.
pub fn wrong(segment: &Segment, head: Head) -> Option<String> {
    let rule = broken(segment, head)?;
    Some(rule.words(segment.get(rule.field)) + &later(segment, head, rule.field))
}

/// The rules of every field, in their order.
fn rules(segment: &Segment, head: Head) -> Vec<Rule> {
    let Edition { marks, control, .. } = head.edition;
    let rules = [
        ends(head.nodes, head.edition.feet),
        street(segment.get(FORM), marks),
        approach(segment, AT_B, control),
        approach(segment, AT_A, control),
    ];
    rules.into_iter().flatten().collect()
}

fn rule(field: usize, range: RangeInclusive<u32>, when: &'static str) -> Rule {
    Rule { field, range, when }
}

fn ends(nodes: u32, longest: u32) -> Vec<Rule> {
    let node = 0..=nodes.saturating_sub(1);
    vec![
        rule(A_NODE, node.clone(), ""),
        rule(A_LEG, 0..=7, ""),
        rule(B_NODE, node, ""),
        rule(B_LEG, 0..=7, ""),
        rule(LENGTH, 1..=longest, ""),
        rule(FORM, 0..=3, ""),
        rule(WAYS, 1..=3, ""),
    ]
}

/// What the form lets stand in the fields of the street itself.
fn street(form: u32, most: u32) -> Vec<Rule> {
    let (lanes, speed, reach, marks, when) = match form {
        0 => (1..=12, 5..=85, 0..=0, 0..=most, " in mixed traffic"),
        1 | 2 => (1..=12, 5..=85, 0..=60, 0..=most, " beside a bike lane"),
        _ => (0..=0, 0..=0, 0..=0, 0..=0, " on a separate path"),
    };
    vec![
        rule(LANES, lanes, when),
        rule(SPEED, speed, when),
        rule(REACH, reach, when),
        rule(MARKS, marks, when),
    ]
}

fn approach(segment: &Segment, at: usize, most: u32) -> Vec<Rule> {
    let (lanes, speed, crossed) = match segment.get(at + CONTROL) {
        0 => (0..=0, 0..=0, " where nothing is crossed"),
        1 => (0..=0, 0..=0, " at a signal"),
        5 => (0..=0, 0..=0, " at an improved signal"),
        _ => (1..=12, 5..=85, " where lanes are crossed"),
    };
    let (length, turning, turn) = match segment.get(at + TURN) {
        0 => (0..=0, 0..=0, " without a turn lane"),
        _ => (1..=2_000, 5..=85, " with a turn lane"),
    };
    vec![
        rule(at + CONTROL, 0..=most, ""),
        rule(at + CROSSED, lanes, crossed),
        rule(at + CROSSED_SPEED, speed, crossed),
        rule(at + TURN, 0..=3, ""),
        rule(at + TURN_LENGTH, length, turn),
        rule(at + TURN_SPEED, turning, turn),
    ]
}

impl Rule {
    fn is_kept(&self, segment: &Segment) -> bool {
        self.range.contains(&segment.get(self.field))
    }

    /// `lanes is 0 and must be 1 to 12 in mixed traffic`.
    pub fn words(&self, number: u32) -> String {
        let (field, when) = (name(self.field), self.when);
        format!(
            "{field} is {number} and must be {}{when}",
            span(&self.range)
        )
    }
}

/// `1 to 12`, or the one number.
pub fn span(range: &RangeInclusive<u32>) -> String {
    let (low, high) = (range.start(), range.end());
    match low == high {
        true => low.to_string(),
        false => format!("{low} to {high}"),
    }
}

/// A leg that an end of a segment shares with an earlier end.
#[derive(Debug)]
pub struct Taken {
    /// A or B.
    pub end: char,
    /// The node.
    pub node: u32,
    /// The leg.
    pub leg: u32,
    /// The segment that has it already, and which of its ends.
    pub by: usize,
    /// A or B.
    pub by_end: char,
}

/// The leg of the last segment that is taken already, by an earlier one or by
/// its own other end.
pub fn taken(segments: &[Segment]) -> Option<Taken> {
    const ENDS: [(char, usize); 2] = [('A', A_NODE), ('B', B_NODE)];
    let last = segments.split_last()?.0;
    ENDS.into_iter().find_map(|(end, node)| {
        let at = last.end(node);
        let all = segments.iter().enumerate();
        let (by, by_end) = all
            .flat_map(|(s, segment)| ENDS.map(|(end, node)| (s, end, segment.end(node))))
            .take_while(|&(s, other, _)| s + 1 < segments.len() || other < end)
            .find_map(|(s, end, other)| (other == at).then_some((s, end)))?;
        let (node, leg) = at;
        Some(Taken {
            end,
            node,
            leg,
            by,
            by_end,
        })
    })
}

impl Taken {
    /// What to mend, where `own` says that the segment's own other end has the
    /// leg, and `by` and `node` name the segment and the node.
    pub fn words(&self, own: bool, by: &str, node: &str) -> String {
        let Taken {
            end, leg, by_end, ..
        } = self;
        match own {
            true => format!("both ends have leg {leg} of {node}"),
            false => format!(
                "the {end} end has leg {leg} of {node}, which the {by_end} end of {by} has already"
            ),
        }
    }
}
