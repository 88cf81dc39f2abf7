//! Deliberate damage to texts and to kept bytes.

use super::Rng;
use crate::edition::{NO_EDITIONS, all_marks, last_control, uncrossed};
use crate::sizes::{HEAD, MOST_TURN_FEET};
use crate::sizes::{length_bytes, most_feet, most_nodes, most_segments, segment_bytes};
use crate::town::{COUNTY, NEWER, SEGMENT_KIND, TURN_LANE};
use crate::town::{Town, check, head_of, line, text_of};

/// Bytes of output that a damaged text is lent beyond the town's own.
const SPARE: usize = 1_000;

/// Which line a damage shall hit.
#[derive(Clone, Copy, Debug, PartialEq, Eq)]
pub enum Spot {
    /// The first line that can have the fault.
    First,
    /// A line between, or as near as there is one.
    Middle,
    /// The last line.
    Last,
}

impl Spot {
    /// All spots.
    pub const ALL: [Spot; 3] = [Spot::First, Spot::Middle, Spot::Last];
}

/// A damaged text and what `read` must answer to it.
#[derive(Clone, Debug, PartialEq, Eq)]
pub struct Damage {
    /// The text.
    pub text: Vec<u8>,
    /// The length of output to lend.
    pub output: usize,
    /// Number and line of the refusal.
    pub refusal: (u8, usize),
    /// What was done.
    pub what: &'static str,
}

/// The length of a line with a frame of so many bytes.
fn line_length(bytes: usize) -> usize {
    2 * bytes + 1
}

/// Sets a frame's last byte so that its check is right.
pub fn seal(frame: &mut [u8]) {
    if let Some((last, body)) = frame.split_last_mut() {
        *last = check(body);
    }
}

/// The frames of a town and where to damage them.
struct Site {
    edition: u8,
    frames: Vec<Vec<u8>>,
    spot: Spot,
    /// The frame to damage, counted from 0.
    place: usize,
}

/// A damaged text, the faulty line, and what was done.
type Faulty = (Vec<u8>, usize, &'static str);

/// Damages the text of a town, which is a network, so that `read` must refuse
/// it with the number, 1 to 7, at the spot; none if this town cannot be
/// damaged so.
pub fn damage(rng: &mut Rng, town: &Town, number: u8, spot: Spot) -> Option<Damage> {
    let frames = town.frames();
    let place = match spot {
        Spot::First => 0,
        Spot::Middle => frames.len() / 2,
        Spot::Last => frames.len() - 1,
    };
    let site = Site {
        edition: town.edition,
        frames,
        spot,
        place,
    };
    let output = SPARE + site.frames.concat().len();
    let (text, line, what) = match number {
        1 => site.no_digits(rng),
        2 => site.wrong_check(rng),
        3 => site.wrong_frame(rng),
        4 => site.wrong_field(rng),
        5 => site.wrong_count(rng)?,
        6 => site.leg_taken(rng)?,
        7 => return Some(too_short(rng, town, spot)),
        _ => return None,
    };
    Some(Damage {
        text,
        output,
        refusal: (number, line),
        what,
    })
}

impl Site {
    fn segments(&self) -> usize {
        self.frames.len() - 1
    }

    /// The text of the frames as they are, faulty at the place.
    fn faulty(self, what: &'static str) -> Faulty {
        (text_of(&self.frames), self.place + 1, what)
    }

    fn no_digits(self, rng: &mut Rng) -> Faulty {
        let mut lines: Vec<Vec<u8>> = self.frames.iter().map(|frame| line(frame)).collect();
        let what = spoil_line(rng, &mut lines[self.place], self.spot);
        (lines.concat(), self.place + 1, what)
    }

    fn wrong_check(mut self, rng: &mut Rng) -> Faulty {
        change_byte(rng, &mut self.frames[self.place]);
        self.faulty("a byte changed")
    }

    fn wrong_frame(mut self, rng: &mut Rng) -> Faulty {
        if self.spot == Spot::First && rng.chance(20) {
            return (Vec::new(), 1, "an empty text");
        }
        let first = self.place == 0;
        let frame = &mut self.frames[self.place];
        let what = match rng.below(5) {
            0 => {
                frame[0] = rng.pick(if first {
                    &[0, 2, 3, 255]
                } else {
                    &[0, 1, 3, 255]
                });
                "a wrong kind"
            }
            1 => {
                frame.pop();
                "a byte less"
            }
            2 => more_bytes(rng, frame, (!first).then_some(self.edition)),
            3 => {
                *frame = if first {
                    blank_segment(self.edition)
                } else {
                    head_of(self.edition, 1, 0)
                };
                "the other frame"
            }
            _ => {
                *frame = vec![0];
                "one zero byte"
            }
        };
        seal(&mut self.frames[self.place]);
        self.faulty(what)
    }

    fn wrong_field(mut self, rng: &mut Rng) -> Faulty {
        let nodes = [self.frames[0][2], self.frames[0][3]];
        let frame = &mut self.frames[self.place];
        let what = if self.place == 0 {
            spoil_head(rng, frame, self.edition)
        } else {
            spoil_segment(rng, frame, nodes, self.edition)
        };
        seal(frame);
        self.faulty(what)
    }

    fn wrong_count(mut self, rng: &mut Rng) -> Option<Faulty> {
        let segments = self.segments();
        let (line, what) = match self.spot {
            Spot::First if segments > 0 && rng.chance(50) => {
                self.frames.truncate(1);
                (2, "only the head")
            }
            Spot::First | Spot::Middle if segments > 0 => {
                let first = self.spot == Spot::First;
                let fewer = if first { 0 } else { segments / 2 };
                let nodes = u16::from_be_bytes([self.frames[0][2], self.frames[0][3]]);
                self.frames[0] = head_of(self.edition, nodes, u16::try_from(fewer).ok()?);
                (fewer + 2, "a head with fewer segments")
            }
            _ if segments > 0 && rng.chance(50) => {
                self.frames.pop();
                (segments + 1, "the last line left out")
            }
            _ => {
                let mut extra = blank_segment(self.edition);
                // Good or not after its kind, it is beyond S.
                extra[1] = rng.pick(&[0, 255]);
                seal(&mut extra);
                self.frames.push(extra);
                (segments + 2, "a line more")
            }
        };
        Some((text_of(&self.frames), line, what))
    }

    fn leg_taken(mut self, rng: &mut Rng) -> Option<Faulty> {
        if self.segments() == 0 {
            return None;
        }
        self.place = self.place.max(1);
        let place = self.place;
        let corner = |frame: &[u8], at: usize| [frame[at], frame[at + 1], frame[at + 2]];
        let own = corner(&self.frames[place], 1);
        let (taken, what) = if place > 1 && rng.chance(70) {
            let earlier = &self.frames[rng.range(1, place - 1)];
            let at = rng.pick(&[1, 4]);
            (corner(earlier, at), "an earlier frame's corner")
        } else {
            (own, "its own other end's corner")
        };
        let at = if taken == own || rng.chance(50) { 4 } else { 1 };
        self.frames[place][at..at + 3].copy_from_slice(&taken);
        seal(&mut self.frames[place]);
        Some(self.faulty(what))
    }
}

/// Appends bytes to a frame; one of a segment of an edition may get the other
/// width instead.
fn more_bytes(rng: &mut Rng, frame: &mut Vec<u8>, segment: Option<u8>) -> &'static str {
    let extra = rng.range(1, 100);
    if let Some(edition) = segment.filter(|_| extra > 50) {
        frame.resize(segment_bytes(other_width(edition)), 0);
        return "a frame of the other width";
    }
    frame.extend(vec![0; extra]);
    "bytes more"
}

/// Changes one byte, so that the check is wrong.
fn change_byte(rng: &mut Rng, frame: &mut [u8]) {
    let at = rng.below(frame.len());
    frame[at] = frame[at].wrapping_add(rng.range(1, 255) as u8);
}

/// An edition whose segment frames have the other width.
fn other_width(edition: u8) -> u8 {
    match edition {
        COUNTY => NEWER,
        _ => COUNTY,
    }
}

/// A segment frame of zeros after its kind, not sealed.
fn blank_segment(edition: u8) -> Vec<u8> {
    let mut frame = vec![0; segment_bytes(edition)];
    frame[0] = SEGMENT_KIND;
    frame
}

/// Makes a line something else than whole pairs of uppercase digits.
fn spoil_line(rng: &mut Rng, this: &mut Vec<u8>, spot: Spot) -> &'static str {
    let (what, end) = (rng.below(9), this.len() - 1);
    let at = rng.below(end);
    match what {
        0 => {
            // There is a digit above 9 in most lines; if not, make one.
            let letter = this.iter().position(|digit| digit.is_ascii_uppercase());
            let at = letter.unwrap_or(at);
            this[at] = letter.map_or(b'a', |at| this[at].to_ascii_lowercase());
            "a lowercase digit"
        }
        1 => {
            this.remove(at);
            "a digit less"
        }
        2 => {
            this.insert(at, b'0');
            "a digit more"
        }
        3 => {
            this.insert(end, b'\r');
            "a carriage return"
        }
        4 => {
            this.splice(end..end, *b"  ");
            "spaces at the end"
        }
        _ => spoil_whole_line(rng, this, spot, what, at),
    }
}

/// The other ways to do so.
fn spoil_whole_line(
    rng: &mut Rng,
    this: &mut Vec<u8>,
    spot: Spot,
    what: usize,
    at: usize,
) -> &'static str {
    match what {
        5 => {
            *this = vec![0x0A];
            "an empty line"
        }
        6 => {
            this[at] = rng.pick(b"/:@G`g \t\0\x7F\x80\xFF\x0B\x0D-+");
            "no digit"
        }
        7 => {
            this.insert(0, 0x0A);
            "an empty line before"
        }
        _ if spot == Spot::Last => {
            this.pop();
            "no 0A at the end"
        }
        _ => {
            let end = this.len() - 1;
            this.truncate(end - end % 2);
            this.extend(*b"G0\n");
            "no digit at the end"
        }
    }
}

/// An output too short for the network.
fn too_short(rng: &mut Rng, town: &Town, spot: Spot) -> Damage {
    let size = town.bytes().len();
    let output = match spot {
        Spot::First => 0,
        Spot::Middle => rng.below(size),
        Spot::Last => size - 1,
    };
    let mut text = town.text();
    let mut what = "output too short";
    if rng.chance(50) {
        // Whatever follows the head comes later.
        text.truncate(line_length(HEAD));
        text.extend(rng.pick(&[&b"\n"[..], b"0", b"02\n", b"garbage", b""]));
        what = "output too short, a fault after the head";
    }
    Damage {
        text,
        output,
        refusal: (7, 1),
        what,
    }
}

/// A count above the most of an edition.
fn too_many(rng: &mut Rng, most: usize) -> [u8; 2] {
    let most = most as u16;
    rng.pick(&[most + 1, most + 256, u16::MAX]).to_be_bytes()
}

/// Puts a field of a head of an edition out of order; the check is left as it
/// was.
fn spoil_head(rng: &mut Rng, frame: &mut [u8], edition: u8) -> &'static str {
    match rng.below(5) {
        0 => {
            frame[1] = rng.pick(&NO_EDITIONS);
            "edition"
        }
        1 => {
            frame[2..4].copy_from_slice(&[0, 0]);
            "no nodes"
        }
        2 => {
            frame[2..4].copy_from_slice(&too_many(rng, most_nodes(edition)));
            "too many nodes"
        }
        _ => {
            frame[4..6].copy_from_slice(&too_many(rng, most_segments(edition)));
            "too many segments"
        }
    }
}

/// The place of a segment frame's length.
const LENGTH: usize = 7;

/// The place of a segment frame's form, after its length.
fn form_at(edition: u8) -> usize {
    LENGTH + length_bytes(edition)
}

/// Puts a field of a good segment frame of an edition out of order; the check
/// is left as it was.
fn spoil_segment(rng: &mut Rng, frame: &mut [u8], nodes: [u8; 2], edition: u8) -> &'static str {
    let form = form_at(edition);
    let approach = form + rng.pick(&[6, 13]);
    match rng.below(20) {
        4 => spoil_length(rng, &mut frame[LENGTH..form], edition),
        field @ 0..=3 => spoil_ends(rng, frame, nodes, field),
        field @ 5..=10 => spoil_form(rng, &mut frame[form..], field, edition),
        field @ 11..=15 => spoil_crossing(rng, &mut frame[approach..], field, edition),
        field => spoil_turn_lane(rng, &mut frame[approach..], field),
    }
}

fn spoil_ends(rng: &mut Rng, frame: &mut [u8], nodes: [u8; 2], field: usize) -> &'static str {
    match field {
        0 => {
            frame[1..3].copy_from_slice(&nodes);
            "A node"
        }
        1 => {
            frame[4..6].copy_from_slice(&nodes);
            "B node"
        }
        2 => {
            frame[3] = rng.pick(&[8, 9, 128, 255]);
            "A leg"
        }
        _ => {
            frame[6] = rng.pick(&[8, 9, 128, 255]);
            "B leg"
        }
    }
}

/// Puts a length out of order. One of four bytes is also so far too long that
/// its low bytes alone would do.
fn spoil_length(rng: &mut Rng, length: &mut [u8], edition: u8) -> &'static str {
    let most = most_feet(edition);
    let feet = match edition {
        COUNTY => rng.pick(&[
            0,
            most + 1,
            (5 << 16) + 500,
            (1 << 24) + 500,
            1 << 24,
            1 << 31,
            500 << 16,
            u32::MAX,
        ]),
        _ => rng.pick(&[0, most + 1, u16::MAX.into()]),
    };
    length.copy_from_slice(&feet.to_be_bytes()[4 - length.len()..]);
    "length"
}

/// The same of a form and what stands after it, which begin the bytes.
fn spoil_form(rng: &mut Rng, bytes: &mut [u8], field: usize, edition: u8) -> &'static str {
    let (path, mixed) = (bytes[0] == 3, bytes[0] == 0);
    let over = all_marks(edition) + 1;
    let (at, bad, what): (usize, &[u8], &str) = match field {
        5 => (0, &[4, 5, 255], "form"),
        6 => (1, &[0, 4, 5, 255], "ways"),
        7 if path => (2, &[1, 255], "lanes"),
        7 => (2, &[0, 13, 255], "lanes"),
        8 if path => (3, &[5, 255], "speed"),
        8 => (3, &[0, 4, 86, 255], "speed"),
        9 if path || mixed => (4, &[1, 60], "reach"),
        9 => (4, &[61, 255], "reach"),
        _ if path => (5, &[1, 8, TURN_LANE], "marks"),
        _ => (5, &[over, over + 1, 128, 255], "marks"),
    };
    bytes[at] = rng.pick(bad);
    what
}

fn spoil_crossing(rng: &mut Rng, approach: &mut [u8], field: usize, edition: u8) -> &'static str {
    let over = last_control(edition) + 1;
    match field {
        11 => {
            approach[0] = rng.pick(&[over, over + 1, 255]);
            "control"
        }
        12 => {
            approach[0] = rng.pick(uncrossed(edition));
            approach[1] = rng.pick(&[1, 255]);
            "lanes though nothing is crossed"
        }
        13 => {
            approach[0] = rng.pick(uncrossed(edition));
            approach[1] = 0;
            approach[2] = rng.pick(&[5, 255]);
            "speed though nothing is crossed"
        }
        14 => {
            approach[0] = rng.pick(&[2, 3, 4]);
            approach[1] = rng.pick(&[0, 13, 255]);
            approach[2] = 25;
            "lanes crossed"
        }
        _ => {
            approach[0] = rng.pick(&[2, 3, 4]);
            approach[1] = 2;
            approach[2] = rng.pick(&[0, 4, 86, 255]);
            "speed crossed"
        }
    }
}

fn spoil_turn_lane(rng: &mut Rng, approach: &mut [u8], field: usize) -> &'static str {
    match field {
        16 => {
            approach[3] = rng.pick(&[4, 5, 255]);
            "turn kind"
        }
        17 => {
            approach[3] = 0;
            let lane = rng.pick(&[[0, 1, 0], [1, 0, 0], [0, 0, 5], [0, 50, 15]]);
            approach[4..7].copy_from_slice(&lane);
            "a turn lane of no kind"
        }
        18 => {
            approach[3] = rng.pick(&[1, 2, 3]);
            let lengths = [0, MOST_TURN_FEET + 1, MOST_TURN_FEET + 256, u16::MAX];
            approach[4..6].copy_from_slice(&rng.pick(&lengths).to_be_bytes());
            approach[6] = 15;
            "turn-lane length"
        }
        _ => {
            approach[3] = rng.pick(&[1, 2, 3]);
            approach[4..6].copy_from_slice(&[0, 75]);
            approach[6] = rng.pick(&[0, 4, 86, 255]);
            "turning speed"
        }
    }
}

/// The bytes of a town, which is a network, damaged so that they are none.
pub fn damage_kept(rng: &mut Rng, town: &Town) -> Vec<u8> {
    let net = town.bytes();
    let mut bad = town.frames();
    let segments = bad.len() - 1;
    let place = rng.below(bad.len());
    let segment = segment_bytes(town.edition);
    match rng.below(10) {
        0 => change_byte(rng, &mut bad[place]),
        1 => return net[..rng.below(net.len())].to_vec(),
        2 => {
            let more = rng.pick(&[1, HEAD, segment - 1, segment, 2 * segment]);
            return [net, vec![0; more]].concat();
        }
        3 => {
            bad[place][0] = rng.pick(if place == 0 { &[0, 2, 3] } else { &[0, 1, 3] });
            seal(&mut bad[place]);
        }
        4 => {
            spoil_head(rng, &mut bad[0], town.edition);
            seal(&mut bad[0]);
        }
        5 if segments > 0 => {
            bad[0] = head_of(town.edition, town.nodes, (segments - 1) as u16);
        }
        6 if segments > 0 => share_corner(&mut bad, (place.max(1), 1), (place.max(1), 4)),
        7 if segments > 1 => {
            let one = 1 + rng.below(segments - 1);
            share_corner(&mut bad, (one, 4), (segments, 1));
        }
        8 if segments > 0 => return in_the_other_width(town),
        _ if segments > 0 => {
            let (place, nodes) = (place.max(1), [bad[0][2], bad[0][3]]);
            spoil_segment(rng, &mut bad[place], nodes, town.edition);
            seal(&mut bad[place]);
        }
        _ => return Vec::new(),
    }
    bad.concat()
}

/// The bytes of a town with frames of the width that its edition has not.
fn in_the_other_width(town: &Town) -> Vec<u8> {
    let mut frames = vec![town.head()];
    let other = other_width(town.edition);
    frames.extend(town.segments.iter().map(|street| street.frame_of(other)));
    frames.concat()
}

/// Gives the end at one frame and byte to that at another.
fn share_corner(frames: &mut [Vec<u8>], one: (usize, usize), other: (usize, usize)) {
    let corner = frames[one.0][one.1..one.1 + 3].to_vec();
    frames[other.0][other.1..other.1 + 3].copy_from_slice(&corner);
    seal(&mut frames[other.0]);
}

/// Changes a text at one point, whatever that makes of it.
pub fn change(rng: &mut Rng, text: &mut Vec<u8>) {
    if text.is_empty() {
        return;
    }
    let at = rng.below(text.len());
    match rng.below(6) {
        0 => text[at] = rng.bits() as u8,
        1 => text[at] = rng.pick(b"0123456789ABCDEF"),
        2 => {
            text.remove(at);
        }
        3 => text.insert(at, rng.pick(b"0A\nFg \r")),
        4 => text.truncate(at),
        _ => {
            // Two digits of one line change places: the check often stays.
            let edition = text.get(3).map_or(0, |digit| digit.wrapping_sub(b'0'));
            let length = line_length(segment_bytes(edition));
            let other = (at / length * length + rng.below(length)).min(text.len() - 1);
            text.swap(at, other);
        }
    }
}
