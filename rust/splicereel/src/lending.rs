//! The calls over the caller's own slices; nothing is allocated.

use crate::answer::{Entry, Found, Judged, Level, Measure};
use crate::ffi::{self, Lent, Part, Scratch, Told};
use crate::reach::Entries;
use crate::refusal::{ReadRefusal, Refusal, RefusedLine};

/// Reads a network text into `output` and gives the number of bytes written;
/// later bytes stay. A refusal leaves `output` as it was.
///
/// ```
/// use splicereel::{read, Refusal, MAX_NETWORK};
///
/// let mut output = vec![0; MAX_NETWORK];
/// assert_eq!(read(b"010100010000FD\n", &mut output), Ok(7));
///
/// let refused = read(b"010100010000FD\n", &mut output[..6]).unwrap_err();
/// assert_eq!((refused.refusal, refused.line), (Refusal::OutputTooShort, 1));
/// ```
pub fn read(text: &[u8], output: &mut [u8]) -> Result<usize, ReadRefusal> {
    let mut told = Told::default();
    let number = ffi::read(text, output, &mut told);
    match number {
        // At most the output's length is written.
        0 => Ok(output.len().min(told[0] as usize)),
        _ => Err(ReadRefusal {
            refusal: Refusal::from_number(number),
            line: told[0],
        }),
    }
}

/// The line of a text at which [`read`] refuses it, given an output of so many
/// bytes, and the refusal; [`Refusal::NoRefusedLine`] where [`read`] accepts.
///
/// [`MAX_NETWORK`](crate::MAX_NETWORK) asks whether the text is in order at
/// all. Only the first faulty line is told: a text with that line mended or cut
/// out may be refused at another.
///
/// ```
/// use splicereel::{refused_line, Refusal, MAX_NETWORK};
///
/// let text = b"010100010000FD\n02 and so on\r\n";
/// let refused = refused_line(text, MAX_NETWORK);
/// assert_eq!(refused.refusal, Refusal::NotDigits);
/// assert_eq!(refused.part, b"02 and so on\r");
///
/// // An output of 6 bytes is too short for the head's network: the head line.
/// let refused = refused_line(text, 6);
/// assert_eq!(refused.refusal, Refusal::OutputTooShort);
/// assert_eq!(refused.part, b"010100010000FD");
///
/// let refused = refused_line(&text[..15], MAX_NETWORK);
/// assert_eq!(refused.refusal, Refusal::NoRefusedLine);
/// assert_eq!(refused.part, b"");
/// ```
pub fn refused_line(text: &[u8], output_length: usize) -> RefusedLine<'_> {
    let mut part = Part::default();
    let number = ffi::refused_line(text, output_length, &mut part);
    RefusedLine {
        refusal: Refusal::from_number(number),
        part: part_of(text, part),
    }
}

/// A part of a text, as far as the text reaches.
fn part_of(text: &[u8], [start, length]: Part) -> &[u8] {
    let (_, rest) = text.split_at(start.min(text.len()));
    let (part, _) = rest.split_at(length.min(rest.len()));
    part
}

/// Nothing where the call answered.
fn answered(number: u32) -> Result<(), Refusal> {
    match number {
        0 => Ok(()),
        _ => Err(Refusal::from_number(number)),
    }
}

/// Level and governing measure of a segment of a kept network.
///
/// Refusals: [`Refusal::NotANetwork`], [`Refusal::NoSuchRun`].
///
/// ```
/// use splicereel::{judge_segment, Level, Measure, Network, Refusal};
/// # let text = include_bytes!(concat!(env!("CARGO_MANIFEST_DIR"), "/../../towns/block-town.txt"));
/// let network = Network::read(text)?;
/// let judged = judge_segment(network.as_bytes(), 0)?;
/// assert_eq!((judged.level, judged.measure), (Level::One, Measure::SeparatePath));
/// assert_eq!(judge_segment(network.as_bytes(), 3), Err(Refusal::NoSuchRun));
/// # Ok::<(), Box<dyn std::error::Error>>(())
/// ```
pub fn judge_segment(net: &[u8], segment: usize) -> Result<Judged, Refusal> {
    let mut told = Told::default();
    answered(ffi::judge_segment(net, segment, &mut told))?;
    Ok(Judged {
        level: Level::told(told[0])?,
        measure: Measure::told(told[1])?,
    })
}

/// Level of the movement from one run onto another.
///
/// Refusals: [`Refusal::NotANetwork`], [`Refusal::NoSuchRun`] for either run,
/// [`Refusal::NoMovement`].
///
/// ```
/// use splicereel::{judge_movement, Level, Network, Refusal};
/// # let text = include_bytes!(concat!(env!("CARGO_MANIFEST_DIR"), "/../../towns/block-town.txt"));
/// let network = Network::read(text)?;
/// // Straight on across the wide street, and to the right.
/// assert_eq!(judge_movement(network.as_bytes(), 0, 4), Ok(Level::Four));
/// assert_eq!(judge_movement(network.as_bytes(), 0, 2), Ok(Level::One));
/// assert_eq!(judge_movement(network.as_bytes(), 0, 1), Err(Refusal::NoMovement));
/// # Ok::<(), Box<dyn std::error::Error>>(())
/// ```
pub fn judge_movement(net: &[u8], first: usize, second: usize) -> Result<Level, Refusal> {
    let mut told = Told::default();
    answered(ffi::judge_movement(net, first, second, &mut told))?;
    Level::told(told[0])
}

/// The route that a search told of, if it found one.
fn found(told: &Told) -> Result<Option<Found>, Refusal> {
    if told[0] == 0 {
        return Ok(None);
    }
    Ok(Some(Found {
        count: told[1] as usize,
        feet: told[2],
        level: Level::told(told[3])?,
    }))
}

/// A shortest route within a tolerance, 1 to 4; none means that there is no
/// route within it.
///
/// Its runs stand in the buffer from the place on, every other number of the
/// buffer stays. The scratch holds anything afterwards. None and refusals
/// leave the buffer as it was, refusals the scratch too.
///
/// Refusals: [`Refusal::NotANetwork`], [`Refusal::NoSuchNode`],
/// [`Refusal::NoSuchTolerance`], [`Refusal::NoRoom`].
///
/// ```
/// use splicereel::{route, Lent, Level, Network, TOWN_RUNS};
/// # let text = include_bytes!(concat!(env!("CARGO_MANIFEST_DIR"), "/../../towns/block-town.txt"));
/// let network = Network::read(text)?;
/// let (mut best, mut previous, mut buffer) = ([0; TOWN_RUNS], [0; TOWN_RUNS], [7; TOWN_RUNS + 1]);
/// let lent = Lent { best: &mut best, previous: &mut previous, buffer: &mut buffer, place: 1 };
/// let found = route(network.as_bytes(), 0, 2, 3, lent)?.expect("a way round the block");
/// assert_eq!((found.count, found.feet, found.level), (3, 1_500, Level::One));
/// assert_eq!(buffer[..5], [7, 0, 2, 4, 7]);
/// # Ok::<(), Box<dyn std::error::Error>>(())
/// ```
pub fn route(
    net: &[u8],
    from: usize,
    to: usize,
    tolerance: usize,
    lent: Lent<'_>,
) -> Result<Option<Found>, Refusal> {
    let mut told = Told::default();
    answered(ffi::route(net, from, to, tolerance, lent, &mut told))?;
    found(&told)
}

/// A shortest route within the smallest tolerance that has any, and that
/// tolerance; otherwise as [`route`]. None means that there is no route at
/// all.
///
/// Refusals: [`Refusal::NotANetwork`], [`Refusal::NoSuchNode`],
/// [`Refusal::NoRoom`].
///
/// ```
/// use splicereel::{least_stress, Lent, Level, Network, TOWN_RUNS};
/// # let text = include_bytes!(concat!(env!("CARGO_MANIFEST_DIR"), "/../../towns/block-town.txt"));
/// let network = Network::read(text)?;
/// let (mut best, mut previous, mut buffer) = ([0; TOWN_RUNS], [0; TOWN_RUNS], [0; TOWN_RUNS]);
/// let lent = Lent { best: &mut best, previous: &mut previous, buffer: &mut buffer, place: 0 };
/// let (found, tolerance) = least_stress(network.as_bytes(), 0, 2, lent)?.expect("a way");
/// assert_eq!((found.feet, tolerance), (1_500, Level::One));
/// # Ok::<(), Box<dyn std::error::Error>>(())
/// ```
pub fn least_stress(
    net: &[u8],
    from: usize,
    to: usize,
    lent: Lent<'_>,
) -> Result<Option<(Found, Level)>, Refusal> {
    let mut told = Told::default();
    answered(ffi::least_stress(net, from, to, lent, &mut told))?;
    match found(&told)? {
        None => Ok(None),
        Some(found) => Ok(Some((found, Level::told(told[4])?))),
    }
}

/// Every node that has a route from `from` within a tolerance, 1 to 4, and of
/// at most `greatest` feet, with its least length; no other node.
///
/// The entries come in rising node number, the start among them with length 0,
/// and stand in the list from its start, two numbers each; every later number
/// of the list stays. The scratch holds anything afterwards. Refusals leave
/// list and scratch as they were. The greatest length may be any number; from
/// [`u32::MAX`] on it excludes no node.
///
/// Refusals: [`Refusal::NotANetwork`], [`Refusal::NoSuchNode`],
/// [`Refusal::NoSuchTolerance`], [`Refusal::NoRoom`],
/// [`Refusal::TooFewEntries`] for a list of less than two numbers for each
/// node.
///
/// ```
/// use splicereel::{reach_map, Network, Scratch, TOWN_LIST, TOWN_RUNS};
/// # let text = include_bytes!(concat!(env!("CARGO_MANIFEST_DIR"), "/../../towns/block-town.txt"));
/// let network = Network::read(text)?;
/// let (mut best, mut previous, mut list) = ([0; TOWN_RUNS], [0; TOWN_RUNS], [7; TOWN_LIST]);
/// let scratch = Scratch { best: &mut best, previous: &mut previous };
/// let entries = reach_map(network.as_bytes(), 0, 3, 1_500, scratch, &mut list)?;
/// let entries: Vec<_> = entries.map(|entry| (entry.node, entry.feet)).collect();
/// assert_eq!(entries, [(0, 0), (1, 300), (2, 1_500)]);
/// assert_eq!(list[..7], [0, 0, 1, 300, 2, 1_500, 7]);
///
/// // One foot less: node 2 is out of reach.
/// let scratch = Scratch { best: &mut best, previous: &mut previous };
/// let entries = reach_map(network.as_bytes(), 0, 3, 1_499, scratch, &mut list)?;
/// assert_eq!(entries.len(), 2);
/// # Ok::<(), Box<dyn std::error::Error>>(())
/// ```
pub fn reach_map<'l>(
    net: &[u8],
    from: usize,
    tolerance: usize,
    greatest: usize,
    scratch: Scratch<'_>,
    list: &'l mut [u32],
) -> Result<Entries<'l>, Refusal> {
    let mut told = Told::default();
    let number = ffi::reach_map(net, from, tolerance, greatest, scratch, list, &mut told);
    answered(number)?;
    Ok(Entries::of(list, told[0]))
}

/// The nearest of the marked nodes, with its least length within a tolerance, 1
/// to 4; none means that no marked node has a route within it.
///
/// A node is marked where its byte is not 0; bytes past the last node's mean
/// nothing. Of several that are equally near it is the one with the lowest
/// number, and a start that is marked is the nearest, at 0. The scratch holds
/// anything afterwards; refusals leave it as it was.
///
/// Refusals: [`Refusal::NotANetwork`], [`Refusal::NoSuchNode`],
/// [`Refusal::NoSuchTolerance`], [`Refusal::NoRoom`],
/// [`Refusal::TooFewEntries`] for fewer marks than nodes.
///
/// ```
/// use splicereel::{nearest, Entry, Network, Scratch, TOWN_RUNS};
/// # let text = include_bytes!(concat!(env!("CARGO_MANIFEST_DIR"), "/../../towns/block-town.txt"));
/// let network = Network::read(text)?;
/// let (mut best, mut previous) = ([0; TOWN_RUNS], [0; TOWN_RUNS]);
/// let mut ask = |marks: &[u8]| {
///     let scratch = Scratch { best: &mut best, previous: &mut previous };
///     nearest(network.as_bytes(), 0, 3, marks, scratch)
/// };
/// assert_eq!(ask(&[0, 1, 1])?, Some(Entry { node: 1, feet: 300 }));
/// assert_eq!(ask(&[0, 0, 1])?, Some(Entry { node: 2, feet: 1_500 }));
/// assert_eq!(ask(&[0, 0, 0])?, None);
/// # Ok::<(), Box<dyn std::error::Error>>(())
/// ```
pub fn nearest(
    net: &[u8],
    from: usize,
    tolerance: usize,
    marks: &[u8],
    scratch: Scratch<'_>,
) -> Result<Option<Entry>, Refusal> {
    let mut told = Told::default();
    answered(ffi::nearest(
        net, from, tolerance, marks, scratch, &mut told,
    ))?;
    Ok((told[0] != 0).then_some(Entry {
        node: told[1] as usize,
        feet: told[2],
    }))
}

/// Writes a network of edition 02 into `output` as one of edition 03, and gives
/// the number of bytes written; later bytes stay. A refusal leaves `output` as
/// it was.
///
/// The edition, the lengths' width and the head's check change, and nothing
/// else: every level is the same, and every route of the one network is a route
/// of the other, as long. Edition 01 has no move, since its levels would change.
///
/// Refusals: [`Refusal::NotANetwork`], [`Refusal::NoSuchMove`] for another
/// edition, [`Refusal::TooShortForMove`].
///
/// ```
/// use splicereel::{move_up, read, Refusal};
///
/// // One street of 500 feet.
/// let text = b"\
/// 010200020001FA
/// 0200000200010601F4010301191A020000000000000000000000000000C6
/// ";
/// let mut net = [0; 7 + 30];
/// assert_eq!(read(text, &mut net), Ok(37));
/// let mut output = [9; 7 + 32 + 1];
/// assert_eq!(move_up(&net, &mut output[..38]), Err(Refusal::TooShortForMove));
/// assert_eq!(output, [9; 40]);
/// assert_eq!(move_up(&net, &mut output), Ok(39));
///
/// // The head, with another edition and check; and the length, where two bytes
/// // 0 come before the two that it had.
/// assert_eq!(output[..7], [1, 3, 0, 2, 0, 1, 0xF9]);
/// assert_eq!(output[7..14], net[7..14]);
/// assert_eq!(output[14..18], 500_u32.to_be_bytes());
/// assert_eq!(output[18..39], net[16..]);
/// assert_eq!(output[39], 9);
///
/// // It is of edition 03 now, which is the last.
/// let refused = move_up(&output[..39], &mut []);
/// assert_eq!(refused, Err(Refusal::NoSuchMove));
/// ```
pub fn move_up(net: &[u8], output: &mut [u8]) -> Result<usize, Refusal> {
    let mut told = Told::default();
    answered(ffi::move_up(net, output, &mut told))?;
    Ok(output.len().min(told[0] as usize))
}

/// Writes a network of edition 03 into `output` as one of edition 02, and gives
/// the number of bytes written; later bytes stay. A refusal leaves `output` as
/// it was.
///
/// It changes what [`move_up`] changes: of a network that was moved up it gives
/// the first bytes again.
///
/// Refusals: [`Refusal::NotANetwork`], [`Refusal::NoSuchMove`] for another
/// edition, [`Refusal::AboveLimits`] for more than 1,000 nodes or segments or a
/// length above 52,800 feet, [`Refusal::TooShortForMove`].
///
/// ```
/// use splicereel::{move_back, move_up, Network, Refusal};
/// # let text = include_bytes!(concat!(env!("CARGO_MANIFEST_DIR"), "/../../towns/westerby.txt"));
/// let westerby = Network::read(text)?;
/// let (mut up, mut back) = ([0; 7 + 32 * 10], [0; 7 + 30 * 10]);
/// assert_eq!(move_up(westerby.as_bytes(), &mut up), Ok(327));
/// assert_eq!(move_back(&up, &mut back), Ok(307));
/// assert_eq!(back, westerby.as_bytes());
/// assert_eq!(move_back(&back, &mut up), Err(Refusal::NoSuchMove));
///
/// // Tarnmoor has roads of up to 264,000 feet.
/// # let text = include_bytes!(concat!(env!("CARGO_MANIFEST_DIR"), "/../../towns/tarnmoor.txt"));
/// let tarnmoor = Network::read(text)?;
/// assert_eq!(move_back(tarnmoor.as_bytes(), &mut []), Err(Refusal::AboveLimits));
/// # Ok::<(), Box<dyn std::error::Error>>(())
/// ```
pub fn move_back(net: &[u8], output: &mut [u8]) -> Result<usize, Refusal> {
    let mut told = Told::default();
    answered(ffi::move_back(net, output, &mut told))?;
    Ok(output.len().min(told[0] as usize))
}

#[cfg(test)]
mod tests {
    use super::part_of;

    /// Whatever were told, a part lies in its text.
    #[test]
    fn parts_lie_in_the_text() {
        let text = b"head\nline";
        for (told, part) in [
            ([5, 4], &text[5..]),
            ([0, 4], &text[..4]),
            ([9, 0], &text[9..]),
            ([5, usize::MAX], &text[5..]),
            ([10, 0], &text[9..]),
            ([usize::MAX; 2], &text[9..]),
        ] {
            let given = part_of(text, told);
            assert_eq!((given, given.as_ptr()), (part, part.as_ptr()));
        }
    }
}
