//! Whether two sides agree on a question, in everything that can be seen.

use crate::calls::Way;
use crate::question::{Question, Seen};
use oracle::Net;
use splicereel::ffi::Told;

/// What was wrong, in words.
type Complaint = String;

/// Nothing where the fact holds.
fn holds(fact: bool, complaint: &str) -> Result<(), Complaint> {
    if fact { Ok(()) } else { Err(complaint.into()) }
}

/// Holds what the archive did to what the twin did, and to what no call may
/// do. `town` is the network of the question, where it is one.
pub fn agree(
    question: Question<'_>,
    town: Option<&Net>,
    archive: &Seen,
    twin: &Seen,
) -> Result<(), Complaint> {
    if archive.number != twin.number {
        return Err(format!(
            "{} where the twin says {}",
            archive.number, twin.number
        ));
    }
    holds(archive.bytes.untouched(), "the text or network was written")?;
    holds(archive.marks.untouched(), "the marks were written")?;
    holds(archive.told.guards_hold(), "a guard of told was written")?;
    same_part(archive, twin)?;
    match question {
        Question::Read { .. } => written(archive, twin),
        Question::Move { way, room } => {
            written(archive, twin)?;
            moved(way, room, archive)
        }
        Question::Search { .. } if archive.number == 0 => search(question, town, archive, twin),
        Question::Map { .. } | Question::Nearest { .. } if archive.number == 0 => {
            reach(question, archive, twin)
        }
        _ => {
            holds(archive.output.untouched(), "an output was written")?;
            holds(archive.lent.untouched(), "a refusal wrote to what was lent")?;
            holds(archive.list.untouched(), "a refusal wrote to the list")?;
            same_told(archive, &twin.told())?;
            judged(question, town, archive)
        }
    }
}

/// A judgement must be the slow implementation's too.
fn judged(question: Question<'_>, town: Option<&Net>, archive: &Seen) -> Result<(), Complaint> {
    let Some(town) = town else { return Ok(()) };
    let told = archive.told();
    let (slow, fast) = match question {
        Question::Segment { segment } => (
            town.segment(segment)
                .map(|(level, measure)| vec![level.into(), measure.into()]),
            &told[..2],
        ),
        Question::Movement { first, second } => (
            town.movement(first, second).map(|level| vec![level.into()]),
            &told[..1],
        ),
        _ => return Ok(()),
    };
    let same = match &slow {
        Ok(numbers) => archive.number == 0 && fast == numbers,
        Err(number) => archive.number == u32::from(*number),
    };
    holds(same, &format!("the slow implementation says {slow:?}"))
}

/// A reach map or nearest node that was answered: the twin's, and nothing
/// written besides but scratch.
fn reach(question: Question<'_>, archive: &Seen, twin: &Seen) -> Result<(), Complaint> {
    same_told(archive, &twin.told())?;
    let count = match question {
        Question::Map { .. } => archive.told()[0] as usize,
        _ => 0,
    };
    holds(
        archive.list.untouched_but(0, count.saturating_mul(2)),
        "the list was written past the last entry",
    )?;
    holds(
        archive.list.now() == twin.list.now(),
        "the list has other entries",
    )?;
    holds(archive.output.untouched(), "an output was written")?;
    holds(
        archive.lent.written(0),
        "a guard of the scratch was written",
    )
}

/// The part of the text must be the twin's; where none is told it is the
/// garbage that both sides started from.
fn same_part(archive: &Seen, twin: &Seen) -> Result<(), Complaint> {
    holds(archive.part.guards_hold(), "a guard of part was written")?;
    let (part, must) = (archive.part(), twin.part());
    if part == must {
        return Ok(());
    }
    Err(format!("part {part:?}, must be {must:?}"))
}

/// The eight numbers told must be these; those that a call does not name are
/// the garbage that both sides started from.
fn same_told(archive: &Seen, must: &Told) -> Result<(), Complaint> {
    if archive.told.now() == must {
        return Ok(());
    }
    Err(format!("told {:?}, must be {must:?}", archive.told.now()))
}

/// Read and the moves: an output holds the bytes that are told, and nothing
/// else was written to it.
fn written(archive: &Seen, twin: &Seen) -> Result<(), Complaint> {
    same_told(archive, &twin.told())?;
    let written = match archive.number {
        0 => archive.told()[0] as usize,
        _ => 0,
    };
    holds(
        archive.output.untouched_but(0, written),
        "the output was written past the bytes told",
    )?;
    holds(
        archive.output.now() == twin.output.now(),
        "the output holds other bytes",
    )
}

/// A moved network must be the slow implementation's too.
fn moved(way: Way, room: usize, archive: &Seen) -> Result<(), Complaint> {
    let net = archive.bytes.now();
    let slow = match way {
        Way::Up => oracle::move_up(net, room),
        Way::Back => oracle::move_back(net, room),
    };
    let same = match &slow {
        Ok(bytes) => archive.number == 0 && archive.output.now().starts_with(bytes),
        Err(number) => archive.number == u32::from(*number),
    };
    let slow = slow.map(|bytes| bytes.len());
    holds(same, &format!("the slow implementation says {slow:?}"))
}

/// A search that answered: none must be none, and a route is ridden.
fn search(
    question: Question<'_>,
    town: Option<&Net>,
    archive: &Seen,
    twin: &Seen,
) -> Result<(), Complaint> {
    let (told, twins) = (archive.told(), twin.told());
    // Count and level are the route's own; all else is the twin's.
    let mut must = twins;
    if told[0] == 1 && twins[0] == 1 {
        (must[1], must[3]) = (told[1], told[3]);
    }
    same_told(archive, &must)?;
    let count = if told[0] == 1 { told[1] as usize } else { 0 };
    holds(
        archive.lent.written(count),
        "a guard was written, or the buffer outside the route",
    )?;
    holds(archive.output.untouched(), "an output was written")?;
    if told[0] == 1 {
        ride(question, town, archive, &told)?;
    }
    Ok(())
}

/// Rides the route that was drawn, run by run.
fn ride(
    question: Question<'_>,
    town: Option<&Net>,
    archive: &Seen,
    told: &Told,
) -> Result<(), Complaint> {
    let (
        Question::Search {
            from,
            to,
            tolerance,
            ..
        },
        Some(town),
    ) = (question, town)
    else {
        return Err("a route without a network".into());
    };
    let within = tolerance.unwrap_or(told[4] as usize);
    let (count, level) = (told[1] as usize, u8::try_from(told[3]));
    let level = level.map_err(|_| format!("level {}", told[3]))?;
    let within = u8::try_from(within).map_err(|_| format!("tolerance {within}"))?;
    let runs = archive.lent.runs(count);
    town.check_route(from, to, within, runs, count, told[2], level)
}
