//! What one round asks: a town of some shape, its text good and damaged, its
//! judgements, its routes and their reach, its moves, and arguments of every kind.

use crate::question::Question;
use crate::reached::ROOMS;
use crate::{Comparer, Mismatch, counties, editions, limits, lines, moves, reach};
use oracle::Net;
use splicereel::ffi::Told;
use towns::draw::{self, Rng, Shape, Spot, damage, damage_kept};
use towns::edition::{EDITIONS, all_marks};
use towns::lend::Lengths;
use towns::sizes::MOST_SEGMENTS;
use towns::town::{Town, text_of};

pub type Done = Result<(), Box<Mismatch>>;

/// A town, its kept bytes, and what the slow implementation makes of them.
pub struct Subject {
    pub town: Town,
    pub bytes: Vec<u8>,
    pub net: Option<Net>,
}

impl Subject {
    pub fn new(town: Town) -> Subject {
        let bytes = town.bytes();
        Subject {
            net: Net::parse(&bytes),
            bytes,
            town,
        }
    }

    pub fn nodes(&self) -> usize {
        usize::from(self.town.nodes)
    }

    pub fn runs(&self) -> usize {
        2 * self.town.segments.len()
    }
}

/// Every comparison of a round: mostly about a town, now and then about a county.
pub fn play(comparer: &mut Comparer<'_>, rng: &mut Rng) -> Done {
    let turn = comparer.round / counties::ROUNDS;
    if comparer.round % counties::ROUNDS == counties::ROUNDS - 1 {
        return counties::play(comparer, rng, turn);
    }
    let subject = some_town(comparer, rng);
    texts(comparer, rng, &subject)?;
    noise(comparer, rng, &subject)?;
    lines::edges(comparer, rng, &subject)?;
    segments_judged(comparer, rng, &subject)?;
    movements_judged(comparer, rng, &subject)?;
    pairs(comparer, rng, &subject)?;
    odd_searches(comparer, rng, &subject)?;
    reach::reach(comparer, rng, &subject)?;
    reach::odd(comparer, rng, &subject)?;
    no_networks(comparer, rng, &subject)?;
    editions::values(comparer, rng, &subject)?;
    editions::streets(comparer, rng, &subject)?;
    editions::both(comparer, rng, &subject)?;
    limits::heads(comparer, rng)?;
    limits::lengths(comparer, rng, &subject)?;
    limits::widths(comparer, rng, &subject)?;
    moves::moves(comparer, rng, &subject)?;
    narrow_parking(comparer, rng, subject)?;
    reach::ties(comparer, rng)
}

/// The town of a round: of the shapes by turns, and of any edition.
fn some_town(comparer: &mut Comparer<'_>, rng: &mut Rng) -> Subject {
    let shapes = Shape::ALL.len() as u64;
    let shape = Shape::ALL[(comparer.round % shapes) as usize];
    let segments = match rng.below(100) {
        0..=79 => rng.range(0, 14),
        80..=97 => rng.range(15, 120),
        _ => rng.range(MOST_SEGMENTS - 100, MOST_SEGMENTS),
    };
    let seed = rng.bits();
    let edition = rng.pick(&EDITIONS);
    let town = draw::town_of(edition, shape, seed, segments);
    comparer.about = format!(
        "{} of edition {edition} from seed {seed}, {segments} segments",
        shape.name()
    );
    comparer.reached.count(format!("shape: {}", shape.name()));
    Subject::new(town)
}

/// The good text with enough room and too little, and each fault at the first
/// line, a middle one and the last.
fn texts(comparer: &mut Comparer<'_>, rng: &mut Rng, subject: &Subject) -> Done {
    let (text, size) = (subject.town.text(), subject.bytes.len());
    for (room, kind) in [
        (size, "exact"),
        (size + rng.range(1, 70), "longer"),
        (size - 1, "one short"),
        (rng.below(size), "shorter"),
        (0, "0"),
    ] {
        comparer.reached.count(format!("output length: {kind}"));
        lines::text(comparer, rng, &text, room)?;
    }
    for number in 1..=7 {
        for spot in Spot::ALL {
            if let Some(damaged) = damage(rng, &subject.town, number, spot) {
                lines::text(comparer, rng, &damaged.text, damaged.output)?;
            }
        }
    }
    Ok(())
}

/// Texts changed here and there, fields changed under a good check, and plain
/// garbage.
fn noise(comparer: &mut Comparer<'_>, rng: &mut Rng, subject: &Subject) -> Done {
    for _ in 0..6 {
        let mut text = subject.town.text();
        for _ in 0..rng.range(1, 3) {
            draw::change(rng, &mut text);
        }
        let room = rng.pick(&[subject.bytes.len(), 30_007, 67, 7]);
        lines::text(comparer, rng, &text, room)?;
    }
    for _ in 0..6 {
        let (text, kept) = changed_field(rng, &subject.town);
        let room = subject.bytes.len() + 30;
        lines::text(comparer, rng, &text, room)?;
        let segment = rng.below(4);
        let town = Net::parse(&kept);
        comparer.compare(rng, town.as_ref(), &kept, Question::Segment { segment })?;
        moves::asked_twice(comparer, rng, &kept)?;
    }
    for digits in [&b"0012AF\n"[..], b"0123456789ABCDEFabcg \r\n\0\xFF"] {
        let length = rng.below(150);
        let text: Vec<u8> = (0..length).map(|_| rng.pick(digits)).collect();
        let room = rng.below(100);
        lines::text(comparer, rng, &text, room)?;
    }
    Ok(())
}

/// A town with one byte of one frame changed and the frame sealed again: its
/// text and its bytes.
fn changed_field(rng: &mut Rng, town: &Town) -> (Vec<u8>, Vec<u8>) {
    let mut frames = town.frames();
    let place = rng.below(frames.len());
    let frame = &mut frames[place];
    let at = rng.below(frame.len());
    let number = rng.pick(&[
        0, 1, 2, 3, 4, 5, 6, 7, 8, 12, 13, 16, 31, 32, 60, 61, 85, 86, 255,
    ]);
    frame[at] = number;
    draw::seal(frame);
    (text_of(&frames), frames.concat())
}

/// Numbers that a narrower one would take for `good`, and the greatest.
pub fn huge(rng: &mut Rng, good: usize) -> usize {
    let high = rng.pick(&[1 << 8, 1 << 16, 1 << 31, 1 << 32, 1 << 63]);
    rng.pick(&[good.wrapping_add(high), usize::MAX, usize::MAX - good])
}

fn segments_judged(comparer: &mut Comparer<'_>, rng: &mut Rng, subject: &Subject) -> Done {
    let segments = subject.town.segments.len();
    let some = |rng: &mut Rng| rng.below(segments);
    let mut asked = vec![0, segments, segments + 1, segments.wrapping_sub(1)];
    for _ in 0..8.min(segments) {
        asked.push(some(rng));
    }
    for _ in 0..2 {
        let good = some(rng);
        asked.push(huge(rng, good));
    }
    for segment in asked {
        let question = Question::Segment { segment };
        comparer.compare(rng, subject.net.as_ref(), &subject.bytes, question)?;
    }
    Ok(())
}

/// A run that leaves the node where another arrives, if there is one that the
/// search meets soon.
pub fn next_run(rng: &mut Rng, town: &Town, first: usize) -> Option<usize> {
    let segment = town.segments.get(first / 2)?;
    let node = if first % 2 == 0 { segment.b } else { segment.a }.node;
    let runs = 2 * town.segments.len();
    let start = rng.below(runs);
    (0..runs).map(|step| (start + step) % runs).find(|&run| {
        let segment = &town.segments[run / 2];
        let leaves = if run % 2 == 0 { segment.a } else { segment.b };
        leaves.node == node
    })
}

fn movements_judged(comparer: &mut Comparer<'_>, rng: &mut Rng, subject: &Subject) -> Done {
    let runs = subject.runs();
    let mut asked = vec![(0, 0), (runs, 0), (0, runs), (runs + 1, runs + 1)];
    for _ in 0..16.min(runs) {
        let first = rng.below(runs);
        let second = next_run(rng, &subject.town, first).unwrap_or(first);
        asked.push((first, second));
    }
    for _ in 0..4 {
        asked.push((rng.below(runs), rng.below(runs)));
    }
    let (first, second) = (rng.below(runs), rng.below(runs));
    asked.push((huge(rng, first), second));
    asked.push((first, huge(rng, second)));
    for (first, second) in asked {
        let question = Question::Movement { first, second };
        comparer.compare(rng, subject.net.as_ref(), &subject.bytes, question)?;
    }
    Ok(())
}

/// Two nodes, mostly such that have streets.
pub fn two_nodes(rng: &mut Rng, subject: &Subject) -> (usize, usize) {
    let mut node = || {
        let segments = &subject.town.segments;
        if segments.is_empty() || rng.chance(10) {
            return rng.below(subject.nodes());
        }
        let segment = rng.pick(segments);
        usize::from(rng.pick(&[segment.a, segment.b]).node)
    };
    (node(), node())
}

/// Enough room for a search: exactly so much, or more, from some place on.
pub fn enough(rng: &mut Rng, runs: usize) -> Lengths {
    let exact = Lengths::exact(runs);
    if rng.chance(40) {
        return exact;
    }
    let place = rng.below(5);
    Lengths {
        best: runs + rng.below(3),
        previous: runs + rng.below(3),
        buffer: place + runs + rng.below(4),
        place,
    }
}

/// Pairs of nodes.
fn pairs(comparer: &mut Comparer<'_>, rng: &mut Rng, subject: &Subject) -> Done {
    for _ in 0..5 {
        let (from, to) = two_nodes(rng, subject);
        pair(comparer, rng, subject, from, to)?;
    }
    Ok(())
}

/// Two nodes at every tolerance and by Least stress: the answers must rise
/// with the tolerance, and Least stress must be the first of them. Gives what
/// was told.
pub fn pair(
    comparer: &mut Comparer<'_>,
    rng: &mut Rng,
    subject: &Subject,
    from: usize,
    to: usize,
) -> Result<Vec<Told>, Box<Mismatch>> {
    let mut answers = Vec::new();
    for tolerance in [Some(1), Some(2), Some(3), Some(4), None] {
        let lengths = enough(rng, subject.runs());
        let question = Question::Search {
            from,
            to,
            tolerance,
            lengths,
        };
        let answer = comparer.compare(rng, subject.net.as_ref(), &subject.bytes, question)?;
        answers.push(answer.told());
    }
    if let Err(complaint) = consistent(&answers) {
        let question = format!("from {from} to {to}, tolerances 1 to 4 and least: {answers:?}");
        return Err(comparer.disagreement(&subject.bytes, question, complaint));
    }
    Ok(answers)
}

/// Of what was told at tolerances 1 to 4 and by Least stress.
fn consistent(answers: &[Told]) -> Result<(), &'static str> {
    let [routes @ .., least] = answers else {
        return Ok(());
    };
    let length = |told: &Told| (told[0] == 1).then_some(told[2]);
    for pair in routes.windows(2) {
        match (length(&pair[0]), length(&pair[1])) {
            (Some(_), None) => return Err("a higher tolerance has no route"),
            (Some(low), Some(high)) if high > low => return Err("a higher tolerance is longer"),
            _ => {}
        }
    }
    let first = (1..).zip(routes).find(|(_, told)| told[0] == 1);
    let (first, least) = (
        first.map(|(tolerance, told)| (tolerance, told[2])),
        length(least).map(|length| (least[4], length)),
    );
    if first == least {
        Ok(())
    } else {
        Err("Least stress is not Route at the smallest tolerance that has a route")
    }
}

/// What is lent to a search, by the names of [`ROOMS`].
fn room(rng: &mut Rng, runs: usize, kind: &str) -> Lengths {
    let exact = Lengths::exact(runs);
    let place = rng.range(1, 5);
    let (buffer, short) = (runs + place, runs - rng.range(1, runs.max(1)).min(runs));
    let at = |buffer, place| Lengths {
        buffer,
        place,
        ..exact
    };
    match kind {
        "roomy" => Lengths {
            best: runs + 3,
            previous: runs + 1,
            ..at(buffer + 2, place)
        },
        "exact fit at a place" => at(buffer, place),
        "one too far" => at(buffer.saturating_sub(1), place),
        "place at the end" => at(buffer, buffer),
        "place beyond the end" => at(buffer, buffer + place),
        "greatest place" => at(buffer, usize::MAX),
        // Where place + 2S is taken modulo 2 to the 64th, it seems to fit.
        "place that wraps round" => at(buffer, usize::MAX - rng.below(runs + 1)),
        "short best" => Lengths {
            best: short,
            ..exact
        },
        "short previous" => Lengths {
            previous: short,
            ..exact
        },
        _ => exact,
    }
}

/// Every kind of room, with good and bad nodes and tolerances: which refusal
/// comes first.
fn odd_searches(comparer: &mut Comparer<'_>, rng: &mut Rng, subject: &Subject) -> Done {
    for kind in ROOMS {
        odd_searches_of(comparer, rng, subject, kind)?;
    }
    Ok(())
}

/// One kind of room, by Route and by Least stress.
pub fn odd_searches_of(
    comparer: &mut Comparer<'_>,
    rng: &mut Rng,
    subject: &Subject,
    kind: &str,
) -> Done {
    comparer.reached.count(format!("room: {kind}"));
    for least in [false, true] {
        let question = odd_search(rng, subject, kind, least);
        comparer.compare(rng, subject.net.as_ref(), &subject.bytes, question)?;
    }
    Ok(())
}

fn odd_search(rng: &mut Rng, subject: &Subject, kind: &str, least: bool) -> Question<'static> {
    let (from, to) = two_nodes(rng, subject);
    let (from, to) = (odd_node(rng, subject, from), odd_node(rng, subject, to));
    let tolerance = odd_tolerance(rng);
    Question::Search {
        from,
        to,
        tolerance: (!least).then_some(tolerance),
        lengths: room(rng, subject.runs(), kind),
    }
}

/// That node, or now and then one that does not exist.
pub fn odd_node(rng: &mut Rng, subject: &Subject, node: usize) -> usize {
    let nodes = subject.nodes();
    if rng.chance(15) {
        return rng.pick(&[nodes, nodes + 1, huge(&mut rng.clone(), node)]);
    }
    node
}

/// A tolerance, which now and then is none.
pub fn odd_tolerance(rng: &mut Rng) -> usize {
    let tolerance = rng.range(1, 4);
    if rng.chance(30) {
        return rng.pick(&[0, 5, 255, 256, huge(&mut rng.clone(), tolerance)]);
    }
    tolerance
}

/// Bytes that are no network, whatever else is asked.
fn no_networks(comparer: &mut Comparer<'_>, rng: &mut Rng, subject: &Subject) -> Done {
    for _ in 0..4 {
        let bad = damage_kept(rng, &subject.town);
        let segment = rng.pick(&[0, 1, usize::MAX]);
        comparer.compare(rng, None, &bad, Question::Segment { segment })?;
        let (first, second) = (rng.below(8), rng.pick(&[0, 3, usize::MAX]));
        comparer.compare(rng, None, &bad, Question::Movement { first, second })?;
        for least in [false, true] {
            let kind = rng.pick(&ROOMS);
            let question = odd_search(rng, subject, kind, least);
            comparer.compare(rng, None, &bad, question)?;
        }
        moves::asked_twice(comparer, rng, &bad)?;
        let bad = Subject {
            town: subject.town.clone(),
            bytes: bad,
            net: None,
        };
        reach::some_odd(comparer, rng, &bad)?;
    }
    Ok(())
}

/// A street beside parking in the place of one of the town's, on either side of
/// each limit that Note 2 of document 02 asks about: judged, and its ends as a
/// pair.
fn narrow_parking(comparer: &mut Comparer<'_>, rng: &mut Rng, mut subject: Subject) -> Done {
    if subject.town.segments.is_empty() {
        return Ok(());
    }
    let segment = rng.below(subject.town.segments.len());
    let marks = rng.below(1 + usize::from(all_marks(subject.town.edition))) as u8;
    let street = &mut subject.town.segments[segment];
    *street = street.street(
        1,
        rng.pick(&[1, 1, 1, 2]),
        rng.pick(&[5, 23, 24, 25, 26, 30, 31, 36]),
        rng.pick(&[0, 26, 27, 28, 29, 30]),
        marks,
    );
    let ends = [street.a, street.b].map(|end| usize::from(end.node));
    let subject = Subject::new(subject.town);
    comparer.compare(
        rng,
        subject.net.as_ref(),
        &subject.bytes,
        Question::Segment { segment },
    )?;
    pair(comparer, rng, &subject, ends[0], ends[1]).map(|_| ())
}

#[cfg(test)]
mod tests {
    use super::consistent;
    use splicereel::ffi::Told;

    fn found(length: u32, tolerance: u32) -> Told {
        [1, 1, length, 1, tolerance, 0, 0, 0]
    }

    #[test]
    fn answers_about_one_pair() {
        let none = Told::default();
        let rising = [none, found(900, 0), found(900, 0), found(600, 0)];
        let with = |routes: [Told; 4], least: Told| consistent(&[&routes[..], &[least]].concat());
        assert_eq!(with(rising, found(900, 2)), Ok(()));
        assert_eq!(with([none; 4], none), Ok(()));

        let lost = [none, found(900, 0), none, found(600, 0)];
        let longer = [none, found(900, 0), found(901, 0), found(600, 0)];
        assert!(with(lost, found(900, 2)).is_err());
        assert!(with(longer, found(900, 2)).is_err());
        for least in [none, found(900, 3), found(600, 2)] {
            assert!(with(rising, least).is_err(), "{least:?}");
        }
    }
}
