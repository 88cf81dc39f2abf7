//! The archive against the twin, and the comparison against faults made on
//! purpose.

mod misread;

use compare::Comparer;
use compare::calls::{Archive, Calls, Reach, Twin, Way};
use splicereel::ffi::{Lent, Part, Scratch, Told};
use towns::draw;
use towns::sizes::{HEAD, segment_bytes};
use towns::town::{COUNTY, OLDER, SIGNAL};

/// Rounds of about 735 comparisons each; a mismatch tells how to replay it.
const ROUNDS: u64 = 1_200;

#[test]
fn archive_and_twin_agree() {
    let seed = 2_012;
    let mut comparer = Comparer::new(&Archive, seed);
    for round in 0..ROUNDS {
        if let Err(mismatch) = comparer.round(round) {
            panic!("{mismatch}");
        }
    }
    let missing = comparer.reached.missing();
    assert!(missing.is_empty(), "never reached: {missing:?}");
    assert!(comparer.made >= 20_000, "{} comparisons", comparer.made);
    println!("seed {seed}: {} comparisons", comparer.made);
}

/// What a wrong implementation does.
#[derive(Clone, Copy, Debug, PartialEq)]
enum Fault {
    Nothing,
    Line,
    ByteKept,
    OutputPastTheEnd,
    OutputOnRefusal,
    PartWithIts0A,
    LineAfter,
    AcceptsWrongCount,
    HeadForTooFew,
    EmptyPartAtTheStart,
    EmptyLineAtTheEnd,
    ReturnLeftOut,
    PartLengthNotWritten,
    LengthOneLonger,
    NarrowLength,
    ToldBeyond,
    ToldOnRefusal,
    ToldOnNone,
    Measure,
    ThreesAndFoursMerged,
    NoFootnote,
    QuietAt25,
    QuietByCentreline,
    MixedWhereEqual,
    MixedWithoutItsMeasure,
    MixedNever,
    MixedAtOnceItsLanes,
    MixedAtTwiceItsLanes,
    WidenedOneWay,
    WidenedByTwo,
    WidenedByFive,
    WidenedWithoutMark,
    NeverWidened,
    SignalAtOne,
    SignalOntoTheExit,
    ImprovedSignalAtFour,
    NewerRulesUnder01,
    MarksTo63,
    ReadsMarksTo63,
    MarkUnder01,
    ControlSix,
    ImprovedSignalUnder01,
    ReadsImprovedSignalUnder01,
    No02,
    ReadsNo02,
    NarrowSegment,
    NarrowRun,
    NarrowTolerance,
    ExitAbove,
    ClosedRunsUncounted,
    Count,
    Level,
    Length,
    NotWritten,
    BeforeThePlace,
    PastTheRoute,
    BufferOnNone,
    ScratchOnRefusal,
    NoneTooSoon,
    LeastAtFour,
    RoomBeforeTolerance,
    MapBelowTheGreatest,
    MapWithoutTheStart,
    MapOfNoLength,
    NodeAndFeetExchanged,
    NearNodesFirst,
    NarrowGreatest,
    GreatestThatWraps,
    MapAtToleranceFour,
    ListPastTheLast,
    ListOnRefusal,
    ScratchBeforeEntries,
    EntriesBeforeRoom,
    OneNumberAnEntry,
    MarksOneShort,
    MarkOfOneOnly,
    MarkPastTheLast,
    MarkedStartPassedOver,
    HigherOfATie,
    NoneWhereFar,
    FoundWhereNone,
    ToldOnNearestNone,
    ToldOnEntriesRefused,
    HighBytesBy256,
    LowTwoBytes,
    LowThreeBytes,
    LengthTo264001,
    LengthTo65535Under02,
    LengthTo52800Under03,
    CountsOf03Under02,
    CountsOf02Under03,
    ShortFramesUnder03,
    LongFramesUnder02,
    LanesNotMoved,
    OlderLevelsUnder03,
    OlderSignalsUnder03,
    Edition04,
    No03,
    MemoryOfATown,
    RunsOfATown,
    RunIn13Bits,
    LineIn12Bits,
    LengthIn31Bits,
    NoneAbove31Bits,
    MapIn31Bits,
    NearestIn31Bits,
    EachStreetOnce,
    OutputOfShortFrames,
    HeadNotMoved,
    CheckNotMoved,
    CheckMovedTheOtherWay,
    EachCheckMoved,
    ZerosAfterTheLength,
    ZerosBeforeTheCheck,
    MovedLengthInAByte,
    LastFrameNotMoved,
    FirstFrameTwice,
    MovedPastTheEnd,
    NothingWithoutSegments,
    ToldTheSource,
    ToldBeyondMoved,
    ToldOn18,
    OutputOn8,
    OutputOn16,
    OutputOn17,
    OutputOn18,
    OldestMovedUp,
    CountyMovedUp,
    NewerMovedBack,
    NodesNotLimited,
    SegmentsNotLimited,
    LengthsNotLimited,
    LengthsTo65535,
    LowBytesLimited,
    FirstLengthNotLimited,
    LastLengthNotLimited,
    NodesTo999,
    SegmentsTo999,
    LengthsTo52799,
    LargerIsNoNetwork,
    ExactIsTooShort,
    RoomOfTheSource,
    ShortBeforeAbove,
    ShortBeforeLonger,
    AboveBeforeEdition,
    ShortBeforeEdition,
    EditionBeforeNetwork,
    AboveBeforeNetwork,
    ShortBeforeNetwork,
    AboveAndShortExchanged,
}

const FAULTS: [Fault; 149] = [
    Fault::Line,
    Fault::ByteKept,
    Fault::OutputPastTheEnd,
    Fault::OutputOnRefusal,
    Fault::PartWithIts0A,
    Fault::LineAfter,
    Fault::AcceptsWrongCount,
    Fault::HeadForTooFew,
    Fault::EmptyPartAtTheStart,
    Fault::EmptyLineAtTheEnd,
    Fault::ReturnLeftOut,
    Fault::PartLengthNotWritten,
    Fault::LengthOneLonger,
    Fault::NarrowLength,
    Fault::ToldBeyond,
    Fault::ToldOnRefusal,
    Fault::ToldOnNone,
    Fault::Measure,
    Fault::ThreesAndFoursMerged,
    Fault::NoFootnote,
    Fault::QuietAt25,
    Fault::QuietByCentreline,
    Fault::MixedWhereEqual,
    Fault::MixedWithoutItsMeasure,
    Fault::MixedNever,
    Fault::MixedAtOnceItsLanes,
    Fault::MixedAtTwiceItsLanes,
    Fault::WidenedOneWay,
    Fault::WidenedByTwo,
    Fault::WidenedByFive,
    Fault::WidenedWithoutMark,
    Fault::NeverWidened,
    Fault::SignalAtOne,
    Fault::SignalOntoTheExit,
    Fault::ImprovedSignalAtFour,
    Fault::NewerRulesUnder01,
    Fault::MarksTo63,
    Fault::ReadsMarksTo63,
    Fault::MarkUnder01,
    Fault::ControlSix,
    Fault::ImprovedSignalUnder01,
    Fault::ReadsImprovedSignalUnder01,
    Fault::No02,
    Fault::ReadsNo02,
    Fault::NarrowSegment,
    Fault::NarrowRun,
    Fault::NarrowTolerance,
    Fault::ExitAbove,
    Fault::ClosedRunsUncounted,
    Fault::Count,
    Fault::Level,
    Fault::Length,
    Fault::NotWritten,
    Fault::BeforeThePlace,
    Fault::PastTheRoute,
    Fault::BufferOnNone,
    Fault::ScratchOnRefusal,
    Fault::NoneTooSoon,
    Fault::LeastAtFour,
    Fault::RoomBeforeTolerance,
    Fault::MapBelowTheGreatest,
    Fault::MapWithoutTheStart,
    Fault::MapOfNoLength,
    Fault::NodeAndFeetExchanged,
    Fault::NearNodesFirst,
    Fault::NarrowGreatest,
    Fault::GreatestThatWraps,
    Fault::MapAtToleranceFour,
    Fault::ListPastTheLast,
    Fault::ListOnRefusal,
    Fault::ScratchBeforeEntries,
    Fault::EntriesBeforeRoom,
    Fault::OneNumberAnEntry,
    Fault::MarksOneShort,
    Fault::MarkOfOneOnly,
    Fault::MarkPastTheLast,
    Fault::MarkedStartPassedOver,
    Fault::HigherOfATie,
    Fault::NoneWhereFar,
    Fault::FoundWhereNone,
    Fault::ToldOnNearestNone,
    Fault::ToldOnEntriesRefused,
    Fault::HighBytesBy256,
    Fault::LowTwoBytes,
    Fault::LowThreeBytes,
    Fault::LengthTo264001,
    Fault::LengthTo65535Under02,
    Fault::LengthTo52800Under03,
    Fault::CountsOf03Under02,
    Fault::CountsOf02Under03,
    Fault::ShortFramesUnder03,
    Fault::LongFramesUnder02,
    Fault::LanesNotMoved,
    Fault::OlderLevelsUnder03,
    Fault::OlderSignalsUnder03,
    Fault::Edition04,
    Fault::No03,
    Fault::MemoryOfATown,
    Fault::RunsOfATown,
    Fault::RunIn13Bits,
    Fault::LineIn12Bits,
    Fault::LengthIn31Bits,
    Fault::NoneAbove31Bits,
    Fault::MapIn31Bits,
    Fault::NearestIn31Bits,
    Fault::EachStreetOnce,
    Fault::OutputOfShortFrames,
    Fault::HeadNotMoved,
    Fault::CheckNotMoved,
    Fault::CheckMovedTheOtherWay,
    Fault::EachCheckMoved,
    Fault::ZerosAfterTheLength,
    Fault::ZerosBeforeTheCheck,
    Fault::MovedLengthInAByte,
    Fault::LastFrameNotMoved,
    Fault::FirstFrameTwice,
    Fault::MovedPastTheEnd,
    Fault::NothingWithoutSegments,
    Fault::ToldTheSource,
    Fault::ToldBeyondMoved,
    Fault::ToldOn18,
    Fault::OutputOn8,
    Fault::OutputOn16,
    Fault::OutputOn17,
    Fault::OutputOn18,
    Fault::OldestMovedUp,
    Fault::CountyMovedUp,
    Fault::NewerMovedBack,
    Fault::NodesNotLimited,
    Fault::SegmentsNotLimited,
    Fault::LengthsNotLimited,
    Fault::LengthsTo65535,
    Fault::LowBytesLimited,
    Fault::FirstLengthNotLimited,
    Fault::LastLengthNotLimited,
    Fault::NodesTo999,
    Fault::SegmentsTo999,
    Fault::LengthsTo52799,
    Fault::LargerIsNoNetwork,
    Fault::ExactIsTooShort,
    Fault::RoomOfTheSource,
    Fault::ShortBeforeAbove,
    Fault::ShortBeforeLonger,
    Fault::AboveBeforeEdition,
    Fault::ShortBeforeEdition,
    Fault::EditionBeforeNetwork,
    Fault::AboveBeforeNetwork,
    Fault::ShortBeforeNetwork,
    Fault::AboveAndShortExchanged,
];

/// The twin with one fault.
struct Faulty(Fault);

impl Faulty {
    fn has(&self, fault: Fault) -> bool {
        self.0 == fault
    }

    fn narrow(&self, fault: Fault, number: usize) -> usize {
        if self.has(fault) {
            number as u32 as usize
        } else {
            number
        }
    }
}

/// A network with the legs numbered the other way round each node, so that
/// stepping down from a leg is stepping up from it.
fn mirrored(net: &[u8]) -> Vec<u8> {
    let mut net = net.to_vec();
    let size = segment_bytes(net[1]);
    for frame in net[HEAD..].chunks_exact_mut(size) {
        for leg in [3, 6] {
            frame[leg] = (8 - frame[leg]) % 8;
        }
        draw::seal(frame);
    }
    net
}

/// A network without the segments whose one end is where the first run arrives
/// and is left by no open run, and the two runs in it.
fn without_closed(net: &[u8], first: usize, second: usize) -> (Vec<u8>, [usize; 2]) {
    let (head, frames) = net.split_at(HEAD);
    let size = segment_bytes(net[1]);
    let frames: Vec<&[u8]> = frames.chunks_exact(size).collect();
    let node = &frames[first / 2][[4, 1][first % 2]..][..2];
    let stays = |s: usize| {
        let (a, b, ways) = (&frames[s][1..3], &frames[s][4..6], frames[s][size - 20]);
        let closed = a != b && (a == node && ways == 2 || b == node && ways == 1);
        [first / 2, second / 2].contains(&s) || !closed
    };
    let staying = |below: usize| (0..below).filter(|&s| stays(s)).count();
    let mut net = head.to_vec();
    net[4..6].copy_from_slice(&(staying(frames.len()) as u16).to_be_bytes());
    draw::seal(&mut net);
    for s in (0..frames.len()).filter(|&s| stays(s)) {
        net.extend(frames[s]);
    }
    (
        net,
        [first, second].map(|run| 2 * staying(run / 2) + run % 2),
    )
}

/// Whether a run of a network that has the newer rules arrives at a signal.
fn signal_ahead(net: &[u8], run: usize) -> bool {
    let size = segment_bytes(net[1]);
    let frame = &net[HEAD + size * (run / 2)..];
    net[1] != OLDER && frame[size - [15, 8][run % 2]] == SIGNAL
}

/// Changes the number at an index, if there is one.
fn spoil<T: Copy + std::ops::Not<Output = T>>(numbers: &mut [T], at: usize) {
    if let Some(number) = numbers.get_mut(at) {
        *number = !*number;
    }
}

/// Start and length of the line that begins at a place of a text.
fn line_at(text: &[u8], start: usize) -> Part {
    let rest = &text[start..];
    let length = rest.iter().position(|&byte| byte == b'\n');
    [start, length.unwrap_or(rest.len())]
}

impl Calls for Faulty {
    fn read(&self, text: &[u8], output: &mut [u8], told: &mut Told) -> u32 {
        let number = Twin.read(&self.mistyped(text), output, told);
        match (self.0, number) {
            (Fault::Line, 1..) => told[0] += 1,
            (Fault::LineIn12Bits, 1..) => told[0] &= 0xFFF,
            (Fault::OutputOfShortFrames, 7) => return self.read_into_less(text, output, told),
            (Fault::ByteKept, 0) => spoil(output, told[0] as usize - 1),
            (Fault::OutputPastTheEnd, 0) => spoil(output, told[0] as usize),
            (Fault::OutputOnRefusal, 1..) => spoil(output, 0),
            (Fault::ToldBeyond, 0) => spoil(told, 1),
            _ => {}
        }
        number
    }

    fn refused_line(&self, text: &[u8], output_length: usize, part: &mut Part) -> u32 {
        let asked = match self.0 {
            Fault::LengthOneLonger => output_length.saturating_add(1),
            _ => self.narrow(Fault::NarrowLength, output_length),
        };
        let garbage = part[1];
        let number = Twin.refused_line(text, asked, part);
        let [start, length] = *part;
        let (end, last) = (start + length, text.len());
        match self.0 {
            Fault::PartWithIts0A if end < last => part[1] += 1,
            Fault::LineAfter if end < last => *part = line_at(text, end + 1),
            Fault::AcceptsWrongCount if number == 5 => {
                *part = [last, 0];
                return 14;
            }
            Fault::HeadForTooFew if number == 5 && start == last => *part = line_at(text, 0),
            Fault::EmptyPartAtTheStart if start == last => part[0] = 0,
            Fault::EmptyLineAtTheEnd if length == 0 => part[0] = last,
            Fault::ReturnLeftOut if text[start..end].ends_with(b"\r") => part[1] -= 1,
            Fault::PartLengthNotWritten => part[1] = garbage,
            _ => {}
        }
        number
    }

    fn judge_segment(&self, net: &[u8], segment: usize, told: &mut Told) -> u32 {
        let segment = self.narrow(Fault::NarrowSegment, segment);
        let number = Twin.judge_segment(&self.misread(net), segment, told);
        match (self.0, number) {
            (Fault::Measure, 0) if told[1] == 4 => told[1] = 1,
            (Fault::ThreesAndFoursMerged, 0) if told[0] == 3 => told[0] = 4,
            (Fault::ToldOnRefusal, 1..) => told[0] = 0,
            (_, 0) => self.misjudge(net, segment, told),
            _ => {}
        }
        number
    }

    fn judge_movement(&self, net: &[u8], first: usize, second: usize, told: &mut Told) -> u32 {
        let first = self.narrow(Fault::NarrowRun, first);
        let number = Twin.judge_movement(&self.misread(net), first, second, told);
        match (self.0, number) {
            (Fault::SignalOntoTheExit, 0) if signal_ahead(net, first) => {
                told[0] = 4;
                number
            }
            (Fault::OlderSignalsUnder03, 0) if net[1] == COUNTY && signal_ahead(net, first) => {
                told[0] = 1;
                number
            }
            (Fault::ExitAbove, 0) => Twin.judge_movement(&mirrored(net), first, second, told),
            (Fault::ClosedRunsUncounted, 0) => {
                let (net, [first, second]) = without_closed(net, first, second);
                Twin.judge_movement(&net, first, second, told)
            }
            _ => number,
        }
    }

    fn search(
        &self,
        net: &[u8],
        from: usize,
        to: usize,
        tolerance: Option<usize>,
        lent: Lent<'_>,
        told: &mut Told,
    ) -> u32 {
        let before = (lent.buffer.to_vec(), *told);
        let asked = match (self.0, tolerance) {
            (Fault::LeastAtFour, None) => Some(4),
            _ => tolerance.map(|number| self.narrow(Fault::NarrowTolerance, number)),
        };
        // The same slices once more, to spoil them after the call.
        let again = Lent {
            best: &mut *lent.best,
            previous: &mut *lent.previous,
            buffer: &mut *lent.buffer,
            place: lent.place,
        };
        let number = Twin.search(&self.misread(net), from, to, asked, again, told);
        if self.has(Fault::LeastAtFour) && tolerance.is_none() && told[0] == 1 {
            told[4] = 4;
        }
        self.spoil_search(number, lent, told, before)
    }

    fn reach_map(
        &self,
        net: &[u8],
        reach: Reach,
        scratch: Scratch<'_>,
        list: &mut [u32],
        told: &mut Told,
    ) -> u32 {
        let (before, nodes) = (list.to_vec(), nodes(net));
        let again = Scratch {
            best: &mut *scratch.best,
            previous: &mut *scratch.previous,
        };
        let mut long = vec![0; 2 * nodes];
        let asked = self.misled(reach);
        let number = match self.0 {
            // As if one number an entry were enough.
            Fault::OneNumberAnEntry if (nodes..2 * nodes).contains(&list.len()) => {
                Twin.reach_map(net, asked, again, &mut long, told)
            }
            _ => Twin.reach_map(&self.misread(net), asked, again, list, told),
        };
        self.spoil_map(number, reach, list, told, &before);
        self.spoil_far_map(number, list, told, &before);
        self.spoil_entries(number, list.len() < 2 * nodes, scratch, told)
    }

    fn nearest(
        &self,
        net: &[u8],
        from: usize,
        tolerance: usize,
        marks: &[u8],
        scratch: Scratch<'_>,
        told: &mut Told,
    ) -> u32 {
        let again = Scratch {
            best: &mut *scratch.best,
            previous: &mut *scratch.previous,
        };
        let nodes = nodes(net);
        let taken = self.mistaken(marks, nodes, from);
        let garbage = *told;
        let number = Twin.nearest(&self.misread(net), from, tolerance, &taken, again, told);
        if self.has(Fault::HigherOfATie) && number == 0 && told[0] == 1 {
            let room = (scratch.best.len(), scratch.previous.len());
            told[1] = highest_as_near(net, from, tolerance, marks, room, told);
        }
        match (self.0, number, told[0]) {
            (Fault::NoneWhereFar, 0, 1) if told[2] > 9_000 => {
                *told = garbage;
                told[0] = 0;
            }
            (Fault::FoundWhereNone, 0, 0) => (told[0], told[1], told[2]) = (1, 0, 0),
            (Fault::NearestIn31Bits, 0, 1) => told[2] &= IN_31_BITS,
            (Fault::ToldOnNearestNone, 0, 0) => told[1] = 0,
            _ => {}
        }
        self.spoil_entries(number, marks.len() < nodes, scratch, told)
    }

    fn move_network(&self, way: Way, net: &[u8], output: &mut [u8], told: &mut Told) -> u32 {
        self.moved(way, net, output, told)
    }
}

/// What 31 bits hold.
const IN_31_BITS: u32 = (1 << 31) - 1;

impl Faulty {
    /// Read by a program that asks for an output as if all frames had 30 bytes.
    fn read_into_less(&self, text: &[u8], output: &mut [u8], told: &mut Told) -> u32 {
        let digits = str::from_utf8(&text[8..12]).unwrap_or("0");
        let segments = usize::from_str_radix(digits, 16).unwrap_or(0);
        if output.len() < HEAD + segment_bytes(OLDER) * segments {
            return 7;
        }
        let mut longer = vec![0; HEAD + segment_bytes(COUNTY) * segments];
        let number = Twin.read(text, &mut longer, told);
        if number == 0 {
            output.copy_from_slice(&longer[..output.len()]);
        }
        number
    }

    /// What comes back of a map by a program whose memory or lengths are too
    /// small for a county.
    fn spoil_far_map(&self, number: u32, list: &mut [u32], told: &mut Told, before: &[u32]) {
        if number != 0 {
            return;
        }
        let last = 2 * told[0] as usize;
        let (entries, _) = list[..last].as_chunks_mut::<2>();
        match self.0 {
            Fault::MapIn31Bits => entries.iter_mut().for_each(|entry| entry[1] &= IN_31_BITS),
            Fault::MemoryOfATown => {
                let seen = |entry: &&[u32; 2]| (entry[0] as usize) < self.nodes_seen();
                let count = entries.iter().filter(seen).count();
                list[2 * count..last].copy_from_slice(&before[2 * count..last]);
                told[0] = count as u32;
            }
            _ => {}
        }
    }

    /// What comes back from a search by a program that does not expect a county's
    /// routes; whether it says none.
    fn spoil_far_route(&self, lent: &mut Lent<'_>, told: &mut Told) -> bool {
        let place = lent.place;
        let runs = &mut lent.buffer[place..place + told[1] as usize];
        match self.0 {
            Fault::RunsOfATown => return told[1] > 2_000,
            Fault::NoneAbove31Bits => return told[2] > IN_31_BITS,
            Fault::EachStreetOnce => return runs.iter().any(|run| runs.contains(&(run ^ 1))),
            Fault::RunIn13Bits => runs.iter_mut().for_each(|run| *run &= 0x1FFF),
            Fault::LengthIn31Bits => told[2] &= IN_31_BITS,
            _ => {}
        }
        false
    }
}

/// The nodes that the head of a network says it has.
fn nodes(net: &[u8]) -> usize {
    match net.get(2..4) {
        Some(&[high, low]) => usize::from(u16::from_be_bytes([high, low])),
        _ => 0,
    }
}

/// The highest of the marked nodes that are as near as the one told.
fn highest_as_near(
    net: &[u8],
    from: usize,
    tolerance: usize,
    marks: &[u8],
    (best, previous): (usize, usize),
    told: &Told,
) -> u32 {
    let (mut best, mut previous) = (vec![0; best], vec![0; previous]);
    let (mut list, mut count) = (vec![0; 2 * nodes(net)], Told::default());
    let scratch = Scratch {
        best: &mut best,
        previous: &mut previous,
    };
    let reach = Reach {
        from,
        tolerance,
        greatest: told[2] as usize,
    };
    Twin.reach_map(net, reach, scratch, &mut list, &mut count);
    let mut as_near = list.chunks(2).take(count[0] as usize).filter(|entry| {
        let marked = marks[entry[0] as usize] != 0;
        marked && entry[1] == told[2]
    });
    as_near.next_back().map_or(told[1], |entry| entry[0])
}

impl Faulty {
    /// What a reach map is asked for by a program that takes it wrongly.
    fn misled(&self, reach: Reach) -> Reach {
        let greatest = reach.greatest;
        let (tolerance, greatest) = match self.0 {
            Fault::MapAtToleranceFour if (1..=4).contains(&reach.tolerance) => (4, greatest),
            Fault::MapBelowTheGreatest => (reach.tolerance, greatest.saturating_sub(1)),
            Fault::GreatestThatWraps if greatest == u32::MAX as usize => (reach.tolerance, 0),
            _ => (
                reach.tolerance,
                self.narrow(Fault::NarrowGreatest, greatest),
            ),
        };
        Reach {
            tolerance,
            greatest,
            ..reach
        }
    }

    /// The marks as a program takes them that is wrong about them.
    fn mistaken(&self, marks: &[u8], nodes: usize, from: usize) -> Vec<u8> {
        let mut marks = marks.to_vec();
        match self.0 {
            Fault::MarkOfOneOnly => marks
                .iter_mut()
                .for_each(|mark| *mark = (*mark == 1).into()),
            Fault::MarkPastTheLast if marks[..nodes.min(marks.len())].iter().all(|&m| m == 0) => {
                let past = marks.get(nodes).is_some_and(|&mark| mark != 0);
                if let (true, Some(last)) = (past, marks.get_mut(nodes.saturating_sub(1))) {
                    *last = 1;
                }
            }
            Fault::MarkedStartPassedOver => {
                if let Some(start) = marks.get_mut(from) {
                    *start = 0;
                }
            }
            Fault::MarksOneShort if marks.len() + 1 == nodes => marks.push(0),
            _ => {}
        }
        marks
    }

    /// What comes back in the list of a map; `before` is what that held.
    fn spoil_map(
        &self,
        number: u32,
        reach: Reach,
        list: &mut [u32],
        told: &mut Told,
        before: &[u32],
    ) {
        let last = 2 * told[0] as usize;
        match (self.0, number) {
            (Fault::ListOnRefusal, 1..) => spoil(list, 0),
            (Fault::ListPastTheLast, 0) => spoil(list, last),
            (Fault::NodeAndFeetExchanged, 0) => {
                list[..last].chunks_mut(2).for_each(<[u32]>::reverse);
            }
            (Fault::NearNodesFirst, 0) => {
                let (entries, _) = list[..last].as_chunks_mut::<2>();
                entries.sort_by_key(|entry| entry[1]);
            }
            (Fault::MapWithoutTheStart, 0) => {
                let start = list
                    .chunks(2)
                    .position(|entry| entry[0] as usize == reach.from);
                let start = 2 * start.unwrap_or(0);
                list.copy_within(start + 2..last, start);
                list[last - 2..last].copy_from_slice(&before[last - 2..last]);
                told[0] -= 1;
            }
            (Fault::MapOfNoLength, 0) if reach.greatest == 0 => {
                list.copy_from_slice(before);
                told[0] = 0;
            }
            _ => {}
        }
    }

    /// What a map or the nearest node returns where the list or the marks may
    /// have too few entries.
    fn spoil_entries(&self, number: u32, few: bool, scratch: Scratch<'_>, told: &mut Told) -> u32 {
        match (self.0, number) {
            (Fault::EntriesBeforeRoom, 11) if few => return 15,
            (Fault::ScratchBeforeEntries, 15) => spoil(scratch.previous, 0),
            (Fault::ToldOnEntriesRefused, 15) => told[0] = 0,
            _ => {}
        }
        number
    }
}

impl Faulty {
    /// What comes back from a search that was answered or refused; `before` is
    /// what buffer and `told` held.
    fn spoil_search(
        &self,
        number: u32,
        mut lent: Lent<'_>,
        told: &mut Told,
        before: (Vec<u16>, Told),
    ) -> u32 {
        let (place, (buffer, garbage)) = (lent.place, before);
        if (number, told[0]) == (0, 1) && self.spoil_far_route(&mut lent, told) {
            *told = garbage;
            told[0] = 0;
            lent.buffer.copy_from_slice(&buffer);
            return number;
        }
        let last = place.saturating_add(told[1] as usize);
        match (self.0, number, told[0]) {
            (Fault::Count, 0, 1) => told[1] += 1,
            (Fault::Level, 0, 1) if told[3] < 4 => told[3] += 1,
            (Fault::Length, 0, 1) if told[1] > 20 => told[2] += 1,
            (Fault::NotWritten, 0, 1) => lent.buffer.copy_from_slice(&buffer),
            (Fault::BeforeThePlace, 0, 1) => spoil(lent.buffer, place.wrapping_sub(1)),
            (Fault::PastTheRoute, 0, 1) => spoil(lent.buffer, last),
            (Fault::BufferOnNone, 0, 0) => spoil(lent.buffer, place),
            (Fault::ToldOnNone, 0, 0) => told[1] = 0,
            (Fault::ScratchOnRefusal, 11, _) => spoil(lent.best, 0),
            (Fault::NoneTooSoon, 0, 1) if told[1] > 12 => {
                *told = garbage;
                told[0] = 0;
                lent.buffer.copy_from_slice(&buffer);
            }
            (Fault::RoomBeforeTolerance, 10, _) if buffer.len() <= place => return 11,
            _ => {}
        }
        number
    }
}

/// What takes its inputs anew, and changes nothing in them, is right.
#[test]
fn nothing_is_found_where_nothing_is_wrong() {
    let right = Faulty(Fault::Nothing);
    let mut comparer = Comparer::new(&right, 7);
    for round in 0..ROUNDS / 30 {
        if let Err(mismatch) = comparer.round(round) {
            panic!("{mismatch}");
        }
    }
}

/// Each fault is found, in far fewer rounds than the
/// comparison above makes.
#[test]
fn faults_are_found() {
    for fault in FAULTS {
        let faulty = Faulty(fault);
        let mut comparer = Comparer::new(&faulty, 7);
        let found = (0..ROUNDS / 5).any(|round| comparer.round(round).is_err());
        assert!(found, "{fault:?} was not found");
    }
}

/// A mismatch tells all that is needed to make it again.
#[test]
fn a_mismatch_can_be_replayed() {
    let faulty = Faulty(Fault::Line);
    let mut comparer = Comparer::new(&faulty, 7);
    let told = (0..10).find_map(|round| comparer.round(round).err());
    let told = told.expect("a mismatch").to_string();
    for part in [
        "MISMATCH",
        "seed 7, round",
        "replay",
        "question: Read",
        "archive: returned",
        "twin:    returned",
    ] {
        assert!(told.contains(part), "{part} is not in {told}");
    }
    let again = Comparer::new(&faulty, 7)
        .round(0)
        .expect_err("the same mismatch");
    assert_eq!(again.to_string(), told);
}
