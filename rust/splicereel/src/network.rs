//! A network that owns its bytes, and routes that own their runs.

use crate::answer::{Entry, Found, Judged, Level, Run};
use crate::ffi::{Lent, Scratch};
use crate::lending;
use crate::reach::ReachMap;
use crate::refusal::{ReadRefusal, Refusal, RefusedLine};
use crate::{MAX_NETWORK, MAX_SEGMENTS};
use alloc::vec;
use alloc::vec::Vec;

/// The bytes of a head, and those of a segment's frame: of editions 01 and 02,
/// and of 03.
const HEAD: usize = 7;
const TOWN_FRAME: usize = 30;
const COUNTY_FRAME: usize = 32;

/// A network that Read accepted.
///
/// ```
/// use splicereel::{Level, Network};
/// # let text = include_bytes!(concat!(env!("CARGO_MANIFEST_DIR"), "/../../towns/block-town.txt"));
/// let network = Network::read(text)?;
/// for segment in 0..network.segments() {
///     assert_eq!(network.judge_segment(segment)?.level, Level::One);
/// }
/// # Ok::<(), Box<dyn std::error::Error>>(())
/// ```
///
/// A county of edition 03: 8,000 nodes in a row, each joined to the next by a
/// path of 264,000 feet.
///
/// ```
/// use splicereel::{Level, Network};
///
/// // A frame's line: its bytes, and the check that makes them sum to 0.
/// let line = |frame: &[u8]| {
///     let check = frame.iter().fold(0u8, |sum, byte| sum.wrapping_sub(*byte));
///     let digits = frame.iter().chain([&check]).map(|byte| format!("{byte:02X}"));
///     digits.collect::<String>() + "\n"
/// };
/// let mut text = line(&[[1, 3], [0x1F, 0x40], [0x1F, 0x3F]].concat());
/// for node in 0..7_999_u16 {
///     let mut frame = [0; 31];
///     frame[0] = 2;
///     // The A end at leg 2 of the node, the B end at leg 6 of the next.
///     frame[1..3].copy_from_slice(&node.to_be_bytes());
///     frame[3] = 2;
///     frame[4..6].copy_from_slice(&(node + 1).to_be_bytes());
///     frame[6] = 6;
///     frame[7..11].copy_from_slice(&264_000_u32.to_be_bytes());
///     // A separate path, open both ways.
///     frame[11..13].copy_from_slice(&[3, 3]);
///     text += &line(&frame);
/// }
/// let county = Network::read(text.as_bytes())?;
/// assert_eq!((county.edition(), county.nodes(), county.segments()), (3, 8_000, 7_999));
/// let route = county.route(0, 7_999, Level::One)?.expect("a way along the row");
/// assert_eq!((route.runs().len(), route.feet()), (7_999, 7_999 * 264_000));
/// # Ok::<(), Box<dyn std::error::Error>>(())
/// ```
#[derive(Clone, Debug, PartialEq, Eq, Hash)]
pub struct Network {
    /// The kept bytes: the head's and each segment's.
    bytes: Vec<u8>,
}

impl Network {
    /// Reads a network text.
    ///
    /// ```
    /// use splicereel::Network;
    /// let network = Network::read(b"010100010000FD\n")?;
    /// assert_eq!((network.nodes(), network.segments()), (1, 0));
    ///
    /// let refused = Network::read(b"010100010000fd\n").unwrap_err();
    /// assert_eq!((refused.refusal.number(), refused.line), (1, 1));
    /// # Ok::<(), splicereel::ReadRefusal>(())
    /// ```
    pub fn read(text: &[u8]) -> Result<Network, ReadRefusal> {
        let mut bytes = vec![0; room(text)];
        let written = lending::read(text, &mut bytes)?;
        bytes.truncate(written);
        bytes.shrink_to_fit();
        Ok(Network { bytes })
    }

    /// The line of a text at which [`Network::read`] refuses it, and why; none
    /// exactly where that accepts the text.
    ///
    /// Only the first faulty line is told: a text with that line mended or cut
    /// out may be refused at another.
    ///
    /// ```
    /// use splicereel::{Network, Refusal};
    /// let text = b"010100010000FD\n00\nand more\n";
    /// let refused = Network::refused_line(text).expect("a refusal");
    /// assert_eq!((refused.refusal, refused.part), (Refusal::WrongFrame, &b"00"[..]));
    ///
    /// assert_eq!(Network::refused_line(b"010100010000FD\n"), None);
    /// ```
    pub fn refused_line(text: &[u8]) -> Option<RefusedLine<'_>> {
        let refused = lending::refused_line(text, MAX_NETWORK);
        (refused.refusal != Refusal::NoRefusedLine).then_some(refused)
    }

    /// Takes bytes that were kept earlier, if Read could have kept them;
    /// otherwise [`Refusal::NotANetwork`].
    ///
    /// ```
    /// use splicereel::{Network, Refusal};
    /// let network = Network::read(b"010100010000FD\n")?;
    /// assert_eq!(Network::from_bytes(network.as_bytes().to_vec()), Ok(network));
    /// assert_eq!(Network::from_bytes(vec![1, 2, 3]), Err(Refusal::NotANetwork));
    /// # Ok::<(), splicereel::ReadRefusal>(())
    /// ```
    pub fn from_bytes(bytes: Vec<u8>) -> Result<Network, Refusal> {
        // No network has this segment: what is left to refuse is the bytes.
        match lending::judge_segment(&bytes, usize::MAX) {
            Err(Refusal::NoSuchRun) | Ok(_) => Ok(Network { bytes }),
            Err(refusal) => Err(refusal),
        }
    }

    /// The kept bytes, for the lending calls.
    pub fn as_bytes(&self) -> &[u8] {
        &self.bytes
    }

    /// Two bytes of the head as a number.
    fn head_field(&self, at: usize) -> usize {
        match self.bytes.get(at..at + 2) {
            Some(&[high, low]) => usize::from(u16::from_be_bytes([high, low])),
            _ => 0,
        }
    }

    /// The edition that its head names, by whose rules it is judged: 1, 2 or 3,
    /// which has the rules of 2.
    ///
    /// This street has a bike lane beside parking, one lane each way, a limit of
    /// 25 mph and a reach of 26 half feet, and is residential. By the rules of
    /// edition 01 the narrow reach is level 2; by those of edition 02 riding in
    /// the traffic of so quiet a street is level 1, and the lower level counts:
    ///
    /// ```
    /// use splicereel::{Level, Measure, Network};
    ///
    /// let older = b"\
    /// 010100020001FB
    /// 0200000200010601F4010301191A020000000000000000000000000000C6
    /// ";
    /// let older = Network::read(older)?;
    /// let judged = older.judge_segment(0)?;
    /// assert_eq!(older.edition(), 1);
    /// assert_eq!((judged.level, judged.measure), (Level::Two, Measure::Reach));
    ///
    /// let newer = b"\
    /// 010200020001FA
    /// 0200000200010601F4010301191A020000000000000000000000000000C6
    /// ";
    /// let newer = Network::read(newer)?;
    /// let judged = newer.judge_segment(0)?;
    /// assert_eq!(newer.edition(), 2);
    /// assert_eq!((judged.level, judged.measure), (Level::One, Measure::MixedTraffic));
    /// # Ok::<(), Box<dyn std::error::Error>>(())
    /// ```
    pub fn edition(&self) -> u8 {
        self.bytes.get(1).copied().unwrap_or(0)
    }

    /// The number of nodes; they are numbered from 0.
    pub fn nodes(&self) -> usize {
        self.head_field(2)
    }

    /// The number of segments; they are numbered from 0.
    pub fn segments(&self) -> usize {
        self.head_field(4)
    }

    /// Level and governing measure of a segment, or [`Refusal::NoSuchRun`].
    ///
    /// Linden has three streets beside narrow parking lanes. The residential
    /// one and the one with a limit below 25 mph are level 2, the other is 3:
    ///
    /// ```
    /// use splicereel::{Level, Measure, Network};
    /// # let text = include_bytes!(concat!(env!("CARGO_MANIFEST_DIR"), "/../../towns/linden.txt"));
    /// let linden = Network::read(text)?;
    /// for (segment, level) in [(1, Level::Two), (4, Level::Two), (5, Level::Three)] {
    ///     let judged = linden.judge_segment(segment)?;
    ///     assert_eq!((judged.level, judged.measure), (level, Measure::Reach));
    /// }
    /// # Ok::<(), Box<dyn std::error::Error>>(())
    /// ```
    pub fn judge_segment(&self, segment: usize) -> Result<Judged, Refusal> {
        lending::judge_segment(&self.bytes, segment)
    }

    /// Level of the movement from one run onto another, or
    /// [`Refusal::NoSuchRun`], or [`Refusal::NoMovement`].
    ///
    /// Under editions 02 and 03 a signal is level 4. In Coldwell it is crossed on
    /// the way from segment 2 onto segment 3, and an improved one, level 1, from
    /// segment 4 onto segment 5:
    ///
    /// ```
    /// use splicereel::{Level, Network, Run};
    /// # let text = include_bytes!(concat!(env!("CARGO_MANIFEST_DIR"), "/../../towns/coldwell.txt"));
    /// let coldwell = Network::read(text)?;
    /// assert_eq!(coldwell.judge_movement(Run::from(4), Run::from(6)), Ok(Level::Four));
    /// assert_eq!(coldwell.judge_movement(Run::from(8), Run::from(10)), Ok(Level::One));
    /// # Ok::<(), Box<dyn std::error::Error>>(())
    /// ```
    ///
    /// ```
    /// use splicereel::{Level, Network, Run};
    /// # let text = include_bytes!(concat!(env!("CARGO_MANIFEST_DIR"), "/../../towns/block-town.txt"));
    /// let network = Network::read(text)?;
    /// assert_eq!(network.judge_movement(Run::from(0), Run::from(4)), Ok(Level::Four));
    /// # Ok::<(), Box<dyn std::error::Error>>(())
    /// ```
    pub fn judge_movement(&self, first: Run, second: Run) -> Result<Level, Refusal> {
        lending::judge_movement(&self.bytes, first.number(), second.number())
    }

    /// A shortest route within a tolerance; none means that there is no route
    /// within it.
    ///
    /// Refusal: [`Refusal::NoSuchNode`].
    ///
    /// ```
    /// use splicereel::{Direction, Level, Network, Refusal};
    /// # let text = include_bytes!(concat!(env!("CARGO_MANIFEST_DIR"), "/../../towns/block-town.txt"));
    /// let network = Network::read(text)?;
    /// let route = network.route(0, 2, Level::Four)?.expect("a way across");
    /// let segments: Vec<usize> = route.runs().iter().map(|run| run.segment()).collect();
    /// assert_eq!(segments, [0, 2]);
    /// assert!(route.runs().iter().all(|run| run.direction() == Direction::AToB));
    /// assert_eq!(network.route(0, 3, Level::Four), Err(Refusal::NoSuchNode));
    /// # Ok::<(), Box<dyn std::error::Error>>(())
    /// ```
    pub fn route(
        &self,
        from: usize,
        to: usize,
        tolerance: Level,
    ) -> Result<Option<Route>, Refusal> {
        let (mut room, mut buffer) = (Room::of(self), vec![0; self.runs()]);
        let lent = room.lend_with(&mut buffer);
        let found = lending::route(&self.bytes, from, to, tolerance.number(), lent)?;
        Ok(found.map(|found| Route::of(found, buffer)))
    }

    /// A shortest route within the smallest tolerance that has any, and that
    /// tolerance; none means that there is no route at all.
    ///
    /// Refusal: [`Refusal::NoSuchNode`].
    ///
    /// ```
    /// use splicereel::{Level, Network};
    /// # let text = include_bytes!(concat!(env!("CARGO_MANIFEST_DIR"), "/../../towns/block-town.txt"));
    /// let network = Network::read(text)?;
    /// let (route, tolerance) = network.least_stress(0, 2)?.expect("a way");
    /// assert_eq!((route.feet(), tolerance), (1_500, Level::One));
    /// # Ok::<(), Box<dyn std::error::Error>>(())
    /// ```
    pub fn least_stress(&self, from: usize, to: usize) -> Result<Option<(Route, Level)>, Refusal> {
        let (mut room, mut buffer) = (Room::of(self), vec![0; self.runs()]);
        let lent = room.lend_with(&mut buffer);
        let found = lending::least_stress(&self.bytes, from, to, lent)?;
        Ok(found.map(|(found, tolerance)| (Route::of(found, buffer), tolerance)))
    }

    /// Every node that has a route from `from` within a tolerance and of at
    /// most `greatest` feet, with its least length; no other node.
    ///
    /// The start is in the map, with length 0. The greatest length may be any
    /// number; from [`u32::MAX`] on it excludes no node.
    ///
    /// Refusal: [`Refusal::NoSuchNode`].
    ///
    /// ```
    /// use splicereel::{Entry, Level, Network, Refusal};
    /// # let text = include_bytes!(concat!(env!("CARGO_MANIFEST_DIR"), "/../../towns/block-town.txt"));
    /// let network = Network::read(text)?;
    /// let map = network.reach_map(0, Level::Three, 1_500)?;
    /// let known = [(0, 0), (1, 300), (2, 1_500)].map(|(node, feet)| Entry { node, feet });
    /// assert_eq!(map.entries(), known);
    /// assert_eq!(network.reach_map(0, Level::Three, 1_499)?.entries(), &known[..2]);
    /// assert_eq!(network.reach_map(3, Level::Three, 0), Err(Refusal::NoSuchNode));
    /// # Ok::<(), Box<dyn std::error::Error>>(())
    /// ```
    pub fn reach_map(
        &self,
        from: usize,
        tolerance: Level,
        greatest: usize,
    ) -> Result<ReachMap, Refusal> {
        let (mut room, mut list) = (Room::of(self), vec![0; 2 * self.nodes()]);
        let tolerance = tolerance.number();
        let entries = lending::reach_map(
            &self.bytes,
            from,
            tolerance,
            greatest,
            room.lend(),
            &mut list,
        )?;
        Ok(ReachMap::of(entries))
    }

    /// The nearest of these nodes, with its least length within a tolerance;
    /// none means that none of them has a route within it.
    ///
    /// Of several that are equally near it is the one with the lowest number.
    /// The start is the nearest where it is one of the nodes, at 0.
    ///
    /// Refusal: [`Refusal::NoSuchNode`], also for one of the nodes.
    ///
    /// ```
    /// use splicereel::{Entry, Level, Network, Refusal};
    /// # let text = include_bytes!(concat!(env!("CARGO_MANIFEST_DIR"), "/../../towns/block-town.txt"));
    /// let network = Network::read(text)?;
    /// let nearest = network.nearest(0, Level::Three, [2, 1])?;
    /// assert_eq!(nearest, Some(Entry { node: 1, feet: 300 }));
    /// assert_eq!(network.nearest(0, Level::Three, [])?, None);
    /// assert_eq!(network.nearest(0, Level::Three, [1, 3]), Err(Refusal::NoSuchNode));
    /// # Ok::<(), Box<dyn std::error::Error>>(())
    /// ```
    pub fn nearest(
        &self,
        from: usize,
        tolerance: Level,
        nodes: impl IntoIterator<Item = usize>,
    ) -> Result<Option<Entry>, Refusal> {
        let mut marks = vec![0; self.nodes()];
        for node in nodes {
            *marks.get_mut(node).ok_or(Refusal::NoSuchNode)? = 1;
        }
        let mut room = Room::of(self);
        lending::nearest(&self.bytes, from, tolerance.number(), &marks, room.lend())
    }

    /// The network, one of edition 02, as one of edition 03.
    ///
    /// The edition, the lengths' width and the head's check change, and nothing
    /// else: every level is the same, and every route of the one network is a
    /// route of the other, as long. [`Network::to_town`] gives the first bytes
    /// again.
    ///
    /// Edition 01 has no move, since its levels would change: it is judged by
    /// the older rules, and edition 03 by the newer.
    ///
    /// Refusal: [`Refusal::NoSuchMove`] for a network of another edition.
    ///
    /// ```
    /// use splicereel::{Level, Network, Refusal};
    /// # let text = include_bytes!(concat!(env!("CARGO_MANIFEST_DIR"), "/../../towns/westerby.txt"));
    /// let westerby = Network::read(text)?;
    /// let moved = westerby.to_county()?;
    /// assert_eq!((westerby.edition(), moved.edition()), (2, 3));
    /// assert_eq!(moved.as_bytes().len(), 7 + 32 * moved.segments());
    /// for tolerance in Level::ALL {
    ///     let feet = |network: &Network| {
    ///         let route = network.route(0, 4, tolerance)?;
    ///         Ok::<_, Refusal>(route.map(|route| route.feet()))
    ///     };
    ///     assert_eq!(feet(&westerby), feet(&moved));
    /// }
    /// assert_eq!(moved.to_town(), Ok(westerby));
    ///
    /// // Block town is of edition 01.
    /// # let text = include_bytes!(concat!(env!("CARGO_MANIFEST_DIR"), "/../../towns/block-town.txt"));
    /// let block_town = Network::read(text)?;
    /// assert_eq!(block_town.to_county(), Err(Refusal::NoSuchMove));
    /// # Ok::<(), Box<dyn std::error::Error>>(())
    /// ```
    pub fn to_county(&self) -> Result<Network, Refusal> {
        self.moved(lending::move_up, COUNTY_FRAME)
    }

    /// The network, one of edition 03, as one of edition 02, which units read
    /// that know no later edition.
    ///
    /// It changes what [`Network::to_county`] changes, and keeps what that
    /// keeps. Edition 02 has fewer nodes, fewer segments and shorter ones.
    ///
    /// Refusals: [`Refusal::NoSuchMove`] for a network of another edition,
    /// [`Refusal::AboveLimits`] for one with more than 1,000 nodes or segments
    /// or with a length above 52,800 feet.
    ///
    /// ```
    /// use splicereel::{Network, Refusal};
    ///
    /// // A path of 52,800 feet, as long as there is one in edition 02.
    /// let county = b"\
    /// 010300020001F9
    /// 020000020001060000CE400303000000000000000000000000000000000000E1
    /// ";
    /// let county = Network::read(county)?;
    /// let town = county.to_town()?;
    /// assert_eq!((town.edition(), town.as_bytes().len()), (2, 7 + 30));
    /// assert_eq!(town.to_county(), Ok(county));
    /// assert_eq!(town.to_town(), Err(Refusal::NoSuchMove));
    ///
    /// // One foot more.
    /// let longer = b"\
    /// 010300020001F9
    /// 020000020001060000CE410303000000000000000000000000000000000000E0
    /// ";
    /// assert_eq!(Network::read(longer)?.to_town(), Err(Refusal::AboveLimits));
    /// # Ok::<(), Box<dyn std::error::Error>>(())
    /// ```
    pub fn to_town(&self) -> Result<Network, Refusal> {
        self.moved(lending::move_back, TOWN_FRAME)
    }

    /// What a move writes, whose frames have so many bytes.
    fn moved(
        &self,
        write: fn(&[u8], &mut [u8]) -> Result<usize, Refusal>,
        frame: usize,
    ) -> Result<Network, Refusal> {
        let mut bytes = vec![0; HEAD + frame * self.segments()];
        let written = write(&self.bytes, &mut bytes)?;
        bytes.truncate(written);
        Ok(Network { bytes })
    }

    /// The number of runs: two for each segment.
    fn runs(&self) -> usize {
        2 * self.segments()
    }
}

/// Bytes enough for the segments that a text's first line counts, whatever its
/// edition. Where no head stands there, Read refuses that line, and needs none.
fn room(text: &[u8]) -> usize {
    let digits = text
        .get(8..12)
        .and_then(|digits| str::from_utf8(digits).ok());
    let count = digits.and_then(|digits| usize::from_str_radix(digits, 16).ok());
    HEAD + COUNTY_FRAME * count.unwrap_or(0).min(MAX_SEGMENTS)
}

/// What a search over one network borrows.
struct Room {
    best: Vec<u32>,
    previous: Vec<u32>,
}

impl Room {
    fn of(network: &Network) -> Room {
        Room {
            best: vec![0; network.runs()],
            previous: vec![0; network.runs()],
        }
    }

    fn lend(&mut self) -> Scratch<'_> {
        Scratch {
            best: &mut self.best,
            previous: &mut self.previous,
        }
    }

    /// The same with a buffer for a route's runs.
    fn lend_with<'l>(&'l mut self, buffer: &'l mut [u16]) -> Lent<'l> {
        Lent {
            best: &mut self.best,
            previous: &mut self.previous,
            buffer,
            place: 0,
        }
    }
}

/// A route: open runs, each joined to the next by a movement.
///
/// The route from a node to itself has no runs, length 0 and level 1.
#[derive(Clone, Debug, PartialEq, Eq, Hash)]
pub struct Route {
    runs: Vec<Run>,
    feet: u32,
    level: Level,
}

impl Route {
    /// The route whose runs were written at the buffer's start.
    fn of(found: Found, buffer: Vec<u16>) -> Route {
        let runs = buffer.into_iter().take(found.count);
        Route {
            runs: runs.map(Run::from).collect(),
            feet: found.feet,
            level: found.level,
        }
    }

    /// The runs, in the order of riding.
    pub fn runs(&self) -> &[Run] {
        &self.runs
    }

    /// The length in feet.
    pub fn feet(&self) -> u32 {
        self.feet
    }

    /// The greatest level of its runs and movements.
    pub fn level(&self) -> Level {
        self.level
    }
}
