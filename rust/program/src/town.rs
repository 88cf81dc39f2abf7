//! A town: the network that Read kept, and the names that a table gives.

use crate::edition::Edition;
use crate::explain;
use crate::fault::{Fault, printable, quoted};
use crate::file;
use crate::json::Json;
use crate::near::meant;
use crate::part::Part;
use crate::segment::{A_NODE, B_NODE, HEAD_BYTES, Segment, WAYS};
use crate::table;
use splicereel::{Direction, Judged, Network, Refusal, Run, judge_segment};
use std::ffi::OsStr;

/// A town.
#[derive(Debug)]
pub struct Town {
    pub network: Network,
    pub edition: Edition,
    /// The town's name, where a table has one.
    pub name: Option<String>,
    /// The nodes' names; no names for a network text.
    places: Vec<String>,
    /// The segments' streets; none for a network text.
    streets: Vec<String>,
    /// Feet to the east and to the north of each node, where a table has them.
    map: Option<Vec<(i32, i32)>>,
}

impl Town {
    /// The town of a file, a network text or a description with tables.
    pub fn read(name: &OsStr) -> Result<Town, Fault> {
        let bytes = file::read(name)?;
        if !file::is_table(name, &bytes) {
            let network =
                Network::read(&bytes).map_err(|refused| explain::fault(&bytes, refused))?;
            return Ok(Town {
                edition: edition(&network)?,
                network,
                name: None,
                places: vec![],
                streets: vec![],
                map: None,
            });
        }
        let described = table::read(&bytes)?;
        Ok(Town {
            edition: edition(&described.network)?,
            network: described.network,
            name: described.name.map(|name| shown(&name)),
            places: described.places.iter().map(|name| shown(name)).collect(),
            streets: described.streets.iter().map(|name| shown(name)).collect(),
            map: described.map,
        })
    }

    /// Whether nodes and streets have names.
    pub fn has_names(&self) -> bool {
        !self.places.is_empty()
    }

    /// A node's place, where it has a name.
    pub fn place(&self, node: usize) -> Option<&str> {
        self.places
            .get(node)
            .map(String::as_str)
            .filter(|name| !name.is_empty())
    }

    /// A node as a page names it.
    pub fn node_name(&self, node: usize) -> String {
        self.place(node)
            .map_or_else(|| format!("node {node}"), str::to_string)
    }

    /// A node's name with its number.
    pub fn numbered_name(&self, node: usize) -> String {
        match self.place(node) {
            Some(place) => format!("{place} (node {node})"),
            None => format!("node {node}"),
        }
    }

    /// A node for scripts.
    pub fn node_json(&self, node: usize) -> Json {
        Json::Object(vec![
            ("node", Json::number(node)),
            ("place", Json::optional(self.place(node))),
        ])
    }

    /// A segment's street, where it has a name.
    pub fn street(&self, segment: usize) -> Option<&str> {
        self.streets
            .get(segment)
            .map(String::as_str)
            .filter(|name| !name.is_empty())
    }

    /// A segment's street with its number.
    pub fn numbered_street(&self, segment: usize) -> String {
        match self.street(segment) {
            Some(street) => format!("{street} (segment {segment})"),
            None => format!("segment {segment}"),
        }
    }

    /// Where a node lies on the map.
    pub fn map_place(&self, node: usize) -> Option<(i32, i32)> {
        self.map.as_ref()?.get(node).copied()
    }

    /// The surveyed fields of a segment.
    pub fn segment(&self, segment: usize) -> Segment {
        let bytes = self.edition.segment_bytes();
        let at = HEAD_BYTES + segment * bytes;
        let frame = self.network.as_bytes().get(at..at + bytes);
        Segment::decode(self.edition, frame.unwrap_or(&[]))
    }

    /// Level and measure of a segment of the town, asked about it alone.
    pub fn judge(&self, segment: usize) -> Result<Judged, Fault> {
        let alone = Part::of(self, &[segment]);
        judge_segment(&alone.bytes(), 0).map_err(unforeseen)
    }

    /// The segments that have an end at each node, in their order.
    pub fn corners(&self) -> Vec<Vec<usize>> {
        let mut corners = vec![Vec::new(); self.network.nodes()];
        for number in 0..self.network.segments() {
            let segment = self.segment(number);
            let [a, b] = [A_NODE, B_NODE].map(|end| segment.get(end) as usize);
            corners[a].push(number);
            if b != a {
                corners[b].push(number);
            }
        }
        corners
    }

    /// The nodes that a run leaves and reaches.
    pub fn run_ends(&self, run: Run) -> (usize, usize) {
        let segment = self.segment(run.segment());
        let (a, b) = (segment.get(A_NODE) as usize, segment.get(B_NODE) as usize);
        match run.direction() {
            Direction::AToB => (a, b),
            Direction::BToA => (b, a),
        }
    }

    /// The node that a word names: its number, or the place of that name.
    pub fn node(&self, word: &str) -> Result<usize, Fault> {
        if !word.is_empty() && word.bytes().all(|byte| byte.is_ascii_digit()) {
            // What does not fit is no node either.
            return Ok(word.parse().unwrap_or(usize::MAX));
        }
        if !self.has_names() {
            let words = format!(
                "{} is no number, and a network text has no names for its nodes",
                quoted(word)
            );
            return Err(Fault::new(words));
        }
        let same = |alike: &dyn Fn(&str) -> bool| -> Vec<usize> {
            (0..self.places.len())
                .filter(|&node| self.place(node).is_some_and(alike))
                .collect()
        };
        let lower = word.to_lowercase();
        let mut nodes = same(&|name| name == word);
        if nodes.is_empty() {
            nodes = same(&|name| name.to_lowercase() == lower);
        }
        match nodes[..] {
            [node] => Ok(node),
            [] => {
                let near = meant(word, self.places.iter().map(String::as_str));
                Err(Fault::new(format!(
                    "no place is called {}{near}",
                    quoted(word)
                )))
            }
            [first, second, ..] => Err(Fault::new(format!(
                "{} places are called {}, nodes {first} and {second} among them: give the number",
                nodes.len(),
                quoted(word)
            ))),
        }
    }

    /// What is wrong where a call about nodes refuses; each comes with the word
    /// that names it.
    pub fn refused(&self, refusal: Refusal, asked: &[(usize, &str)]) -> Fault {
        let nodes = self.network.nodes();
        let missing = asked.iter().find(|(node, _)| *node >= nodes);
        match (refusal, missing) {
            (Refusal::NoSuchNode, Some((_, word))) => {
                let words = format!(
                    "there is no node {}: nodes are 0 to {}",
                    quoted(word),
                    nodes.saturating_sub(1)
                );
                Fault::refused(refusal, words)
            }
            _ => unforeseen(refusal),
        }
    }
}

/// The edition of a network that Read kept.
fn edition(network: &Network) -> Result<Edition, Fault> {
    let number = network.edition();
    let unknown = || Fault::new(format!("edition {number:02X} is not known here"));
    Edition::numbered(number.into()).ok_or_else(unknown)
}

/// The fault where a call refuses what the town itself gave it.
pub fn unforeseen(refusal: Refusal) -> Fault {
    Fault::refused(refusal, refusal.to_string())
}

/// A name that stays in its line.
fn shown(name: &str) -> String {
    name.chars().map(printable).collect()
}

/// The ways of a segment in words.
pub fn ways(segment: &Segment) -> &'static str {
    match segment.get(WAYS) {
        1 => "A to B",
        2 => "B to A",
        _ => "both",
    }
}
