//! `splicereel reach`: every node within a tolerance and a greatest length.

use crate::call::Reach;
use crate::fault::Fault;
use crate::json::Json;
use crate::page::{Page, Side, feet_and_miles, miles, share};
use crate::segment::{A_NODE, B_NODE, LENGTH};
use crate::town::Town;
use splicereel::{Entry, Level, ReachMap};

/// What was asked, and the map.
#[derive(Debug)]
pub struct Reached<'t> {
    town: &'t Town,
    pub from: usize,
    pub tolerance: Level,
    greatest: usize,
    nearest_first: bool,
    map: ReachMap,
}

/// Feet of street: those that are reached, and all.
struct StreetFeet {
    reached: u64,
    all: u64,
}

impl<'t> Reached<'t> {
    /// Asks for the map from a node, named or numbered.
    pub fn new(town: &'t Town, question: &Reach) -> Result<Reached<'t>, Fault> {
        let &Reach {
            from: ref start,
            tolerance,
            greatest,
            nearest_first,
        } = question;
        let from = town.node(start)?;
        let map = town.network.reach_map(from, tolerance, greatest);
        Ok(Reached {
            town,
            from,
            tolerance,
            greatest,
            nearest_first,
            map: map.map_err(|refusal| town.refused(refusal, &[(from, start)]))?,
        })
    }

    /// The least length to a node that is reached.
    pub fn feet_to(&self, node: usize) -> Option<u32> {
        self.map.feet_to(node)
    }

    /// The greatest of the least lengths.
    pub fn farthest(&self) -> u32 {
        self.map.iter().map(|entry| entry.feet).max().unwrap_or(0)
    }

    /// The least length to the farther end of a street that counts as reached:
    /// its level is within the tolerance, and both its ends are reached. That
    /// it can be ridden on the way is not said.
    pub fn street(&self, number: usize) -> Result<Option<u32>, Fault> {
        let segment = self.town.segment(number);
        let [a, b] = [A_NODE, B_NODE].map(|end| self.feet_to(segment.get(end) as usize));
        let within = self.town.judge(number)?.level <= self.tolerance;
        let farther = a.zip(b).map(|(a, b)| a.max(b));
        Ok(farther.filter(|_| within))
    }

    fn street_feet(&self) -> Result<StreetFeet, Fault> {
        let mut feet = StreetFeet { reached: 0, all: 0 };
        for number in 0..self.town.network.segments() {
            let length = u64::from(self.town.segment(number).get(LENGTH));
            feet.all += length;
            feet.reached += self.street(number)?.map_or(0, |_| length);
        }
        Ok(feet)
    }

    /// The entries in the order that was asked for.
    fn entries(&self) -> Vec<Entry> {
        let mut entries = self.map.entries().to_vec();
        if self.nearest_first {
            entries.sort_by_key(|entry| (entry.feet, entry.node));
        }
        entries
    }

    /// The answer in a line, for a picture.
    pub fn caption(&self) -> String {
        format!(
            "Reach from {}, tolerance {}, at most {} ft: {} of {} nodes",
            self.town.node_name(self.from),
            self.tolerance,
            self.greatest,
            self.map.entries().len(),
            self.town.network.nodes()
        )
    }

    /// The answer as a page.
    pub fn page(&self) -> Result<String, Fault> {
        let (reached, nodes) = (self.map.entries().len(), self.town.network.nodes());
        let StreetFeet { reached: feet, all } = self.street_feet()?;
        let tolerance = self.tolerance;
        let proved = match reached == nodes {
            true => "",
            false => "No other node has a route within both: this is proved.\n",
        };
        Ok(format!(
            "Reach from {}\n\nTolerance  {tolerance}\nGreatest   {}\n\n{}\n\
             Nodes      {reached} of {nodes}{}\nStreets    {feet} of {all} ft{}: those of level {tolerance} or below with both ends reached\n{proved}",
            self.town.numbered_name(self.from),
            feet_and_miles(self.greatest as u64),
            self.rows(),
            share(reached as u64, nodes as u64),
            share(feet, all),
        ))
    }

    /// A row for each entry.
    fn rows(&self) -> String {
        let mut page = Page::new(&[
            ("Node", Side::Right),
            ("Place", Side::Left),
            ("Feet", Side::Right),
            ("Miles", Side::Right),
        ]);
        for Entry { node, feet } in self.entries() {
            page.row(vec![
                node.to_string(),
                self.town.place(node).unwrap_or("-").to_string(),
                feet.to_string(),
                miles(feet),
            ]);
        }
        page.lines()
    }

    /// The answer for scripts.
    pub fn json(&self) -> Result<Vec<(&'static str, Json)>, Fault> {
        let StreetFeet { reached, all } = self.street_feet()?;
        let entries = self.entries().into_iter().map(|Entry { node, feet }| {
            Json::Object(vec![
                ("node", Json::number(node)),
                ("place", Json::optional(self.town.place(node))),
                ("feet", Json::number(feet)),
                ("miles", Json::Number(miles(feet))),
            ])
        });
        Ok(vec![
            ("from", self.town.node_json(self.from)),
            ("asked", Json::number(self.tolerance)),
            ("greatest", Json::number(self.greatest)),
            ("answer", Json::text("reach")),
            ("reached", Json::List(entries.collect())),
            (
                "street_feet",
                Json::Object(vec![
                    ("within", Json::number(reached)),
                    ("all", Json::number(all)),
                ]),
            ),
        ])
    }
}
