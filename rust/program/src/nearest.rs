//! `splicereel nearest`: the nearest of some places.

use crate::call::Nearest;
use crate::fault::Fault;
use crate::json::Json;
use crate::page::{feet_and_miles, miles};
use crate::town::{Town, unforeseen};
use splicereel::{Entry, Level};
use std::collections::BTreeSet;

/// What was asked, and the answer.
#[derive(Debug)]
pub struct Nearby<'t> {
    town: &'t Town,
    from: usize,
    tolerance: Level,
    /// The places, each once.
    places: BTreeSet<usize>,
    pub found: Option<Entry>,
}

impl<'t> Nearby<'t> {
    /// Asks for the nearest of some nodes, named or numbered.
    pub fn new(town: &'t Town, question: &Nearest) -> Result<Nearby<'t>, Fault> {
        let &Nearest {
            from: ref start,
            tolerance,
            places: ref words,
        } = question;
        let from = town.node(start)?;
        let mut asked = vec![(from, start.as_str())];
        for word in words {
            asked.push((town.node(word)?, word));
        }
        let places: BTreeSet<usize> = asked.iter().skip(1).map(|(node, _)| *node).collect();
        let each = places.iter().copied();
        let found = town.network.nearest(from, tolerance, each);
        Ok(Nearby {
            town,
            from,
            tolerance,
            found: found.map_err(|refusal| town.refused(refusal, &asked))?,
            places,
        })
    }

    /// The least tolerance within which one of the places has a route where
    /// none was found, and the nearest within it.
    fn instead(&self) -> Result<Option<(Level, Entry)>, Fault> {
        for level in Level::ALL
            .into_iter()
            .filter(|level| *level > self.tolerance)
        {
            let places = self.places.iter().copied();
            let nearest = self.town.network.nearest(self.from, level, places);
            if let Some(entry) = nearest.map_err(unforeseen)? {
                return Ok(Some((level, entry)));
            }
        }
        Ok(None)
    }

    /// The answer as a page.
    pub fn page(&self) -> Result<String, Fault> {
        let name = |node| self.town.numbered_name(node);
        let (count, tolerance) = (self.places.len(), self.tolerance);
        let (places, there) = match count {
            1 => ("place", "there"),
            _ => ("places", "to any of them"),
        };
        let title = format!("Nearest of {count} {places} from {}", name(self.from));
        if let Some(Entry { node, feet }) = self.found {
            let (found, length) = (name(node), feet_and_miles(feet));
            return Ok(format!(
                "{title}: {found}\n\nTolerance  {tolerance}\nLength     {length}\n"
            ));
        }
        let known = match self.instead()? {
            None => format!("No way leads {there}, at any tolerance.\n"),
            Some((least, Entry { node, feet })) => format!(
                "No way {there} stays within it.\nThe least tolerance that has a route is {least}: {}, {}.\n",
                name(node),
                feet_and_miles(feet)
            ),
        };
        Ok(format!("{title}: none\n\nTolerance  {tolerance}\n{known}"))
    }

    /// The answer for scripts.
    pub fn json(&self) -> Result<Vec<(&'static str, Json)>, Fault> {
        let node = |node: usize| self.town.node_json(node);
        let mut fields = vec![
            ("from", node(self.from)),
            ("asked", Json::number(self.tolerance)),
            (
                "places",
                Json::List(self.places.iter().copied().map(node).collect()),
            ),
        ];
        match self.found {
            Some(entry) => fields.extend([
                ("answer", Json::text("found")),
                ("nearest", node(entry.node)),
                ("feet", Json::number(entry.feet)),
                ("miles", Json::Number(miles(entry.feet))),
            ]),
            None => {
                let least = self.instead()?.map(|(level, entry)| {
                    Json::Object(vec![
                        ("tolerance", Json::number(level)),
                        ("nearest", node(entry.node)),
                        ("feet", Json::number(entry.feet)),
                    ])
                });
                fields.push(("answer", Json::text("none")));
                fields.push(("least", least.unwrap_or(Json::Null)));
            }
        }
        Ok(fields)
    }
}
