//! `splicereel route`: a way from one place to another.

use crate::call::{Limit, Way};
use crate::corner::Corner;
use crate::fault::Fault;
use crate::json::Json;
use crate::page::{Page, Side, feet_and_miles, miles};
use crate::segment::LENGTH;
use crate::town::{Town, unforeseen};
use splicereel::{Direction, Level, Route, Run};
use std::fmt::Write as _;

/// What was asked, and the answer.
#[derive(Debug)]
pub struct Asked<'t> {
    town: &'t Town,
    pub from: usize,
    pub to: usize,
    limit: Limit,
    /// The route and its tolerance.
    pub found: Option<(Route, Level)>,
}

impl<'t> Asked<'t> {
    /// Asks for a route between two nodes, named or numbered.
    pub fn new(town: &'t Town, question: &Way) -> Result<Asked<'t>, Fault> {
        let Way {
            from: start,
            to: end,
            limit,
        } = question;
        let (from, to) = (town.node(start)?, town.node(end)?);
        let found = match *limit {
            Limit::Least => town.network.least_stress(from, to),
            Limit::Within(level) => {
                let route = town.network.route(from, to, level);
                route.map(|found| found.map(|route| (route, level)))
            }
        };
        let asked = [(from, start.as_str()), (to, end.as_str())];
        let found = found.map_err(|refusal| town.refused(refusal, &asked))?;
        Ok(Asked {
            town,
            from,
            to,
            limit: *limit,
            found,
        })
    }

    /// The least tolerance that has a route where none was found, and its
    /// length.
    fn instead(&self) -> Result<Option<(Level, u32)>, Fault> {
        let least = self
            .town
            .network
            .least_stress(self.from, self.to)
            .map_err(unforeseen)?;
        Ok(least.map(|(route, level)| (level, route.feet())))
    }

    /// The two nodes, and what was found between them.
    pub fn title(&self) -> String {
        let found = if self.found.is_some() {
            "found"
        } else {
            "none"
        };
        format!(
            "Route from {} to {}: {found}",
            self.town.numbered_name(self.from),
            self.town.numbered_name(self.to)
        )
    }

    /// The tolerance as a page and a picture say it.
    fn tolerance(&self) -> String {
        match (self.limit, &self.found) {
            (Limit::Within(level), _) => level.to_string(),
            (Limit::Least, Some((_, level))) => format!("{level}, the least that has a route"),
            (Limit::Least, None) => "any".into(),
        }
    }

    /// The answer in a line, for a picture.
    pub fn caption(&self) -> String {
        let (from, to) = (self.town.node_name(self.from), self.town.node_name(self.to));
        let answer = match &self.found {
            Some((route, _)) => {
                format!("{}, level {}", feet_and_miles(route.feet()), route.level())
            }
            None => "no route".into(),
        };
        format!("{from} to {to}, tolerance {}: {answer}", self.tolerance())
    }

    /// The answer as a page.
    pub fn page(&self) -> Result<String, Fault> {
        let mut page = self.title();
        page += "\n\n";
        match &self.found {
            Some((route, _)) => {
                // Writing to a string does not fail.
                let _ = write!(
                    page,
                    "Tolerance  {}\nLength     {}\nLevel      {}\nRuns       {}\n\n{}",
                    self.tolerance(),
                    feet_and_miles(route.feet()),
                    route.level(),
                    route.runs().len(),
                    self.rows(route)?,
                );
            }
            None => page += &self.none()?,
        }
        Ok(page)
    }

    /// What is known where there is no route.
    fn none(&self) -> Result<String, Fault> {
        let nowhere = "No way leads from the one to the other, at any tolerance.\n";
        let Limit::Within(level) = self.limit else {
            return Ok(nowhere.into());
        };
        Ok(match self.instead()? {
            None => format!("Tolerance  {level}\n{nowhere}"),
            Some((least, feet)) => format!(
                "Tolerance  {level}\nNo way from the one to the other stays within it.\nThe least tolerance that has a route is {least}: {}.\n",
                feet_and_miles(feet)
            ),
        })
    }

    /// A row for each run and each corner.
    fn rows(&self, route: &Route) -> Result<String, Fault> {
        if route.runs().is_empty() {
            return Ok("The two are one node: there is nothing to ride.\n".into());
        }
        let mut page = Page::new(&[
            ("Run", Side::Right),
            ("Way", Side::Left),
            ("Feet", Side::Right),
            ("Level", Side::Right),
            ("Decided by", Side::Left),
        ]);
        for step in self.steps(route)? {
            if let Some(corner) = &step.before {
                let at = format!("  corner at {}", self.town.node_name(corner.node));
                page.row(vec![
                    "".into(),
                    at,
                    "".into(),
                    corner.level.to_string(),
                    corner.words(),
                ]);
            }
            page.row(self.run_row(&step)?);
        }
        Ok(page.lines())
    }

    fn run_row(&self, step: &Step) -> Result<Vec<String>, Fault> {
        let segment = step.run.segment();
        let judged = self.town.judge(segment)?;
        let way = direction(step.run);
        Ok(vec![
            step.number.to_string(),
            match self.town.street(segment) {
                Some(street) => format!("{street} (segment {segment}, {way})"),
                None => format!("segment {segment}, {way}"),
            },
            self.town.segment(segment).get(LENGTH).to_string(),
            judged.level.to_string(),
            judged.measure.to_string(),
        ])
    }

    /// The runs, each with the corner before it.
    fn steps(&self, route: &Route) -> Result<Vec<Step>, Fault> {
        let runs = route.runs();
        let before = [None].into_iter().chain(runs.iter().copied().map(Some));
        let corners = self.town.corners();
        let mut steps = Vec::with_capacity(runs.len());
        for (number, (before, &run)) in (1..).zip(before.zip(runs)) {
            let before = before
                .map(|before| Corner::of(self.town, &corners, before, run))
                .transpose()?;
            steps.push(Step {
                number,
                before,
                run,
            });
        }
        Ok(steps)
    }

    /// The answer for scripts.
    pub fn json(&self) -> Result<Vec<(&'static str, Json)>, Fault> {
        let asked = match self.limit {
            Limit::Within(level) => Json::number(level),
            Limit::Least => Json::text("least"),
        };
        let mut fields = vec![
            ("from", self.town.node_json(self.from)),
            ("to", self.town.node_json(self.to)),
            ("asked", asked),
        ];
        match &self.found {
            Some((route, level)) => fields.extend(self.found_json(route, *level)?),
            None => {
                let least = self.instead()?.map(|(level, feet)| {
                    vec![
                        ("tolerance", Json::number(level)),
                        ("feet", Json::number(feet)),
                    ]
                });
                fields.push(("answer", Json::text("none")));
                fields.push(("least", least.map_or(Json::Null, Json::Object)));
            }
        }
        Ok(fields)
    }

    fn found_json(
        &self,
        route: &Route,
        tolerance: Level,
    ) -> Result<Vec<(&'static str, Json)>, Fault> {
        let steps = self.steps(route)?;
        let runs: Result<Vec<Json>, Fault> =
            steps.iter().map(|step| self.run_json(step.run)).collect();
        let corners = steps.iter().filter_map(|step| step.before.as_ref());
        Ok(vec![
            ("answer", Json::text("found")),
            ("tolerance", Json::number(tolerance)),
            ("feet", Json::number(route.feet())),
            ("miles", Json::Number(miles(route.feet()))),
            ("level", Json::number(route.level())),
            ("runs", Json::List(runs?)),
            (
                "corners",
                Json::List(corners.map(|corner| self.corner_json(corner)).collect()),
            ),
        ])
    }

    fn run_json(&self, run: Run) -> Result<Json, Fault> {
        let (segment, (from, to)) = (run.segment(), self.town.run_ends(run));
        let judged = self.town.judge(segment)?;
        Ok(Json::Object(vec![
            ("run", Json::number(run.number())),
            ("segment", Json::number(segment)),
            ("street", Json::optional(self.town.street(segment))),
            ("direction", Json::text(direction(run))),
            ("from", Json::number(from)),
            ("to", Json::number(to)),
            ("feet", Json::number(self.town.segment(segment).get(LENGTH))),
            ("level", Json::number(judged.level)),
            ("measure", Json::text(judged.measure)),
        ]))
    }

    fn corner_json(&self, corner: &Corner) -> Json {
        let deciders = corner.deciders().into_iter().map(Json::text).collect();
        Json::Object(vec![
            ("node", Json::number(corner.node)),
            ("place", Json::optional(self.town.place(corner.node))),
            ("level", Json::number(corner.level)),
            ("right_hand_exit", corner.right_hand_exit.into()),
            ("decided_by", Json::List(deciders)),
        ])
    }
}

/// A run of a route, and the corner before it.
#[derive(Debug)]
struct Step {
    number: usize,
    before: Option<Corner>,
    run: Run,
}

fn direction(run: Run) -> &'static str {
    match run.direction() {
        Direction::AToB => "A to B",
        Direction::BToA => "B to A",
    }
}
