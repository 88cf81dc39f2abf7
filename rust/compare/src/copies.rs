//! What is asked about a town as edition 02 and as edition 03, which must have
//! the same answers: a town that is moved is the other.

use crate::question::{Question, Seen};
use crate::rounds::{Done, Subject, enough, next_run, two_nodes};
use crate::{Comparer, Mismatch};
use towns::draw::Rng;

/// A town as edition 02 and as edition 03.
struct Copies<'a, 'c> {
    comparer: &'a mut Comparer<'c>,
    newer: Subject,
    county: Subject,
}

/// What copies have to be asked.
const ASKED: [&str; 8] = [
    "segment refused 0",
    "segment refused 12",
    "movement refused 0",
    "movement refused 12",
    "route refused 0",
    "least refused 0",
    "map refused 0",
    "nearest refused 0",
];

fn copy_case(asked: &str) -> String {
    format!("02 and 03 agree: {asked}")
}

fn pairs_case(nodes: usize) -> String {
    format!("02 and 03 agree: every pair of {nodes} nodes")
}

/// A town of so many nodes and segments at most is asked everything about its
/// streets and between its nodes.
const SMALL: (usize, usize) = (6, 14);

/// A town of edition 02 and the same of edition 03: every answer must be equal,
/// and a route that one draws be one of the other's.
pub fn copies(comparer: &mut Comparer<'_>, rng: &mut Rng, [newer, county]: [Subject; 2]) -> Done {
    let (from, to) = two_nodes(rng, &newer);
    let (nodes, segments) = (newer.nodes(), newer.runs() / 2);
    let mut copies = Copies {
        comparer,
        newer,
        county,
    };
    if nodes <= SMALL.0 && segments <= SMALL.1 {
        copies.everything(rng)?;
    } else {
        copies.some(rng)?;
        copies.at_each_tolerance(rng, from, to)?;
    }
    copies.reach(rng, from)
}

impl Copies<'_, '_> {
    /// Every segment, every movement, and every pair of nodes.
    fn everything(&mut self, rng: &mut Rng) -> Done {
        for segment in 0..=self.newer.runs() / 2 {
            self.both(rng, Question::Segment { segment })?;
        }
        let net = self.newer.net.as_ref();
        for (first, second, _) in net.map_or(Vec::new(), |net| net.movements()) {
            self.both(rng, Question::Movement { first, second })?;
        }
        let nodes = self.newer.nodes();
        for from in 0..nodes {
            for to in 0..nodes {
                self.at_each_tolerance(rng, from, to)?;
            }
        }
        self.comparer.reached.count(pairs_case(nodes));
        Ok(())
    }

    /// Some segments and movements.
    fn some(&mut self, rng: &mut Rng) -> Done {
        let runs = self.newer.runs();
        let segments = runs / 2;
        for segment in [rng.below(segments), rng.below(segments), segments] {
            self.both(rng, Question::Segment { segment })?;
        }
        for first in [rng.below(runs), rng.below(runs), rng.below(runs)] {
            let second = next_run(rng, &self.newer.town, first).unwrap_or(first);
            self.both(rng, Question::Movement { first, second })?;
        }
        Ok(())
    }

    /// Route at every tolerance, and Least stress.
    fn at_each_tolerance(&mut self, rng: &mut Rng, from: usize, to: usize) -> Done {
        for tolerance in [Some(1), Some(2), Some(3), Some(4), None] {
            self.routes(rng, from, to, tolerance)?;
        }
        Ok(())
    }

    /// A question about both, which must have what is told in common but for what
    /// is free; what each said.
    fn both(&mut self, rng: &mut Rng, question: Question<'_>) -> Result<[Seen; 2], Box<Mismatch>> {
        let mut ask = |subject: &Subject, rng: &mut Rng| {
            let (net, bytes) = (subject.net.as_ref(), &subject.bytes);
            self.comparer.compare(rng, net, bytes, question)
        };
        // The same garbage is lent for both, so that all that is told can be
        // held together.
        let (one, other) = (ask(&self.newer, &mut rng.clone())?, ask(&self.county, rng)?);
        let (mut told, mut copys) = (one.told(), other.told());
        if let Question::Search { .. } = question {
            // Count and level are the route's own.
            (told[1], told[3], copys[1], copys[3]) = (0, 0, 0, 0);
        }
        if (one.number, told) != (other.number, copys) || one.entries() != other.entries() {
            let question = format!("{question:?}: {one}; of edition 03 {other}");
            let complaint = "another answer of edition 02 than of edition 03";
            let bytes = &self.county.bytes;
            return Err(self.comparer.disagreement(bytes, question, complaint));
        }
        let case = format!("{} refused {}", crate::reached::name(question), one.number);
        self.comparer.reached.count(copy_case(&case));
        Ok([one, other])
    }

    /// A route of each, ridden in the other.
    fn routes(&mut self, rng: &mut Rng, from: usize, to: usize, tolerance: Option<usize>) -> Done {
        let lengths = enough(rng, self.newer.runs());
        let question = Question::Search {
            from,
            to,
            tolerance,
            lengths,
        };
        let [one, other] = self.both(rng, question)?;
        let told = one.told();
        if told[0] == 0 {
            return Ok(());
        }
        let within = tolerance.unwrap_or(told[4] as usize) as u8;
        for (seen, subject) in [(&one, &self.county), (&other, &self.newer)] {
            let (told, net) = (seen.told(), subject.net.as_ref());
            let (count, level) = (told[1] as usize, told[3] as u8);
            let runs = seen.lent.runs(count);
            let ridden = net.map_or(Err("no network".into()), |net| {
                net.check_route(from, to, within, runs, count, told[2], level)
            });
            if let Err(complaint) = ridden {
                let question = format!("{question:?}: {complaint}");
                let complaint = "a route in one edition is none in the other";
                return Err(self
                    .comparer
                    .disagreement(&subject.bytes, question, complaint));
            }
        }
        Ok(())
    }

    /// A map and the nearest of some nodes.
    fn reach(&mut self, rng: &mut Rng, from: usize) -> Done {
        let (runs, nodes) = (self.newer.runs(), self.newer.nodes());
        let tolerance = rng.range(1, 4);
        let reach = crate::calls::Reach {
            from,
            tolerance,
            greatest: rng.pick(&[500, 5_000, 50_000, usize::MAX]),
        };
        let scratch = [runs, runs];
        let list = 2 * nodes;
        let question = Question::Map {
            reach,
            scratch,
            list,
        };
        self.both(rng, question)?;
        let marks: Vec<u8> = (0..nodes).map(|_| u8::from(rng.chance(20))).collect();
        let question = Question::Nearest {
            from,
            tolerance,
            marks: &marks,
            scratch,
        };
        self.both(rng, question).map(|_| ())
    }
}

/// Everything that comparisons have to show of copies.
pub fn must_show() -> impl Iterator<Item = String> {
    let asked = ASKED.iter().map(|asked| copy_case(asked));
    asked.chain((1..=SMALL.0).map(pairs_case))
}
