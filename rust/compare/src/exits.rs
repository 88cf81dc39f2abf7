//! Which right-hand exits the movements that were judged had.

use crate::places::{self, WAYS};

/// A movement onto another leg than the right-hand exit.
pub const PASSED: &str = "exit: passed for another leg";
/// The exit is a leg by which no open run leaves.
const CLOSED: &str = "exit: no open run leaves by it";

fn onto(leg: usize, exit: usize) -> String {
    format!("exit: by leg {leg} onto leg {exit}")
}

/// Node and leg of an end, and the ways that close the run that leaves there.
type Corner = ([u8; 2], u8, u8);

/// The ends A and B of a segment of a network.
fn ends(frame: &[u8]) -> [Corner; 2] {
    let corner = |at: usize, closed| ([frame[at], frame[at + 1]], frame[at + 2], closed);
    [corner(1, 2), corner(4, 1)]
}

/// What a movement between two runs of a network shows of right-hand exits.
pub fn shown(net: &[u8], first: usize, second: usize) -> Vec<String> {
    let end = |run: usize, other: usize| ends(places::frame(net, run / 2))[(run % 2) ^ other];
    let ((node, leg, _), (_, out, _)) = (end(first, 1), end(second, 0));
    let below = (1..8).map(|step| (leg + 8 - step) % 8);
    // The ends at the node by each leg below, with what closes them.
    let at = |wanted: u8| {
        places::frames(net).find_map(|frame| {
            let found = ends(frame)
                .into_iter()
                .find(|&(at, by, _)| (at, by) == (node, wanted));
            found.map(|(.., closed)| places::street(net, frame)[WAYS] == closed)
        })
    };
    let Some((exit, closed)) = below
        .into_iter()
        .find_map(|wanted| at(wanted).map(|closed| (wanted, closed)))
    else {
        return Vec::new();
    };
    if out == exit {
        return vec![onto(leg.into(), exit.into())];
    }
    let closed = closed.then(|| CLOSED.into());
    [PASSED.into()].into_iter().chain(closed).collect()
}

/// Everything that comparisons have to show of them: each exit of each leg.
pub fn must_show() -> impl Iterator<Item = String> {
    let pairs = (0..8).flat_map(|leg| (0..8).map(move |exit| (leg, exit)));
    let exits = pairs.filter(|(leg, exit)| leg != exit);
    let others = [PASSED, CLOSED].map(String::from);
    exits.map(|(leg, exit)| onto(leg, exit)).chain(others)
}
