//! `splicereel convert`: a network of edition 02 as text of edition 03, or back.

use crate::edition::{COUNTIES, Edition, NO_MOVE};
use crate::explain;
use crate::fault::Fault;
use crate::segment::{self, HEAD_BYTES, Head};
use crate::town::Town;
use splicereel::Refusal;

/// The text of a town's network, moved to an edition.
pub fn text(town: &Town, edition: Edition) -> Result<String, Fault> {
    let moved = match edition {
        COUNTIES => town.network.to_county(),
        _ => town.network.to_town(),
    };
    let moved = moved.map_err(|refusal| fault(town, edition, refusal))?;
    let parted = moved.as_bytes().split_at_checked(HEAD_BYTES);
    let (head, frames) = parted.unwrap_or_default();
    let frames = [head]
        .into_iter()
        .chain(frames.chunks(edition.segment_bytes()));
    Ok(frames.map(segment::line).collect())
}

/// Why a move to an edition is refused.
fn fault(town: &Town, edition: Edition, refusal: Refusal) -> Fault {
    let words = match refusal {
        Refusal::NoSuchMove if town.edition == edition => {
            Some(format!("the network is of edition {edition} already"))
        }
        Refusal::NoSuchMove => Some(NO_MOVE.into()),
        Refusal::AboveLimits => above(town, edition),
        _ => None,
    };
    Fault::refused(refusal, words.unwrap_or_else(|| refusal.to_string()))
}

/// What of a town is above the limits of an edition: a count, or else the first
/// segment that is too long.
fn above(town: &Town, edition: Edition) -> Option<String> {
    let own = Head::decode(town.network.as_bytes())?;
    if let Some((_, words)) = explain::counts(edition, [own.nodes, own.segments]) {
        return Some(words);
    }
    let head = Head { edition, ..own };
    (0..town.network.segments()).find_map(|number| {
        let words = segment::wrong(&town.segment(number), head)?;
        Some(format!("{}: {words}", town.numbered_street(number)))
    })
}
