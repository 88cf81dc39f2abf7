//! Move up and Move back: a kept network with the frames of another edition,
//! which judges it by the same rules.

use crate::edition::{Edition, LONG, SHORT};
use crate::frame::{HEAD, Head, Segment};
use crate::network::is_network;

/// Writes a network of edition 02 into `output` as one of edition 03.
///
/// Gives the number of bytes written; bytes of `output` past them stay.
///
/// Refusals: 8, 16, 18 in that order; they write nothing.
pub fn move_up(net: &[u8], output: &mut [u8]) -> Result<usize, u8> {
    moved::<SHORT, LONG>(net, [Edition::Two, Edition::Three], output)
}

/// Writes a network of edition 03 into `output` as one of edition 02.
///
/// Gives the number of bytes written; bytes of `output` past them stay.
///
/// Refusals: 8, 16, 17, 18 in that order; they write nothing.
pub fn move_back(net: &[u8], output: &mut [u8]) -> Result<usize, u8> {
    moved::<LONG, SHORT>(net, [Edition::Three, Edition::Two], output)
}

/// Moves a network from one edition to another, with segment frames of `L` bytes
/// and of `M`.
fn moved<const L: usize, const M: usize>(
    net: &[u8],
    [from, to]: [Edition; 2],
    output: &mut [u8],
) -> Result<usize, u8> {
    if !is_network(net) {
        return Err(8);
    }
    let (head, body) = net.split_first_chunk::<HEAD>().ok_or(8)?;
    let head = Head::decode(head).ok_or(8)?;
    if head.edition != from {
        return Err(16);
    }
    let (head, (frames, _)) = (head.of(to), body.as_chunks::<L>());
    let most = to.most_feet();
    if !head.in_order() || frames.iter().any(|frame| Segment(frame).length() > most) {
        return Err(17);
    }
    let output = output.get_mut(..head.size()).ok_or(18)?;
    let (first, others) = output.split_first_chunk_mut().ok_or(18)?;
    *first = head.encode();
    let (places, _) = others.as_chunks_mut::<M>();
    for (frame, place) in frames.iter().zip(places) {
        Segment(frame).write(place);
    }
    Ok(head.size())
}
