//! The searches with what is lent between guards.

use towns::lend::Lent;
use twin::Found;

/// Route with what is lent.
pub fn route(
    lent: &mut Lent,
    net: &[u8],
    from: usize,
    to: usize,
    tolerance: u8,
) -> Result<Option<Found>, u8> {
    let (best, previous) = (lent.best.lend(), lent.previous.lend());
    let buffer = lent.buffer.lend();
    twin::route(net, from, to, tolerance, best, previous, buffer, lent.place)
}

/// Least stress with what is lent.
pub fn least_stress(
    lent: &mut Lent,
    net: &[u8],
    from: usize,
    to: usize,
) -> Result<Option<(Found, u8)>, u8> {
    let (best, previous) = (lent.best.lend(), lent.previous.lend());
    let buffer = lent.buffer.lend();
    twin::least_stress(net, from, to, best, previous, buffer, lent.place)
}
