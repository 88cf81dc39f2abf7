//! Networks to try calls with, and what is lent to the calls.
//!
//! [`town`] builds networks field by field, [`draw`] draws random ones and
//! damages them on purpose, [`lend`] keeps what is lent between guards,
//! [`sizes`] says how large a town may be, [`edition`] what may stand in it, and
//! [`program`] is what small programs share. Nothing here reads a text, gives a level or finds a route.

#![forbid(unsafe_code)]
#![deny(missing_docs)]

pub mod draw;
pub mod edition;
pub mod lend;
pub mod program;
pub mod sizes;
pub mod town;

pub use town::Town;
