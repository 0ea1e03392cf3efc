//! docs/RULES.md written out in the harness: its rows, calls, refusals and rules,
//! the encoder's analysis with its gains, the decoder's lattice on a part of a frame
//! ("Restart at a line (C-22)"), and the exact lattice. Nothing here is taken from
//! the port.

pub mod analysis;
mod calls;
mod decoder;
#[cfg(feature = "error")]
pub mod exact;
pub mod refusals;
mod rows;
pub mod rules;
mod side;
#[cfg(feature = "error")]
pub mod whole;

pub use analysis::{Gains, WhyOff};
pub use calls::{Decode, Encode, Encoded, Mended, Outcome};
pub use refusals::{Answer, ACCEPTED};
pub use rows::{Row, ROWS};
pub use rules::Filters;
pub use side::Side;
