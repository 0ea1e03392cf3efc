//! What calls the port, by the C names of its static library, and the memory
//! that is lent to it. The shapes are written out here and not taken from the
//! crate in `rust/`: its functions keep them to themselves, take no number that
//! the rules refuse, and lend memory of their own, where no guards lie.

#[cfg(feature = "parts")]
mod cost;
#[cfg(any(feature = "decode", feature = "lc3"))]
mod decoder;
#[cfg(any(feature = "encode", feature = "lc3"))]
mod encoder;
#[cfg(feature = "index")]
mod index;
mod lent;
#[cfg(feature = "restart")]
mod restart;

#[cfg(feature = "parts")]
pub use cost::costs;
#[cfg(any(feature = "decode", feature = "lc3"))]
pub use decoder::{decode, decode_lines};
#[cfg(any(feature = "encode", feature = "lc3"))]
pub use encoder::{encode_lines, Beside, Loan};
#[cfg(feature = "index")]
pub use index::index;
pub use lent::Lent;
#[cfg(feature = "restart")]
pub use restart::{restart_lines, save_lines, Desk, Door, Numbers};
