//! What calls the original: its two builds behind one type, and what they say to
//! a call. What builds it lies beside the harness, in `original/` of the oracle.

mod answers;
mod build;
mod caught;

pub use answers::{How, D_INDEX_0};
pub use build::{both, Build};
pub use caught::caught;
