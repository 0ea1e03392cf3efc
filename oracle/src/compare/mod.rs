//! The ways of comparing, each once.

#[cfg(any(
    feature = "decode",
    feature = "restart",
    feature = "encode",
    feature = "parts"
))]
pub mod refusals;
mod same;
pub mod strange;

pub use same::{difference, first_change, first_difference, gains_difference, Differing};
