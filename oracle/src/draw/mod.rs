//! What draws inputs. The order of drawing is fixed: with the same seed the same
//! calls are drawn, so that every count and every list stays as it is.

pub mod bands;
pub mod decoder;
pub mod encoder;
#[cfg(feature = "error")]
pub mod hard;
mod numbers;
mod random;
pub mod refused;
pub mod sizes;
pub mod spectra;
pub mod steer;

pub use numbers::{any_side, as_second, every_place, every_shape, every_side, length, over};
pub use random::{say_seed, two, Random, SEED};
