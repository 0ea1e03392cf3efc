//! The words. Each says by itself what it compares, and none uses another. The
//! words that call the port are features of the harness.

mod cost;
#[cfg(feature = "decode")]
mod decode;
#[cfg(feature = "encode")]
mod encode;
#[cfg(feature = "error")]
mod error;
#[cfg(feature = "index")]
mod index;
#[cfg(feature = "lc3")]
mod lc3;
mod lists;
#[cfg(feature = "parts")]
mod parts;
mod powi;
#[cfg(feature = "restart")]
mod restart;
#[cfg(feature = "speed")]
mod speed;
mod tables;

use std::path::Path;

/// Whether all is good, or nothing if there is no such word.
pub fn run(word: &str, root: &Path) -> Option<bool> {
    Some(match word {
        "tables" => tables::run(),
        "powi" => powi::run(),
        "cost" => cost::run(root),
        "lists" => lists::run(root),
        #[cfg(feature = "index")]
        "index" => index::run(),
        #[cfg(feature = "parts")]
        "parts" => parts::run(),
        #[cfg(feature = "decode")]
        "decode" => decode::run(),
        #[cfg(feature = "restart")]
        "restart" => restart::run(),
        #[cfg(feature = "encode")]
        "encode" => encode::run(),
        #[cfg(feature = "error")]
        "error" => error::run(root),
        #[cfg(feature = "lc3")]
        "lc3" => lc3::run(),
        #[cfg(feature = "speed")]
        "speed" => speed::times(),
        #[cfg(feature = "speed")]
        "counts" => speed::counts(),
        _ => return None,
    })
}
