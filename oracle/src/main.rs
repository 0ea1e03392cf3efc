//! The oracle's harness: one word, one job. It prints plain labelled lines.
//! Assumes that the script `run` called it: oracle WORD ROOT, where ROOT is the
//! repository's folder. README.md has the rooms and which may use which.
//!
//! What no word needs is seen in a build with every word: the others leave parts
//! of the shared rooms unused. A word's own folder has nothing to leave.
#![cfg_attr(
    not(all(
        feature = "decode",
        feature = "error",
        feature = "index",
        feature = "parts",
        feature = "speed"
    )),
    allow(dead_code, unused_imports)
)]

mod compare;
mod document;
mod draw;
#[cfg(feature = "lc3")]
mod liblc3;
mod original;
#[cfg(any(
    feature = "decode",
    feature = "restart",
    feature = "encode",
    feature = "index",
    feature = "lc3",
    feature = "parts"
))]
mod port;
#[warn(dead_code, unused_imports)]
mod words;

use std::path::Path;
use std::process::ExitCode;

fn main() -> ExitCode {
    let args: Vec<String> = std::env::args().collect();
    let [_, word, root] = &args[..] else {
        eprintln!("usage: oracle WORD ROOT");
        return ExitCode::from(2);
    };
    match words::run(word, Path::new(root)) {
        Some(true) => ExitCode::SUCCESS,
        Some(false) => ExitCode::FAILURE,
        None => {
            eprintln!("oracle: no such word");
            ExitCode::from(2)
        }
    }
}
