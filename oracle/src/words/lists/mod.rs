//! The word `lists`: writes the fixed lists of the std build's answers to
//! crates/prog_replay/data. The same build writes the same bytes.
//! Assumes that the folder exists.

mod cost;
mod decode;
mod encode;
mod index;
mod list;

use crate::draw::say_seed;
use crate::original::both;
use std::path::Path;

pub fn run(root: &Path) -> bool {
    let builds = both();
    say_seed("lists");
    let mut good = cost::run(&builds, root);
    good &= index::run(&builds, root);
    good &= decode::run(&builds, root);
    good &= encode::run(&builds, root);
    good
}
