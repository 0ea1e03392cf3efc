//! The word `error`: how far the encoder's filtered lines lie from the exact lattice
//! (docs/RULES.md, "The exact lattice"), as a part of the bound 2^(m-13), for every whole m from
//! -126 to 119. It fails if a line lies beyond the bound or the harness's f32
//! lattice is not the port's.

mod cases;
mod chosen;
mod climb;
mod direct;
mod encoder_search;
mod family;
mod frames;
mod search;

use crate::document::exact::LEAST;
use crate::draw::say_seed;
use crate::original::both;
use crate::words::error::family::{Family, SPAN};
use std::path::Path;

fn print_all(what: &str, families: &[Family]) {
    let frames: u64 = families.iter().map(|family| family.frames).sum();
    let active: u64 = families.iter().map(Family::active).sum();
    let broken: u64 = families.iter().map(|family| family.broken).sum();
    let part = families.iter().map(Family::part).fold(0.0, f64::max);
    println!(
        "error: {what}: {frames} frames, {active} with a filter on, {broken} break the bound, largest part {part:.4}"
    );
}

pub fn run(root: &Path) -> bool {
    say_seed("error");
    println!("error: m is the least whole number, not below {LEAST}, with all lines from the first band's start to the last band's end at most 2^m in size; a part is a frame's largest distance from the exact lattice divided by 2^(m-13)");
    let [build, _] = both();
    let families = [
        frames::drawn(&build),
        frames::hard(),
        encoder_search::run(&build),
        direct::run(&build),
        search::run(&build),
    ];
    let mut good = true;
    for family in &families {
        good &= family.print();
    }
    let (encoder, lattice) = families.split_at(3);
    print_all("through the encoder (drawn, hard, encoder search)", encoder);
    print_all("the lattice alone (direct, search)", lattice);
    println!("error: largest part for each m, with the number of frames that have a filter on; - where none has");
    for n in 0..SPAN {
        let cells: Vec<String> = families.iter().map(|family| family.cell(n)).collect();
        println!("error: m {}: {}", n as i32 + LEAST, cells.join(", "));
    }
    cases::write(&build, root) && good
}
