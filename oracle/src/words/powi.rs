//! The word `powi`: gamma.powi(k) as E computes it against the product rule of
//! docs/RULES.md, "Analysis", for every f32 gamma from 0.8 to 1 and k from 0 to 8.

use crate::compare::Differing;
use crate::document::rules;
use crate::original::both;
use std::hint::black_box;

pub fn run() -> bool {
    let profile = if cfg!(debug_assertions) {
        "opt-level 0"
    } else {
        "release"
    };
    let mut good = true;
    for build in &both() {
        let head = format!("powi: {} {profile}", build.name);
        let mut compared = 0u64;
        let mut alone = Differing::default();
        let mut looped = 0u64;
        for bits in 0.8f32.to_bits()..=1.0f32.to_bits() {
            let gamma = f32::from_bits(bits);
            let row = (build.powi_loop)(black_box(gamma));
            for (k, in_loop) in row.iter().enumerate() {
                let wanted = rules::power(black_box(gamma), black_box(k)).to_bits();
                let given = (build.powi)(black_box(gamma), black_box(k)).to_bits();
                compared += 1;
                alone.take(given != wanted, || {
                    format!("{head}: {bits:08X} to the {k}: E {given:08X}, rule {wanted:08X}")
                });
                looped += u64::from(in_loop.to_bits() != wanted);
            }
        }
        println!(
            "{head}: gamma 0.8..=1, k 0..=8: {compared} compared, {} differ alone, {looped} differ in E's loop",
            alone.0
        );
        good &= alone.0 + looped == 0;
    }
    good
}
