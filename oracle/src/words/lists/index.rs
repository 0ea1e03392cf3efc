//! The list `index`: single values with E's index and coefficient.

use crate::draw::{steer::turn, Random, SEED};
use crate::original::Build;
use crate::words::lists::list::{Given, List, INDEX};
use std::path::Path;

const ONE: u32 = 0x3F80_0000;
const SIGN: u32 = 0x8000_0000;

/// The eight thresholds of a build, by halving on its own answers; the word
/// `tables` shows by a whole sweep that halving is sound.
fn thresholds(build: &Build) -> [u32; 8] {
    std::array::from_fn(|k| {
        let index = |pattern: u32| build.quantize_one(f32::from_bits(pattern)).0;
        turn(0, ONE - 1, |pattern| index(pattern) >= 9 + k).expect("a threshold below 1")
    })
}

fn inputs(build: &Build, random: &mut Random) -> Vec<u32> {
    let mut bits: Vec<u32> = Vec::new();
    let mut signs = |magnitudes: &mut dyn Iterator<Item = u32>| {
        for magnitude in magnitudes {
            bits.extend([magnitude, SIGN | magnitude]);
        }
    };
    // Each threshold with the 8 patterns on each side of it.
    let found = thresholds(build);
    for t in found {
        signs(&mut (t - 8..=t + 8));
    }
    // Both zeros; subnormals; the smallest normal.
    signs(&mut [0, 1, 2, 3, 0x100, 0x1_0000, 0x12_3456, 0x40_0000].into_iter());
    signs(&mut (0x7F_FFFD..=0x80_0002));
    // The coefficients of indices 8 to 16 and their neighbours; the signs give
    // the other eight. An x just at the k-th threshold has index 8 + k.
    for t in found {
        let (_, coefficient) = build.quantize_one(f32::from_bits(t));
        signs(&mut (coefficient - 2..=coefficient + 2));
    }
    // Below 1, and beyond it. Exactly 1 is left out.
    signs(&mut (ONE - 8..ONE));
    signs(&mut (ONE + 1..=ONE + 8));
    let wide = [1.5, 2.0, 3.0, 1000.0, 1e20, f32::MAX, f32::INFINITY];
    signs(&mut wide.into_iter().map(f32::to_bits));
    // NaN: quiet, signalling, several payloads.
    signs(&mut [0x7FC0_0000, 0x7F80_0001, 0x7FFF_FFFF, 0x7FBF_FFFF].into_iter());
    signs(&mut [0x7FC1_2345, 0x7FA0_0000, 0x7F80_ABCD, 0x7FC0_0001].into_iter());
    // Random in -1..1: a thousand even over the values, a thousand over the
    // patterns.
    for _ in 0..1000 {
        bits.push(random.unit().to_bits());
        bits.push(random.sign() | random.below(ONE as usize) as u32);
    }
    bits.retain(|b| b & !SIGN != ONE);
    bits
}

pub fn run(builds: &[Build; 2], root: &Path) -> bool {
    let [std, libm] = builds;
    let mut list = List::default();
    for input in inputs(std, &mut Random(SEED)) {
        let x = f32::from_bits(input);
        let (index, coefficient) = std.quantize_one(x);
        assert!(index <= 16, "E left the range at {input:08X}");
        let (other, its_coefficient) = libm.quantize_one(x);
        let differs = (other, its_coefficient) != (index, coefficient);
        if differs {
            println!(
                "lists: {input:08X}: std {index} {coefficient:08X}, libm {other} {its_coefficient:08X}"
            );
        }
        list.differ += usize::from(differs);
        let head = [INDEX, 0, 0, 0, 0];
        list.push(head, Given::Nothing, &[input], index, &[coefficient]);
    }
    list.write(root, "index", "")
}
