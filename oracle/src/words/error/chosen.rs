//! Coefficients by choice, which the encoder need not ever choose.

use crate::document::rules::lattice;
use crate::draw::Random;
use crate::original::Build;

/// E's seventeen coefficients by index. They come from its quantization of
/// values all over -1..1.
pub fn coefficients(build: &Build) -> [f32; 17] {
    let mut found = [f32::NAN; 17];
    for n in -999..=999 {
        let (index, pattern) = build.quantize_one(n as f32 / 1000.0);
        found[index] = f32::from_bits(pattern);
    }
    assert!(found.iter().all(|q| !q.is_nan()), "an index was not met");
    found
}

pub const CHOICES: [&str; 6] = [
    "all coefficients at index 16",
    "all coefficients at index 0",
    "indices 0 and 16 in turn",
    "indices 16 and 0 in turn",
    "index 0 or 16 at random",
    "any indices",
];

pub fn indices(random: &mut Random, choice: usize) -> [usize; 8] {
    std::array::from_fn(|k| match choice {
        0 => 16,
        1 => 0,
        2 => k % 2 * 16,
        3 => 16 - k % 2 * 16,
        4 => 16 * random.below(2),
        _ => random.below(17),
    })
}

/// The signs of nine lines, oldest first, with which every term of the ninth
/// filtered line has the same sign. The lattice is the sum of the lines times
/// the numbers of its answer to a single 1.
pub fn growing(q: &[f32; 8]) -> [f32; 9] {
    let q = q.map(f64::from);
    let mut state = [0.0; 8];
    let mut signs = [1.0; 9];
    // The answer n lines later weighs the line n lines before.
    for (n, sign) in signs.iter_mut().rev().enumerate() {
        let line = if n == 0 { 1.0 } else { 0.0 };
        if lattice(&q, &mut state, line, |a, q, x| a + q * x) < 0.0 {
            *sign = -1.0;
        }
    }
    signs
}
