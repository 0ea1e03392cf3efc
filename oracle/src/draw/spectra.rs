//! Made spectra of every kind. They use only products, sums and bit patterns,
//! so that every machine makes the same ones.

use crate::draw::random::{two, Random};
use std::ops::{Add, Mul, Sub};

/// The kinds by name; a kind is a place in this list.
pub const KINDS: [&str; 15] = [
    "white noise",
    "tones",
    "speech-like decay",
    "autoregressive",
    "zeros of both signs",
    "impulses",
    "subnormal",
    "least normals",
    "near overflow",
    "with infinities",
    "with NaN",
    "any pattern",
    "any finite scale",
    "whole numbers",
    "constant or alternating",
];

/// Any bit patterns, so that a NaN that is not touched is seen not to be.
pub fn patterns(random: &mut Random, length: usize) -> Vec<f32> {
    let pattern = |_| f32::from_bits(random.pattern());
    (0..length).map(pattern).collect()
}

pub fn noise(random: &mut Random, lines: &mut [f32], scale: f32) {
    for line in lines {
        *line = random.unit() * scale;
    }
}

/// A low floor with a few peaks whose sides fall off and change sign.
fn tones(random: &mut Random, lines: &mut [f32]) {
    let floor = random.between(-20, 0);
    noise(random, lines, two(floor));
    for _ in 0..1 + random.below(5) {
        let (at, height) = (random.below(lines.len()), random.unit() * two(12));
        for (n, line) in lines.iter_mut().enumerate() {
            let away = n as f32 - at as f32;
            let side = if n.abs_diff(at) % 2 == 0 { 1.0 } else { -1.0 };
            *line += side * height / (1.0 + 4.0 * away * away);
        }
    }
}

/// Harmonics of one pitch over a falling noise floor.
fn speech(random: &mut Random, lines: &mut [f32]) {
    let pitch = 3 + random.below(14);
    let fall = 1.0 - two(random.between(-9, -4));
    let mut envelope = two(random.between(0, 14));
    for (n, line) in lines.iter_mut().enumerate() {
        let height = if n % pitch == 0 { 1.0 } else { 0.0625 };
        *line = random.unit() * envelope * height;
        envelope *= fall;
    }
}

/// Noise sent through the lattice that undoes the encoder's, in f32 or f64: each
/// line leans on as many lines below it as there are coefficients, at most eight,
/// and the analysis finds coefficients like them.
pub fn leaning<T>(random: &mut Random, reflection: &[T], length: usize) -> Vec<T>
where
    T: Copy + Default + From<f32> + Add<Output = T> + Sub<Output = T> + Mul<Output = T>,
{
    let mut state = [T::default(); 9];
    let lines = (0..length).map(|_| {
        let mut t = T::from(random.unit());
        for (k, q) in reflection.iter().enumerate().rev() {
            t = t - *q * state[k];
            state[k + 1] = *q * t + state[k];
        }
        state[0] = t;
        t
    });
    lines.collect()
}

/// Leaning lines of random coefficients. `most` bounds their size.
pub fn autoregressive(random: &mut Random, lines: &mut [f32], order: usize, most: f32) {
    let reflection: Vec<f32> = (0..order).map(|_| random.unit() * most).collect();
    lines.copy_from_slice(&leaning(random, &reflection, lines.len()));
}

pub fn scale(lines: &mut [f32], by: f32) {
    for line in lines {
        *line *= by;
    }
}

/// Puts patterns at a few places.
fn sprinkle(random: &mut Random, lines: &mut [f32], mut pattern: impl FnMut(&mut Random) -> u32) {
    for _ in 0..1 + random.below(4) {
        let at = random.below(lines.len());
        lines[at] = f32::from_bits(pattern(random));
    }
}

/// Fills the lines with a spectrum of one kind.
pub fn fill(kind: usize, random: &mut Random, lines: &mut [f32]) {
    let moderate = two(random.between(-20, 20));
    match KINDS[kind] {
        "white noise" => noise(random, lines, moderate),
        "tones" => tones(random, lines),
        "speech-like decay" => speech(random, lines),
        "autoregressive" => {
            let order = 1 + random.below(8);
            autoregressive(random, lines, order, 0.95);
            scale(lines, moderate);
        }
        "zeros of both signs" => lines.fill_with(|| f32::from_bits(random.sign())),
        "impulses" => {
            lines.fill_with(|| f32::from_bits(random.sign()));
            sprinkle(random, lines, |r| (r.unit() * moderate).to_bits());
        }
        "subnormal" => {
            let most = 1 << random.between(1, 23);
            lines.fill_with(|| f32::from_bits(random.sign() | random.below(most) as u32));
        }
        "least normals" => lines.fill_with(|| random.unit() * two(random.between(-126, -120))),
        "near overflow" => lines.fill_with(|| random.unit() * two(random.between(118, 127))),
        "with infinities" => {
            noise(random, lines, moderate);
            sprinkle(random, lines, |r| r.sign() | 0x7F80_0000);
        }
        "with NaN" => {
            noise(random, lines, moderate);
            sprinkle(random, lines, |r| {
                r.sign() | 0x7F80_0000 | (1 + r.below(0x7F_FFFF) as u32)
            });
        }
        "any pattern" => lines.fill_with(|| f32::from_bits(random.next() as u32)),
        "any finite scale" => lines.fill_with(|| random.unit() * two(random.between(-126, 127))),
        "whole numbers" => {
            let most = random.between(1, 9);
            lines.fill_with(|| random.between(-most, most) as f32);
        }
        _ => {
            let (value, turn) = (random.unit() * moderate, random.once_in(2));
            for (n, line) in lines.iter_mut().enumerate() {
                *line = if turn && n % 2 == 1 { -value } else { value };
            }
        }
    }
}
