//! Lines made for a row's bands and subbands, so that filters turn on or a corner
//! of the energies is reached.

use crate::document::Row;
use crate::draw::random::{two, Random};
use crate::draw::spectra::{autoregressive, noise, scale};

/// Each band by itself autoregressive, with a scale of its own.
pub fn bands(random: &mut Random, row: &Row, lines: &mut [f32], low: i32, high: i32) {
    noise(random, lines, two(low));
    for (start, stop) in row.bands {
        let order = 1 + random.below(8);
        let most = random.one_of(&[0.4, 0.8, 0.95, 0.99]);
        let band = &mut lines[*start..*stop];
        autoregressive(random, band, order, most);
        scale(band, two(random.between(low, high)));
    }
}

/// A subband of a random band.
pub fn some_subband(random: &mut Random, row: &Row) -> (usize, usize) {
    let band = random.below(row.bands.len());
    row.subbands(band)[random.below(3)]
}

/// Falls or rises by a fixed ratio, with a little noise.
pub fn falling(random: &mut Random, band: &mut [f32]) {
    let ratio = 1.0 - two(random.between(-8, -2)) * (1.0 + random.unit());
    let ratio = if random.once_in(3) { -ratio } else { ratio };
    let grain = two(random.between(-12, 0));
    let mut height = two(random.between(0, 10));
    for line in band.iter_mut() {
        *line = height * (1.0 + grain * random.unit());
        height *= ratio;
    }
    if random.once_in(2) {
        band.reverse();
    }
}

pub fn wave(random: &mut Random, band: &mut [f32]) {
    let turn = 2.0 * random.unit();
    let grain = two(random.between(-14, -1));
    let (mut before, mut now) = (random.unit(), random.unit());
    for line in band {
        *line = now + grain * random.unit();
        (before, now) = (now, turn * now - before);
    }
}

/// Three scales whose energies multiply to about the least subnormal.
pub fn near_underflow(random: &mut Random, row: &Row, lines: &mut [f32]) {
    bands(random, row, lines, 0, 0);
    for band in 0..row.bands.len() {
        let (a, b) = (random.between(-55, 20), random.between(-55, 20));
        let c = random.between(-88, -74) - a - b;
        for ((start, stop), e) in row.subbands(band).into_iter().zip([a, b, c]) {
            scale(&mut lines[start..stop], two(e.clamp(-126, 60)));
        }
    }
}

/// Lines around 2^-75: their squares and products round to a few units of
/// 2^-149, so that a lag may outgrow the energy.
pub fn coarse(random: &mut Random, lines: &mut [f32], step: usize) {
    let pattern = [two(-75), 1.5 * two(-75)];
    let strict = random.once_in(2);
    for (n, line) in lines.iter_mut().enumerate() {
        *line = match (n % step, strict) {
            (0, true) => pattern[n / step % 2],
            (0, false) => random.one_of(&pattern),
            _ => 0.0,
        };
    }
}
