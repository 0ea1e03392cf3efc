//! Drawing encoder calls of every kind. Beside the kinds of `spectra` there are
//! kinds that turn the filters on in every order, that reach the corners of the
//! energies, and that are steered to a limit of the analysis (`steer`).

use crate::document::{Encode, Row};
use crate::draw::bands::{bands, coarse, falling, near_underflow, some_subband, wave};
use crate::draw::numbers::any_length;
use crate::draw::random::Random;
use crate::draw::spectra::{self, autoregressive, noise};
use crate::draw::steer::{steer, Limit};
use crate::original::Build;

const PLAIN: usize = spectra::KINDS.len();

/// The kinds after those of `spectra`, by name.
const MORE: [&str; 14] = [
    "autoregressive bands",
    "falling bands",
    "waves over the lines",
    "only every n-th line",
    "a silent subband",
    "small energies",
    "energies whose product is near 2^-150",
    "large energies",
    "gain near 1.5",
    "gain near 2",
    "coefficient near a threshold",
    "coefficient near 1",
    "subband of coarse energy",
    "a stray NaN or infinity",
];

pub const KINDS: usize = PLAIN + MORE.len();
pub const ACTIVE: [usize; 3] = [PLAIN, PLAIN + 1, PLAIN + 2];
/// `spectra`'s zeros of both signs.
pub const SILENCE: usize = 4;
pub const GAIN_ON: usize = PLAIN + 8;
pub const GAIN_DAMPED: usize = PLAIN + 9;
pub const THRESHOLD: usize = PLAIN + 10;
pub const ONE: usize = PLAIN + 11;

pub fn name(kind: usize) -> &'static str {
    if kind < PLAIN {
        spectra::KINDS[kind]
    } else {
        MORE[kind - PLAIN]
    }
}

/// The limit that calls of a kind are steered to.
pub fn limit(kind: usize) -> Option<Limit> {
    match kind {
        GAIN_ON => Some(Limit::Gain(1.5)),
        GAIN_DAMPED => Some(Limit::Gain(2.0)),
        THRESHOLD => Some(Limit::Threshold),
        ONE => Some(Limit::One),
        _ => None,
    }
}

fn fill(random: &mut Random, row: &Row, kind: usize, lines: &mut [f32]) {
    if kind < PLAIN {
        return spectra::fill(kind, random, lines);
    }
    match name(kind) {
        "autoregressive bands" => bands(random, row, lines, -12, 14),
        "falling bands" => {
            noise(random, lines, 1.0);
            for (start, stop) in row.bands {
                falling(random, &mut lines[*start..*stop]);
            }
        }
        "waves over the lines" => {
            noise(random, lines, 1.0);
            for (start, stop) in row.bands {
                wave(random, &mut lines[*start..*stop]);
            }
        }
        "only every n-th line" => {
            lines.fill(0.0);
            for (start, stop) in row.bands {
                let step = 2 + random.below(7);
                let mut thin = vec![0.0; (stop - start) / step];
                autoregressive(random, &mut thin, 2, 0.99);
                for (n, x) in thin.iter().enumerate() {
                    lines[start + n * step] = *x;
                }
            }
        }
        "a silent subband" => {
            bands(random, row, lines, -12, 14);
            let (start, stop) = some_subband(random, row);
            lines[start..stop].fill(random.one_of(&[0.0, -0.0]));
        }
        "small energies" => bands(random, row, lines, -80, -20),
        "large energies" => bands(random, row, lines, 16, 66),
        "subband of coarse energy" => {
            bands(random, row, lines, 0, 14);
            let (start, stop) = some_subband(random, row);
            let step = 1 + random.below(8);
            coarse(random, &mut lines[start..stop], step);
        }
        "a stray NaN or infinity" => {
            bands(random, row, lines, -12, 14);
            let stray = random.one_of(&[f32::NAN, f32::INFINITY, f32::NEG_INFINITY]);
            lines[random.below(lines.len())] = stray;
        }
        _ => near_underflow(random, row, lines),
    }
}

/// The bit numbers: around the weighting limit, small, large.
pub fn bit_number(random: &mut Random, row: &Row) -> u64 {
    match random.below(12) {
        0..=4 => row.limit() - 2 + random.below(5) as u64,
        5..=7 => random.below(row.limit() as usize) as u64,
        8 => 0,
        9 => u64::MAX,
        10 => u64::from(u32::MAX) + 1 + random.below(400) as u64,
        _ => 500 + random.below(4000) as u64,
    }
}

/// Draws calls of a kind, one or several, for a row and a length.
pub fn draw(
    random: &mut Random,
    build: &Build,
    row: &'static Row,
    kind: usize,
    length: usize,
    mut with: impl FnMut(&Encode),
) {
    let mut call = Encode {
        row,
        bits: bit_number(random, row),
        near_nyquist: random.once_in(8),
        kind,
        lines: vec![0.0; length],
    };
    if let Some(limit) = limit(kind) {
        return steer(random, build, limit, call, with);
    }
    fill(random, row, kind, &mut call.lines);
    with(&call);
}

/// Draws a call of any kind, more often one that turns a filter on, and of any
/// length that the row accepts, more often one that E's configuration offers.
pub fn draw_any(random: &mut Random, build: &Build, row: &'static Row, with: impl FnMut(&Encode)) {
    let kind = match random.below(2) {
        0 => random.one_of(&ACTIVE),
        _ => random.below(KINDS),
    };
    let length = match random.below(8) {
        0 => any_length(random, row),
        _ => random.one_of(&row.offered()),
    };
    draw(random, build, row, kind, length, with);
}
