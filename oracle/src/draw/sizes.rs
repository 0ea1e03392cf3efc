//! Encoder calls whose lines have every size that an f32 can have: subnormals, sizes
//! at which an energy is subnormal or about to overflow, and lines that are huge,
//! infinite or NaN. The other lines lean, so that the filters of other bands are on.

use crate::document::{Encode, Row};
use crate::draw::bands::{bands, some_subband};
use crate::draw::encoder::bit_number;
use crate::draw::numbers::any_length;
use crate::draw::random::{two, Random};
use crate::draw::spectra::scale;

/// The kinds by name; a kind is a place in this list.
pub const KINDS: [&str; 7] = [
    "subnormals among leaning lines",
    "a band of subnormals",
    "a subband whose energy may be subnormal",
    "a band whose energy may overflow",
    "a huge line",
    "an infinite line",
    "a NaN line",
];

fn subnormal(random: &mut Random) -> f32 {
    f32::from_bits(random.sign() | (1 + random.below(0x7F_FFFF) as u32))
}

fn fill(random: &mut Random, row: &Row, kind: usize, lines: &mut [f32]) {
    bands(random, row, lines, -12, 14);
    let (start, stop) = random.one_of(row.bands);
    let (first, end) = some_subband(random, row);
    match KINDS[kind] {
        "subnormals among leaning lines" => {
            let seldom = random.one_of(&[2, 4, 8, 16, 32]);
            for line in lines {
                if random.once_in(seldom) {
                    *line = subnormal(random);
                }
            }
        }
        "a band of subnormals" => {
            for line in &mut lines[start..stop] {
                *line = subnormal(random);
            }
        }
        "a subband whose energy may be subnormal" => {
            scale(&mut lines[first..end], two(random.between(-80, -66)));
        }
        "a band whose energy may overflow" => {
            scale(&mut lines[start..stop], two(random.between(46, 64)));
        }
        // Anywhere in the frame, outside of the bands too.
        "a huge line" => {
            let size = two(random.between(64, 127)) * (1.0 + random.unit().abs() * 0.99);
            lines[random.below(lines.len())] = random.one_of(&[size, -size]);
        }
        "an infinite line" => {
            let infinity = f32::from_bits(random.sign() | 0x7F80_0000);
            lines[random.below(lines.len())] = infinity;
        }
        _ => {
            let pattern = 0x7F80_0001 + random.below(0x7F_FFFF) as u32;
            let stray = f32::from_bits(random.sign() | pattern);
            lines[random.below(lines.len())] = stray;
        }
    }
}

/// A call of a kind for a row, of any length that the row accepts.
pub fn draw(random: &mut Random, row: &'static Row, kind: usize) -> Encode {
    let mut lines = vec![0.0; any_length(random, row)];
    fill(random, row, kind, &mut lines);
    Encode {
        row,
        bits: bit_number(random, row),
        near_nyquist: random.once_in(8),
        kind,
        lines,
    }
}
