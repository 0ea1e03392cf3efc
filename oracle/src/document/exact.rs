//! docs/RULES.md, "The exact lattice": the encoder's rule over whole numbers, and how
//! far filtered lines lie from it. Lines count units of 2^-149, coefficients
//! units of 2^-26, results units of 2^-357.
//! Assumes finite lines of at most 2^119 in size, and coefficients that are
//! whole numbers of 2^-26 and below 1 in size.

use crate::document::rules::{lattice, Filters};
use crate::document::whole::Whole;

/// The range of m in which the bound is claimed.
pub const LEAST: i32 = -126;
pub const MOST: i32 = 119;

/// Every number of the lattice is kept in the results' units. One that came
/// through k stages is then a multiple of 2^(26 (8 - k)), so that dividing by
/// 2^26 before a product leaves no rest.
const MORE: usize = 8 * 26;

/// A coefficient in units of 2^-26.
fn whole(q: f32) -> i64 {
    let units = f64::from(q) * f64::from(1 << 26);
    assert_eq!(units.fract(), 0.0, "a coefficient is no multiple of 2^-26");
    units as i64
}

/// The exact lines, in units of 2^-357. The eight states carry from band to
/// band; a filter of order 0 leaves both alone.
pub fn lines(filters: &Filters, before: &[f32]) -> Vec<Vec<Whole>> {
    let mut state = [Whole::ZERO; 8];
    let bands = filters.bands.iter().enumerate();
    let exact = bands.map(|(f, (start, stop))| {
        let q: Vec<i64> = filters.used(f).iter().map(|q| whole(*q)).collect();
        let band = before[*start..*stop].iter().map(|line| {
            let line = Whole::of_f32(*line, MORE);
            lattice(&q, &mut state, line, |a, q, x| {
                a.plus_times(&x.divided(26), q)
            })
        });
        band.collect()
    });
    exact.collect()
}

/// The least whole m, not below -126, with all lines at most 2^m in size, or
/// nothing if a line is not finite.
pub fn least_m(lines: &[f32]) -> Option<i32> {
    let largest = lines.iter().map(|x| x.to_bits() & 0x7FFF_FFFF).max()?;
    let (exponent, fraction) = (largest >> 23, largest & 0x7F_FFFF);
    match exponent {
        0xFF => None,
        0 => Some(LEAST),
        _ => Some(exponent as i32 - 127 + i32::from(fraction != 0)),
    }
}

/// How far filtered lines lie from the exact lattice.
pub struct Distance {
    /// The largest distance, as a part of 2^(m-13); infinite if a filtered line
    /// is not finite.
    pub part: f64,
    /// The line that it is at.
    pub line: usize,
    /// Whether a line is farther away than 2^(m-13), decided in whole numbers.
    pub broken: bool,
}

/// The filtered lines of the bands against the exact lattice of the lines
/// before. Assumes that m is from -126 to 119 and fits the lines before.
pub fn distance(filters: &Filters, before: &[f32], after: &[f32], m: i32) -> Distance {
    // 2^(m-13) in units of 2^-357.
    let e = (m - 13 + 357) as usize;
    let bound = Whole::two(e);
    let mut worst = Distance {
        part: 0.0,
        line: filters.bands[0].0,
        broken: false,
    };
    let exact = lines(filters, before);
    for ((start, _), exact) in filters.bands.iter().zip(&exact) {
        for (n, exact) in exact.iter().enumerate() {
            let line = start + n;
            let (part, broken) = if after[line].is_finite() {
                let after = Whole::of_f32(after[line], MORE);
                let away = after.plus_times(exact, -1).size();
                let broken = bound.plus_times(&away, -1).is_negative();
                (away.part_of_two(e), broken)
            } else {
                (f64::INFINITY, true)
            };
            worst.broken |= broken;
            if part > worst.part {
                worst.part = part;
                worst.line = line;
            }
        }
    }
    worst
}
