//! The encoder's analysis of a filter (docs/RULES.md, "Analysis" and "Gains (C-18)"):
//! its lags, the recursion over them, the record of gain, damping and on or off, and
//! the reflection coefficients that follow from it. Written from the rules alone, so
//! that neither the original nor the port has to be asked for a gain. Assumes as many
//! lines as the row's last stop.

use crate::document::calls::Encode;
use crate::document::rows::Row;
use crate::document::rules::power;

/// The lag window.
const WINDOW: [u32; 9] = [
    0x3F80_0000,
    0x3F7F_7EC4,
    0x3F7D_FC96,
    0x3F7B_7E04,
    0x3F78_0A8A,
    0x3F73_AC6E,
    0x3F6E_708E,
    0x3F68_661F,
    0x3F61_9E65,
];
/// 0.85 as an f32.
const LEAST_DAMPING: u32 = 0x3F59_999A;

/// The lag sum k of a subband. Assumes more than k lines.
fn lag_sum(lines: &[f32], k: usize) -> f32 {
    let pairs = lines[..lines.len() - k].iter().zip(&lines[k..]);
    pairs.fold(0.0, |sum, (x, y)| sum + x * y)
}

/// The windowed lags of a filter whose band the row has.
pub fn lags(row: &Row, filter: usize, lines: &[f32]) -> [f32; 9] {
    let subbands = row
        .subbands(filter)
        .map(|(start, stop)| &lines[start..stop]);
    let [a, b, c] = subbands.map(|subband| lag_sum(subband, 0));
    let silent = a * b * c == 0.0;
    std::array::from_fn(|k| {
        let [x, y, z] = subbands.map(|subband| lag_sum(subband, k));
        let lag = match (silent, k) {
            (true, 0) => 3.0,
            (true, _) => 0.0,
            (false, _) => 0.0 + x / a + y / b + z / c,
        };
        lag * f32::from_bits(WINDOW[k])
    })
}

/// The last row of the recursion over nine lags, and its error.
fn recursion(lags: &[f32; 9]) -> ([f32; 9], f32) {
    let mut a = [0.0f32; 9];
    a[0] = 1.0;
    let mut error = lags[0];
    for k in 1..9 {
        let before = a;
        let mut rc = 0.0;
        for n in 0..k {
            rc -= before[n] * lags[k - n];
        }
        if error != 0.0 {
            rc /= error;
        }
        for n in 1..k {
            a[n] = before[n] + rc * before[k - n];
        }
        a[k] = rc;
        error *= 1.0 - rc * rc;
    }
    (a, error)
}

/// The record of a filter.
#[derive(Clone, Copy, Debug)]
pub struct FilterGain {
    pub gain: f32,
    pub damping: f32,
    pub on: bool,
}

/// Why a filter is off. The first that holds, in this order, is the reason.
#[derive(Clone, Copy)]
pub enum WhyOff {
    NoBand,
    NotANumber,
    LowGain,
    NearNyquist,
}

impl FilterGain {
    /// The record of a filter whose band the row does not have.
    pub const ABSENT: FilterGain = FilterGain {
        gain: 0.0,
        damping: 1.0,
        on: false,
    };

    fn new(gain: f32, near_nyquist: bool, weighting: u8) -> Self {
        let on = gain > 1.5 && !near_nyquist;
        let damping = if on && weighting == 1 && gain < 2.0 {
            1.0 - (1.0 - f32::from_bits(LEAST_DAMPING)) * (2.0 - gain) / 0.5
        } else {
            1.0
        };
        FilterGain { gain, damping, on }
    }

    /// Nothing where the filter is on.
    pub fn why_off(&self, has_band: bool) -> Option<WhyOff> {
        if self.on {
            return None;
        }
        Some(match self.gain {
            _ if !has_band => WhyOff::NoBand,
            gain if gain.is_nan() => WhyOff::NotANumber,
            gain if gain > 1.5 => WhyOff::NearNyquist,
            _ => WhyOff::LowGain,
        })
    }
}

/// What is found of a filter: its record, and the last row and the error of the
/// recursion.
pub struct Analysis {
    pub record: FilterGain,
    pub error: f32,
    row: [f32; 9],
}

impl Analysis {
    pub fn new(lags: &[f32; 9], near_nyquist: bool, weighting: u8) -> Self {
        let (row, error) = recursion(lags);
        let gain = if error == 0.0 {
            lags[0]
        } else {
            lags[0] / error
        };
        let record = FilterGain::new(gain, near_nyquist, weighting);
        Analysis { record, error, row }
    }

    /// The reflection coefficients with some damping, before they are quantized;
    /// eight times 0 where the filter is off.
    pub fn damped(&self, damping: f32) -> [f32; 8] {
        let mut found = [0.0; 8];
        if !self.record.on {
            return found;
        }
        let mut a: [f32; 9] = std::array::from_fn(|k| self.row[k] * power(damping, k));
        for k in (1..9).rev() {
            let rc = a[k];
            found[k - 1] = rc;
            let before = a;
            for n in 1..k {
                a[n] = (before[n] - rc * before[k - n]) / (1.0 - rc * rc);
            }
        }
        found
    }

    /// The reflection coefficients with the record's damping.
    pub fn reflections(&self) -> [f32; 8] {
        self.damped(self.record.damping)
    }
}

/// The records of a frame's two filters, that of an absent one among them.
#[derive(Clone, Copy, Debug)]
pub struct Gains(pub [FilterGain; 2]);

impl Gains {
    /// Gain and damping of the first filter, then of the second.
    pub fn numbers(&self) -> [f32; 4] {
        let [first, second] = self.0;
        [first.gain, first.damping, second.gain, second.damping]
    }

    /// A byte for each filter: 1 if it is on, else 0.
    pub fn on(&self) -> [u8; 2] {
        self.0.map(|record| u8::from(record.on))
    }
}

impl Encode {
    /// The analysis of a filter from its lags.
    pub fn analysis(&self, lags: &[f32; 9]) -> Analysis {
        Analysis::new(lags, self.near_nyquist, self.weighting())
    }

    /// The records that follow from the lags of each filter that has a band.
    pub fn gains(&self, lags: impl Fn(usize) -> [f32; 9]) -> Gains {
        Gains(std::array::from_fn(|filter| {
            if filter < self.row.bands.len() {
                self.analysis(&lags(filter)).record
            } else {
                FilterGain::ABSENT
            }
        }))
    }
}
