//! D's and E's answers to a call, and what the rules (docs/RULES.md) say instead where
//! they differ from them.

use crate::document::{analysis::Analysis, rules};
use crate::document::{Decode, Encode, Encoded, Gains, Outcome, Side};
use crate::original::build::Build;
use crate::original::caught::caught;

/// D takes index 0 for no coefficient, and any other number for the sine of that
/// many steps less 8. The sine of 59 steps is that of -8 steps, and so is its f32:
/// with 67 D's own text filters with the coefficient that index 0 stands for. The
/// word `decode` says whether it does in both builds.
pub const D_INDEX_0: usize = 67;

/// How an outcome was had.
#[derive(Clone, Copy, PartialEq)]
pub enum How {
    /// E's own answer.
    Original,
    /// E's answer, and its lattice run on from line 200 to 240.
    RunOn,
    /// E panics at a coefficient of exactly 1 or -1; the answer by docs/RULES.md, "Index
    /// and coefficient".
    AtOne,
}

impl Build {
    /// D's lines.
    pub fn decoded(&self, call: &Decode) -> Vec<f32> {
        self.decoded_by(call, &call.side.indices)
    }

    /// The lines that the port must leave, by D's text: index 0 at a used place
    /// is handed to D as the number that it takes for that coefficient. A call
    /// without such a place reaches D as it is.
    pub fn wanted_lines(&self, call: &Decode) -> Vec<f32> {
        let mut indices = call.side.indices;
        for place in call.used().filter(|n| call.side.indices[*n] == 0) {
            indices[place] = D_INDEX_0;
        }
        self.decoded_by(call, &indices)
    }

    fn decoded_by(&self, call: &Decode, indices: &[usize; 16]) -> Vec<f32> {
        let (row, side) = (call.row, &call.side);
        let orders = &side.orders;
        let mut lines = call.lines.clone();
        (self.decode)(
            row.duration,
            row.bandwidth,
            side.filters,
            orders,
            indices,
            &mut lines,
        );
        lines
    }

    /// D's coefficient of each index, that of index 0 by the same number.
    pub fn decoder_coefficients(&self) -> [f32; 17] {
        std::array::from_fn(|index| {
            let number = if index == 0 { D_INDEX_0 } else { index };
            (self.decoder_coefficient)(number)
        })
    }

    /// E's answer, or nothing if it panics.
    pub fn encoded(&self, call: &Encode) -> Option<Outcome> {
        let (row, bits, near) = (call.row, call.bits, call.near_nyquist);
        let mut lines = call.lines.clone();
        let said = caught(|| (self.encode)(row.duration, row.bandwidth, bits, near, &mut lines))?;
        Some(Outcome { said, lines })
    }

    /// E's coefficients before they are quantized.
    pub fn reflections(&self, call: &Encode) -> [f32; 16] {
        let (row, near, weighting) = (call.row, call.near_nyquist, call.weighting());
        (self.reflection)(row.duration, row.bandwidth, near, weighting, &call.lines)
    }

    /// The analysis of a filter by the rules over E's own lags. E gives neither gain
    /// nor damping out.
    pub fn analysis(&self, call: &Encode, filter: usize) -> Analysis {
        call.analysis(&self.lags_of(call, filter))
    }

    /// The records of both filters, in the same way.
    pub fn gains(&self, call: &Encode) -> Gains {
        call.gains(|filter| self.lags_of(call, filter))
    }

    /// The gain of a filter, in the same way.
    pub fn gain(&self, call: &Encode, filter: usize) -> f32 {
        self.analysis(call, filter).record.gain
    }

    fn lags_of(&self, call: &Encode, filter: usize) -> [f32; 9] {
        let row = call.row;
        (self.lags)(row.duration, row.bandwidth, filter, &call.lines)
    }

    /// The answer that the port must give, made of E's, and how it was had.
    /// Nothing if E panics for a reason that docs/RULES.md does not name.
    pub fn wanted(&self, call: &Encode, asked: Option<Outcome>) -> Option<(Outcome, How)> {
        let Some(mut outcome) = asked else {
            return Some((self.at_one(call)?, How::AtOne));
        };
        let row = call.row;
        if (row.duration, row.bandwidth) != (0, 2) || !outcome.said.active() {
            return Some((outcome, How::Original));
        }
        let lines = outcome.said.filters(row).filtered(&call.lines);
        outcome.lines[200..240].copy_from_slice(&lines[200..240]);
        Some((outcome, How::RunOn))
    }

    /// docs/RULES.md at coefficients of exactly 1 and -1: indices 16 and 0. The
    /// other coefficients go through E's quantization.
    fn at_one(&self, call: &Encode) -> Option<Outcome> {
        let reflections = self.reflections(call);
        if !reflections.iter().any(|x| x.abs() == 1.0) {
            return None;
        }
        let mut side = Side::plain(call.weighting(), 0);
        side.filters = call.row.bands.len();
        let mut coefficients = [0.0; 16];
        for place in 0..8 * side.filters {
            let x = reflections[place];
            // The largest f32 below 1 has the same index by the threshold rule.
            let inside = 1.0 - f32::EPSILON / 2.0;
            let x = if x.abs() == 1.0 { x * inside } else { x };
            let (index, coefficient) = self.quantize_one(x);
            side.indices[place] = index;
            coefficients[place] = f32::from_bits(coefficient);
            if index != 8 {
                side.orders[place / 8] = place % 8 + 1;
            }
        }
        let said = Encoded {
            bits: rules::cost(&side),
            side,
            coefficients,
        };
        let lines = said.filters(call.row).filtered(&call.lines);
        Some(Outcome { said, lines })
    }
}
