//! The decoder's lattice in f32 (docs/RULES.md, "Lattices"), on any part of a frame's
//! lines, as a frame that is decoded from a line on needs it ("Restart at a line
//! (C-22)").

use crate::document::calls::Decode;
use std::ops::Range;

/// One line through the stages of a filter, downwards. Assumes at least one
/// coefficient.
fn through(coefficients: &[f32], states: &mut [f32; 8], line: f32) -> f32 {
    let last = coefficients.len() - 1;
    let mut t = line - coefficients[last] * states[last];
    for k in (0..last).rev() {
        t -= coefficients[k] * states[k];
        states[k + 1] = coefficients[k] * t + states[k];
    }
    states[0] = t;
    t
}

impl Decode {
    /// What becomes of a part of the lines: each filter that acts takes what its
    /// band has of the part, and other lines stay. The states before the part
    /// become those after it. `table` has the coefficient of each index.
    pub fn part(&self, table: &[f32; 17], part: Range<usize>, states: &mut [f32; 8]) -> Vec<f32> {
        let mut lines = self.lines[part.clone()].to_vec();
        for (filter, (start, stop)) in self.row.bands.iter().enumerate() {
            let used = self.acting(filter).iter();
            let coefficients: Vec<f32> = used.map(|index| table[*index]).collect();
            if coefficients.is_empty() {
                continue;
            }
            for n in part.start.max(*start)..part.end.min(*stop) {
                let line = &mut lines[n - part.start];
                *line = through(&coefficients, states, *line);
            }
        }
        lines
    }

    /// The states before a line, in a frame that is decoded from its first line.
    pub fn states_before(&self, table: &[f32; 17], line: usize) -> [f32; 8] {
        let mut states = [0.0; 8];
        self.part(table, 0..line, &mut states);
        states
    }

    /// The lines from a line on, in a frame that is decoded on from any states.
    pub fn from_line(&self, table: &[f32; 17], line: usize, states: &[f32; 8]) -> Vec<f32> {
        self.part(table, line..self.lines.len(), &mut states.clone())
    }
}
