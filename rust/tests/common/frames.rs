//! Frames that are saved before a line and restarted there. Each call here also checks what must hold for every
//! such call: the spectrum keeps its bits, so does the output below the line, and lines outside the filters are
//! copied.

use super::{bits_of, Record, BANDWIDTHS, DURATIONS};
use gillsextant::{decode_restart, decode_save, Refusal, Saved};

/// The bands of each row, start and stop, by duration and bandwidth.
const BANDS: [[&[(usize, usize)]; 5]; 2] = [
    [
        &[(12, 80)],
        &[(12, 160)],
        &[(12, 240)],
        &[(12, 160), (160, 320)],
        &[(12, 200), (200, 400)],
    ],
    [
        &[(9, 60)],
        &[(9, 120)],
        &[(9, 180)],
        &[(9, 120), (120, 240)],
        &[(9, 150), (150, 300)],
    ],
];
/// The longest spectrum, by duration.
const LONGEST: [usize; 2] = [400, 300];

/// NaNs with many bits, alternately quiet and signalling. A line that is written becomes another, and a line
/// that is copied keeps its bits only if nothing is computed with it.
pub fn pattern(length: usize) -> Vec<f32> {
    (0..length as u32)
        .map(|n| f32::from_bits(0x7fa5_0000 | (n % 2) << 22 | n))
        .collect()
}

/// What both calls take besides the output, the line and the states.
#[derive(Clone)]
pub struct Frame {
    pub duration: u8,
    pub bandwidth: u8,
    pub filters: u8,
    pub orders: Vec<u8>,
    pub indices: Vec<u8>,
    pub spectrum: Vec<f32>,
}

impl Frame {
    pub fn of(record: &Record) -> Self {
        Frame {
            duration: record.duration,
            bandwidth: record.bandwidth,
            filters: record.filters,
            orders: record.orders.clone(),
            indices: record.indices.clone(),
            spectrum: record.before.clone(),
        }
    }

    /// A frame of the longest length with two filters of this order, whose indices all differ from 8.
    pub fn of_row(duration: u8, bandwidth: u8, order: u8) -> Self {
        let lines = 0..LONGEST[duration as usize];
        Frame {
            duration,
            bandwidth,
            filters: 2,
            orders: vec![order; 2],
            indices: vec![9, 7, 10, 6, 9, 7, 9, 7, 6, 11, 7, 9, 10, 7, 9, 6],
            spectrum: lines.map(|n| (n % 11) as f32 - 5.25).collect(),
        }
    }

    pub fn bands(&self) -> &'static [(usize, usize)] {
        BANDS[self.duration as usize][self.bandwidth as usize]
    }

    pub fn first_start(&self) -> usize {
        self.bands()[0].0
    }

    pub fn last_stop(&self) -> usize {
        self.bands()[self.bands().len() - 1].1
    }

    /// Whether a filter is counted and has a band that starts below a line.
    pub fn acts_below(&self, filter: usize, line: usize) -> bool {
        let band = self.bands().get(filter);
        filter < self.filters as usize && band.is_some_and(|(start, _)| *start < line)
    }

    /// Whether a line is in the band of a counted filter that has an order.
    pub fn filtered(&self, line: usize) -> bool {
        let acting = self.bands().iter().zip(&self.orders);
        let mut acting = acting.take(self.filters as usize);
        acting.any(|((start, stop), order)| *order > 0 && (*start..*stop).contains(&line))
    }

    /// The line of every band's start, one inside each band, and the last stop. The one inside is
    /// another for another `turn`.
    pub fn lines_of_each_kind(&self, turn: usize) -> Vec<usize> {
        let inside = |start, stop| start + 1 + 37 * turn % (stop - start - 1);
        let bands = self.bands().iter();
        let mut lines: Vec<_> = bands.flat_map(|(a, b)| [*a, inside(*a, *b)]).collect();
        lines.push(self.last_stop());
        lines
    }

    /// The frame before it was mended from a line on: every line from there on is another, and so are
    /// order and indices of every filter that does not act below.
    pub fn before_mending(&self, line: usize) -> Self {
        let mut old = self.clone();
        for x in &mut old.spectrum[line..] {
            *x = f32::from_bits(!x.to_bits());
        }
        for filter in (0..2).filter(|filter| !self.acts_below(*filter, line)) {
            old.orders[filter] = (old.orders[filter] + 5) % 9;
            for index in &mut old.indices[8 * filter..][..8] {
                *index = (*index + 5) % 17;
            }
        }
        old
    }

    pub fn try_save(&self, output: &mut [f32], line: usize) -> Result<Saved, Refusal> {
        decode_save(
            DURATIONS[self.duration as usize],
            BANDWIDTHS[self.bandwidth as usize],
            self.filters,
            &self.orders,
            &self.indices,
            &self.spectrum,
            output,
            line,
        )
    }

    pub fn try_restart(&self, output: &mut [f32], saved: &Saved) -> Result<(), Refusal> {
        decode_restart(
            DURATIONS[self.duration as usize],
            BANDWIDTHS[self.bandwidth as usize],
            self.filters,
            &self.orders,
            &self.indices,
            &self.spectrum,
            output,
            saved,
        )
    }

    /// What is saved before a line, and the whole output. A line that no filter has keeps its bits, and
    /// so does the spectrum.
    pub fn saved(&self, line: usize) -> (Saved, Vec<f32>) {
        let before = bits_of(&self.spectrum);
        let mut output = pattern(before.len());
        let saved = self.try_save(&mut output, line).expect("it is accepted");
        assert_eq!(saved.line(), line);
        assert_eq!(bits_of(&self.spectrum), before);
        self.assert_copied(&output, 0);
        (saved, output)
    }

    /// The output from the saved line on. Below it no bit is written, a line that no filter has keeps
    /// its bits, and so does the spectrum.
    pub fn restarted(&self, saved: &Saved) -> Vec<f32> {
        let before = bits_of(&self.spectrum);
        let untouched = pattern(before.len());
        let mut output = untouched.clone();
        let line = saved.line();
        assert_eq!(self.try_restart(&mut output, saved), Ok(()));
        assert_eq!(bits_of(&output[..line]), bits_of(&untouched[..line]));
        assert_eq!(bits_of(&self.spectrum), before);
        self.assert_copied(&output, line);
        output.split_off(line)
    }

    fn assert_copied(&self, output: &[f32], from: usize) {
        for n in (from..output.len()).filter(|n| !self.filtered(*n)) {
            assert_eq!(output[n].to_bits(), self.spectrum[n].to_bits(), "line {n}");
        }
    }
}
