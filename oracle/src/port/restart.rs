//! The port's decoder from a lent spectrum into a lent output: saving the states
//! before a line, and going on from them.

use crate::document::{Answer, Row};
use crate::port::lent::Lent;

extern "C" {
    fn tns_decode_save(
        duration: u8,
        bandwidth: u8,
        filters: u8,
        orders: *const u8,
        orders_len: usize,
        indices: *const u8,
        indices_len: usize,
        spectrum: *const f32,
        spectrum_len: usize,
        output: *mut f32,
        output_len: usize,
        n: usize,
        states: *mut [f32; 8],
    ) -> Answer;

    fn tns_decode_restart(
        duration: u8,
        bandwidth: u8,
        filters: u8,
        orders: *const u8,
        orders_len: usize,
        indices: *const u8,
        indices_len: usize,
        spectrum: *const f32,
        spectrum_len: usize,
        output: *mut f32,
        output_len: usize,
        n: usize,
        states: *const [f32; 8],
    ) -> Answer;
}

/// What a call says of its frame besides the lines.
#[derive(Clone, Copy)]
pub struct Numbers<'a> {
    pub duration: u8,
    pub bandwidth: u8,
    pub filters: u8,
    pub orders: &'a [u8],
    pub indices: &'a [u8],
}

impl<'a> Numbers<'a> {
    /// Those of a row and a record of side data.
    pub fn of(row: &Row, record: &'a [u8; 20]) -> Self {
        Numbers {
            duration: row.duration,
            bandwidth: row.bandwidth,
            filters: record[1],
            orders: &record[2..4],
            indices: &record[4..],
        }
    }
}

/// Decodes a spectrum whole, and gives the states before a line.
pub fn save_lines(
    numbers: Numbers,
    spectrum: &mut [f32],
    output: &mut [f32],
    line: usize,
    states: &mut [f32; 8],
) -> Answer {
    // Sound if the library writes only what is lent, which the guards help to
    // see. The spectrum is borrowed as if it could be written, so that a write
    // would be seen.
    unsafe {
        tns_decode_save(
            numbers.duration,
            numbers.bandwidth,
            numbers.filters,
            numbers.orders.as_ptr(),
            numbers.orders.len(),
            numbers.indices.as_ptr(),
            numbers.indices.len(),
            spectrum.as_mut_ptr(),
            spectrum.len(),
            output.as_mut_ptr(),
            output.len(),
            line,
            states,
        )
    }
}

/// Decodes a spectrum from a line on, from states before it.
pub fn restart_lines(
    numbers: Numbers,
    spectrum: &mut [f32],
    output: &mut [f32],
    line: usize,
    states: &mut [f32; 8],
) -> Answer {
    // As above; here the states too are only to be read.
    unsafe {
        tns_decode_restart(
            numbers.duration,
            numbers.bandwidth,
            numbers.filters,
            numbers.orders.as_ptr(),
            numbers.orders.len(),
            numbers.indices.as_ptr(),
            numbers.indices.len(),
            spectrum.as_mut_ptr(),
            spectrum.len(),
            output.as_mut_ptr(),
            output.len(),
            line,
            states,
        )
    }
}

/// Which of the two is called.
#[derive(Clone, Copy, Debug, PartialEq)]
pub enum Door {
    Save,
    Restart,
}

/// What a call of either is lent.
pub struct Desk {
    spectrum: Lent<f32>,
    output: Lent<f32>,
    states: Lent<f32>,
}

impl Desk {
    /// Assumes eight states.
    pub fn new(spectrum: &[f32], output: &[f32], states: &[f32]) -> Self {
        Desk {
            spectrum: Lent::new(spectrum),
            output: Lent::new(output),
            states: Lent::new(states),
        }
    }

    pub fn ask(&mut self, door: Door, numbers: Numbers, line: usize) -> Answer {
        let call = match door {
            Door::Save => save_lines,
            Door::Restart => restart_lines,
        };
        let states = self.states.lend().try_into().expect("8 states");
        let (spectrum, output) = (self.spectrum.lend(), self.output.lend());
        call(numbers, spectrum, output, line, states)
    }

    pub fn spectrum(&self) -> &[f32] {
        self.spectrum.list()
    }

    pub fn output(&self) -> &[f32] {
        self.output.list()
    }

    pub fn states(&self) -> &[f32] {
        self.states.list()
    }

    pub fn guards_stand(&self) -> bool {
        let all = [&self.spectrum, &self.output, &self.states];
        all.iter().all(|lent| lent.guards_stand())
    }
}
