//! The port's encoder.

use crate::document::{Answer, Encode, Encoded, Outcome, Side};
use crate::port::lent::{Guarded, Lent};

extern "C" {
    fn tns_encode(
        duration: u8,
        bandwidth: u8,
        bits: u64,
        near_nyquist: bool,
        lines: *mut f32,
        lines_len: usize,
        side: *mut [u8; 20],
        coefficients: *mut [f32; 16],
        gains: *mut [f32; 4],
        on: *mut [u8; 2],
    ) -> Answer;
}

/// What a call writes beside the lines: side data, coefficients, gain and damping
/// of each filter, and whether each is on.
pub struct Beside<'a> {
    pub side: &'a mut [u8; 20],
    pub coefficients: &'a mut [f32; 16],
    pub gains: &'a mut [f32; 4],
    pub on: &'a mut [u8; 2],
}

/// What a call is lent. All but the lines hold the guards' patterns before the
/// first call.
pub struct Loan {
    lines: Lent<f32>,
    side: Lent<u8>,
    coefficients: Lent<f32>,
    gains: Lent<f32>,
    on: Lent<u8>,
}

impl Loan {
    pub fn new(lines: &[f32]) -> Self {
        Loan {
            lines: Lent::new(lines),
            side: Lent::new(&[u8::GUARD; 20]),
            coefficients: Lent::new(&[f32::GUARD; 16]),
            gains: Lent::new(&[f32::GUARD; 4]),
            on: Lent::new(&[u8::GUARD; 2]),
        }
    }

    /// Other lines, and what the last call left beside them.
    pub fn refill(&mut self, lines: &[f32]) {
        if self.lines().len() == lines.len() {
            self.lines.lend().copy_from_slice(lines);
        } else {
            self.lines = Lent::new(lines);
        }
    }

    /// The port's answer to a call, on the lines that are there.
    pub fn ask(&mut self, call: &Encode) -> Answer {
        let (row, bits, near) = (call.row, call.bits, call.near_nyquist);
        self.ask_numbers(row.duration, row.bandwidth, bits, near)
    }

    pub fn ask_numbers(&mut self, duration: u8, bandwidth: u8, bits: u64, near: bool) -> Answer {
        let beside = Beside {
            side: self.side.lend().try_into().expect("20 bytes"),
            coefficients: self.coefficients.lend().try_into().expect("16 floats"),
            gains: self.gains.lend().try_into().expect("4 floats"),
            on: self.on.lend().try_into().expect("2 bytes"),
        };
        encode_lines(duration, bandwidth, bits, near, self.lines.lend(), beside)
    }

    pub fn lines(&self) -> &[f32] {
        self.lines.list()
    }

    pub fn side(&self) -> &[u8] {
        self.side.list()
    }

    /// What an accepted call left, with the bits of its answer.
    pub fn outcome(&self, bits: u16) -> Outcome {
        let said = Encoded {
            bits: bits as usize,
            side: Side::of_record(self.side().try_into().expect("20 bytes")),
            coefficients: self.coefficients.list().try_into().expect("16 floats"),
        };
        let lines = self.lines().to_vec();
        Outcome { said, lines }
    }

    /// Gain and damping of the first filter, then of the second.
    pub fn gains(&self) -> &[f32] {
        self.gains.list()
    }

    pub fn on(&self) -> &[u8] {
        self.on.list()
    }

    pub fn guards_stand(&self) -> bool {
        let floats = [&self.lines, &self.coefficients, &self.gains];
        let bytes = [&self.side, &self.on];
        floats.iter().all(|lent| lent.guards_stand())
            && bytes.iter().all(|lent| lent.guards_stand())
    }

    /// Whether nothing was written beside the lines, nor around the side data.
    pub fn untouched(&self) -> bool {
        let side = self.side.guards_stand() && self.side().iter().all(u8::is_guard);
        side && self.coefficients.list().iter().all(f32::is_guard) && self.gains_untouched()
    }

    /// Whether no gain, no damping and no byte of on or off was written.
    pub fn gains_untouched(&self) -> bool {
        self.gains().iter().all(f32::is_guard) && self.on().iter().all(u8::is_guard)
    }
}

/// Any numbers, on any lines.
pub fn encode_lines(
    duration: u8,
    bandwidth: u8,
    bits: u64,
    near_nyquist: bool,
    lines: &mut [f32],
    beside: Beside,
) -> Answer {
    // Sound if the library writes only what is lent, which the guards help to
    // see.
    unsafe {
        tns_encode(
            duration,
            bandwidth,
            bits,
            near_nyquist,
            lines.as_mut_ptr(),
            lines.len(),
            beside.side,
            beside.coefficients,
            beside.gains,
            beside.on,
        )
    }
}
