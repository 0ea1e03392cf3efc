//! What the test files share: the lists of `crates/prog_replay/data` (`oracle/README.md` has their form), read
//! record by record, ways to compare lines, frames to restart, the gate's model of narration files, and streams
//! that give or take pieces or fail.
#![allow(dead_code)] // each test file uses a part of it

pub mod frames;
pub mod narrations;
pub mod streams;

use gillsextant::{Bandwidth, Duration, Refusal};

pub const DURATIONS: [Duration; 2] = [Duration::TenMs, Duration::SevenPointFiveMs];
pub const BANDWIDTHS: [Bandwidth; 5] = [
    Bandwidth::NarrowBand,
    Bandwidth::WideBand,
    Bandwidth::SemiSuperWideBand,
    Bandwidth::SuperWideBand,
    Bandwidth::FullBand,
];

/// A list, taken from its front.
pub struct List(Vec<u8>, usize);

impl List {
    pub fn of(name: &str) -> Self {
        let path = format!(
            "{}/../crates/prog_replay/data/{name}",
            env!("CARGO_MANIFEST_DIR")
        );
        List(
            std::fs::read(path).expect("the list is in the repository"),
            0,
        )
    }
    pub fn more(&self) -> bool {
        self.1 < self.0.len()
    }
    fn take(&mut self, n: usize) -> &[u8] {
        self.1 += n;
        &self.0[self.1 - n..self.1]
    }
    fn number(&mut self, n: usize) -> u64 {
        self.take(n)
            .iter()
            .rev()
            .fold(0, |sum, b| 256 * sum + u64::from(*b))
    }
    fn floats(&mut self, n: usize) -> Vec<f32> {
        (0..n)
            .map(|_| f32::from_bits(self.number(4) as u32))
            .collect()
    }
}

/// The crate's refusal with these numbers.
pub fn refusal_of(number: u16, place: u16, found: u16) -> Refusal {
    match number {
        1 => Refusal::Duration,
        2 => Refusal::Bandwidth,
        3 => Refusal::SpectrumLength,
        4 => Refusal::ListLength,
        5 => Refusal::FilterCount,
        6 => Refusal::Order { place, found },
        7 => Refusal::Index { place, found },
        8 => Refusal::Weighting,
        16 => Refusal::Line,
        17 => Refusal::OutputLength,
        _ => panic!("no refusal {number}"),
    }
}

/// What a call is given, and what it must answer and leave.
pub struct Record {
    pub call: u8,
    pub duration: u8,
    pub bandwidth: u8,
    /// The cost's weighting, or the encoder's near-Nyquist flag.
    pub choice: u8,
    pub filters: u8,
    pub orders: Vec<u8>,
    pub indices: Vec<u8>,
    pub bit_number: u64,
    /// The lines before; of a save or a restart the spectrum, which stays so.
    pub before: Vec<f32>,
    /// Only in save and restart records: the line, and the buffers for the output and the states.
    pub line: usize,
    pub output: Vec<f32>,
    pub states: Vec<f32>,
    pub answer: Result<u16, Refusal>,
    /// Only in encode records, these four. The gains are gain and damping of the first filter, then of the
    /// second; a filter that is on has 1 in the last list.
    pub side: Vec<u8>,
    pub coefficients: Vec<f32>,
    pub gains: Vec<f32>,
    pub on: Vec<u8>,
    /// Only in save and restart records.
    pub states_after: Vec<f32>,
    /// The lines afterwards; of a save or a restart those of the output.
    pub after: Vec<f32>,
}

impl Record {
    pub fn next(list: &mut List) -> Self {
        let h: [u8; 7] = list.take(7).try_into().unwrap();
        let encodes = usize::from(h[0] == 3);
        let restarts = usize::from(h[0] == 4 || h[0] == 5);
        let lists = usize::from(h[0] == 1 || h[0] == 2) + restarts;
        let n = list.number(4) as usize;
        let before = list.floats(n);
        let bit_number = list.number(8 * encodes);
        let orders = list.take(3 * lists).to_vec();
        let indices = list.take(17 * lists).to_vec();
        let line = list.number(8 * restarts) as usize;
        // Any other call leaves as many lines as it is given.
        let m = if restarts == 1 {
            list.number(4) as usize
        } else {
            n
        };
        let output = list.floats(m * restarts);
        let states = list.floats(8 * restarts);
        let [refusal, place, found, bits] = [0; 4].map(|_| list.number(4) as u16);
        let answer = match refusal {
            0 => Ok(bits),
            _ => Err(refusal_of(refusal, place, found)),
        };
        Record {
            call: h[0],
            duration: h[1],
            bandwidth: h[2],
            choice: h[3],
            filters: h[4],
            orders: orders[..h[5] as usize].to_vec(),
            indices: indices[..h[6] as usize].to_vec(),
            bit_number,
            before,
            line,
            output,
            states,
            answer,
            side: (0..20 * encodes).map(|_| list.number(4) as u8).collect(),
            coefficients: list.floats(16 * encodes),
            gains: list.floats(4 * encodes),
            on: (0..2 * encodes).map(|_| list.number(4) as u8).collect(),
            states_after: list.floats(8 * restarts),
            after: list.floats(m),
        }
    }

    /// The answer with nothing in place of the bits.
    pub fn verdict(&self) -> Result<(), Refusal> {
        self.answer.map(|_| ())
    }
}

/// Whether lines are the same bit by bit; any NaN is the same as any other.
pub fn same(a: &[f32], b: &[f32]) -> bool {
    let equal = |(x, y): (&f32, &f32)| x.to_bits() == y.to_bits() || x.is_nan() && y.is_nan();
    a.len() == b.len() && a.iter().zip(b).all(equal)
}

pub fn bits_of(lines: &[f32]) -> Vec<u32> {
    lines.iter().map(|x| x.to_bits()).collect()
}
