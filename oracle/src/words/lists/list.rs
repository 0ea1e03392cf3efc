//! A replayed list in the one form that all lists have: README.md, "The lists".
//! No list of the original's has a refusal.

use crate::document::Side;
use std::path::Path;

pub const INDEX: u8 = 0;
pub const COST: u8 = 1;
pub const DECODE: u8 = 2;
pub const ENCODE: u8 = 3;

/// The call, duration, bandwidth, choice and filter count. The choice is the
/// cost's weighting, or the encoder's near-Nyquist flag. What a call does not
/// take is 0.
pub type Head = [u8; 5];

/// What a call takes besides its head and its lines.
pub enum Given<'a> {
    Nothing,
    Side(&'a Side),
    BitNumber(u64),
}

/// A list as it grows.
#[derive(Default)]
pub struct List {
    records: usize,
    bytes: Vec<u8>,
    /// Records that the libm build answers otherwise.
    pub differ: usize,
}

impl List {
    fn words(&mut self, numbers: &[u32]) {
        self.bytes
            .extend(numbers.iter().flat_map(|n| n.to_le_bytes()));
    }

    /// One record more. The bits are the answer's, or the index; what is left is
    /// all that the call wrote, the lines last.
    pub fn push(&mut self, head: Head, given: Given, lines: &[u32], bits: usize, left: &[u32]) {
        self.records += 1;
        self.bytes.extend(head);
        let given = match given {
            Given::Nothing => (&[0, 0], Vec::new()),
            Given::BitNumber(number) => (&[0, 0], number.to_le_bytes().to_vec()),
            Given::Side(side) => {
                let record = side.record();
                let (orders, indices) = record[2..].split_at(2);
                (&[2, 16], [orders, &[0], indices, &[0]].concat())
            }
        };
        self.bytes.extend(given.0);
        self.words(&[lines.len() as u32]);
        self.words(lines);
        self.bytes.extend(given.1);
        self.words(&[0, 0, 0, bits as u32]);
        self.words(left);
    }

    /// Prints the list's numbers, with what else is to be said of it, and writes
    /// it.
    pub fn write(&self, root: &Path, name: &str, more: &str) -> bool {
        let (records, bytes, differ) = (self.records, self.bytes.len(), self.differ);
        println!("lists: {name}: {records} records, {bytes} bytes{more}; libm differs at {differ}");
        let path = root.join("crates/prog_replay/data").join(name);
        let written = std::fs::write(&path, &self.bytes);
        if let Err(error) = &written {
            println!("lists: cannot write {}: {error}", path.display());
        }
        written.is_ok()
    }
}

pub fn bits_of(lines: &[f32]) -> Vec<u32> {
    lines.iter().map(|line| line.to_bits()).collect()
}

/// The bit patterns of lines, with one pattern for every NaN.
pub fn patterns(lines: &[f32]) -> Vec<u32> {
    let pattern = |x: &f32| if x.is_nan() { 0x7FC0_0000 } else { x.to_bits() };
    lines.iter().map(pattern).collect()
}
