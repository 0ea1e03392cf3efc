//! Comparing lines and encoders' answers, and counting what differs.

use crate::document::{Gains, Outcome};
use std::fmt::Debug;

/// Counts what differs. All are counted, and the first few are shown.
#[derive(Clone, Copy, Default)]
pub struct Differing(pub u64);

impl Differing {
    pub fn take(&mut self, differs: bool, said: impl FnOnce() -> String) {
        self.0 += u64::from(differs);
        if differs && self.0 <= 4 {
            println!("{}", said());
        }
    }
}

fn first(a: &[f32], b: &[f32], same: impl Fn(f32, f32) -> bool) -> Option<usize> {
    if a.len() != b.len() {
        return Some(a.len().min(b.len()));
    }
    (0..a.len()).find(|n| !same(a[*n], b[*n]))
}

/// The first place where two lists differ, any NaN being equal to any other.
pub fn first_difference(a: &[f32], b: &[f32]) -> Option<usize> {
    first(a, b, |x, y| {
        x.to_bits() == y.to_bits() || (x.is_nan() && y.is_nan())
    })
}

/// The first place where two lists differ in any bit, NaN bits included.
pub fn first_change(a: &[f32], b: &[f32]) -> Option<usize> {
    first(a, b, |x, y| x.to_bits() == y.to_bits())
}

/// The first thing that differs, in words.
pub fn difference(a: &Outcome, b: &Outcome) -> Option<String> {
    let said = |what: &str, a: &dyn Debug, b: &dyn Debug| Some(format!("{what} {a:?}, {b:?}"));
    let (one, other) = (&a.said, &b.said);
    if one.bits != other.bits {
        return said("bits", &one.bits, &other.bits);
    }
    if one.side != other.side {
        return said("side data", &one.side, &other.side);
    }
    let (one, other) = (&one.coefficients, &other.coefficients);
    if let Some(n) = first_change(one, other) {
        return said(&format!("coefficient {n}"), &one[n], &other[n]);
    }
    let n = first_difference(&a.lines, &b.lines)?;
    let (a, b) = (a.lines[n].to_bits(), b.lines[n].to_bits());
    Some(format!("line {n} {a:08X}, {b:08X}"))
}

/// The first thing that differs in what a call told of its filters: gain and damping
/// of each, any NaN being equal to any other, and a byte for each that says whether
/// it is on.
pub fn gains_difference(wanted: &Gains, numbers: &[f32], on: &[u8]) -> Option<String> {
    if let Some(n) = first_difference(&wanted.numbers(), numbers) {
        let name = ["gain", "damping"][n % 2];
        let (a, b) = (wanted.numbers()[n].to_bits(), numbers[n].to_bits());
        return Some(format!("{name} of filter {} {a:08X}, {b:08X}", n / 2));
    }
    (wanted.on() != on).then(|| format!("on or off {:?}, {on:?}", wanted.on()))
}
