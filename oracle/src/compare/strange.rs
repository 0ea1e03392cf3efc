//! What E and D do with input that the rules (docs/RULES.md) refuse or change: one
//! line each, beginning `strange:`.

use crate::document::Row;
use crate::original::{caught, Build};
use std::hint::black_box;

/// `act` gives a sentence; a panic gives "panics".
pub fn line(who: &str, input: &str, act: impl FnOnce() -> String) {
    let what = caught(act).unwrap_or_else(|| "panics".to_string());
    println!("strange: {who}: {input}: {what}");
}

/// Side data for D: filter count, orders, indices.
pub type Given<'a> = (usize, &'a [usize], &'a [usize]);

/// D on lines of ones; the line says what it left of them.
pub fn decoder(
    build: &Build,
    input: &str,
    row: &Row,
    (filters, orders, indices): Given,
    length: usize,
    told: impl FnOnce(&[f32]) -> String,
) {
    line("D", input, || {
        let mut lines = vec![1.0f32; length];
        let (duration, bandwidth) = (row.duration, row.bandwidth);
        let filters = black_box(filters);
        (build.decode)(duration, bandwidth, filters, orders, indices, &mut lines);
        format!("accepted, {}", told(&lines))
    });
}
