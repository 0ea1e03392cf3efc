//! What D makes of index 0, at which the port differs from it: D's coefficient is
//! 0, E's the sine of -8 steps, which D has under another number.

use crate::compare::first_difference;
use crate::document::{Decode, Side, ROWS};
use crate::original::{Build, D_INDEX_0};
use crate::port::{decode, Lent};
use crate::words::decode::strange::changed;

/// Other numbers that stand for the sine of -8 steps. Their steps are rounded
/// otherwise, and the f32s lie next to E's.
const NEAR: [usize; 2] = [33, 34];

/// D's coefficients in a build, and whether the number that D gets for index 0
/// gives it E's coefficient.
fn coefficients(build: &Build) -> bool {
    let (index, of_e) = build.quantize_one(-0.99);
    let of_d = |number: usize| (build.decoder_coefficient)(number).to_bits();
    let [zero, real] = [0, D_INDEX_0].map(of_d);
    let [first, second] = NEAR;
    let near = NEAR.map(of_d);
    println!("decode: {}: index {index} is {of_e:08X} in E; in D 0 is {zero:08X}, {D_INDEX_0} is {real:08X}, {first} is {:08X}, {second} is {:08X}", build.name, near[0], near[1]);
    (index, real) == (0, of_e)
}

/// The smallest call that shows it: one filter of order 1 on lines of 1. The
/// checker works it too (`IndexZero` of examples).
fn shown(build: &Build) -> bool {
    let mut side = Side::plain(0, 1);
    side.indices[0] = 0;
    let call = Decode {
        row: &ROWS[0],
        side,
        kind: 0,
        lines: vec![1.0; 80],
    };
    let mut lent = Lent::new(&call.lines);
    decode(call.row, &call.side, &mut lent);
    let (own, wanted) = (build.decoded(&call), build.wanted_lines(&call));
    let port = lent.list();
    let told = |lines: &[f32]| {
        let [first, last] = [13, 79].map(|n| lines[n].to_bits());
        format!(
            "{}, line 13 {first:08X}, line 79 {last:08X}",
            changed(lines)
        )
    };
    println!("decode: {}, one filter of order 1 and index 0, 80 lines of 1: D: {}; D with {D_INDEX_0}: {}; port: {}", call.row.name(), told(&own), told(&wanted), told(port));
    first_difference(&own, port) == Some(13) && first_difference(&wanted, port).is_none()
}

pub fn run(builds: &[Build; 2]) -> bool {
    let same = builds.each_ref().map(coefficients);
    shown(&builds[0]) && same == [true; 2]
}
