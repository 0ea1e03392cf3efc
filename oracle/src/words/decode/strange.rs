//! What D (std build) does with calls that the port refuses, beside those that
//! the word `cost` shows. D takes the duration and the bandwidth as enums, so
//! refusals 1 and 2 have no like there.

use crate::compare::strange::{decoder, Given};
use crate::document::{Row, ROWS};
use crate::original::Build;

/// Which lines are no longer 1.
pub fn changed(lines: &[f32]) -> String {
    let other = |line: &f32| *line != 1.0;
    match (lines.iter().position(other), lines.iter().rposition(other)) {
        (Some(first), Some(last)) => format!("lines {first} to {last} changed"),
        _ => "no line changed".to_string(),
    }
}

pub fn run(build: &Build) {
    let nines = [9usize; 32];
    let i16 = &nines[..16];
    let with = |place: usize, index: usize| {
        let mut indices = [9usize; 16];
        indices[place] = index;
        indices
    };
    let say = |input: &str, row: &Row, given: Given, length: usize| {
        decoder(build, input, row, given, length, changed);
    };
    for row in &ROWS[1..] {
        let short = row.last_stop() - 1;
        let name = format!("{}, {short} lines", row.name());
        say(&name, row, (0, &[0, 0], i16), short);
    }
    // One band of 80 lines at 10 ms, and others.
    let one = &ROWS[0];
    for (row, length) in [(one, 0), (one, 1000), (&ROWS[5], 301), (&ROWS[9], 301)] {
        let name = format!("{}, {length} lines", row.name());
        say(&name, row, (2, &[1, 1], i16), length);
    }
    // Two bands of 400 lines at 10 ms.
    let two = |input: &str, given: Given| say(input, &ROWS[4], given, 400);
    two("no orders, no indices, count 0", (0, &[], &[]));
    two("no orders, count 1", (1, &[], i16));
    two("1 order, count 2", (2, &[1], i16));
    two("2 orders, no indices", (2, &[8, 8], &[]));
    two("2 orders, 15 indices", (2, &[8, 8], &nines[..15]));
    two("2 orders, 32 indices", (2, &[8, 8], &nines));
    two("3 filters, 3 orders", (3, &[1, 1, 1], i16));
    two("255 filters, 2 orders", (255, &[1, 1], i16));
    two("order 9 of filter 0 of two bands", (2, &[9, 1], i16));
    two("order 9 of filter 1 of two bands", (2, &[1, 9], i16));
    say("order 255", one, (1, &[255, 0], i16), 80);
    two("order 9 not counted, count 1", (1, &[1, 9], i16));
    two("order 9 not counted, count 0", (0, &[9, 9], i16));
    two("index 17 not used", (2, &[1, 1], &with(7, 17)));
    let name = "index 17 of a filter without a band";
    say(name, one, (2, &[1, 1], &with(8, 17)), 80);
    two("index 255 used", (2, &[1, 1], &with(8, 255)));
}
