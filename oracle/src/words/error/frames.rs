//! The families `drawn` and `hard`: frames through the port's encoder at every m.

use crate::document::exact::{LEAST, MOST};
use crate::document::ROWS;
use crate::draw::encoder::{draw_any, name};
use crate::draw::hard::{frame, scaled, KINDS};
use crate::draw::{Random, SEED};
use crate::original::Build;
use crate::words::error::family::Family;

const AS_DRAWN: usize = 20_000;
const FOR_EACH_M: usize = 300;
/// Hard frames for each m, row and kind.
const EACH: usize = 5;

/// The frames of the word `encode`, as they are drawn, and scaled by a power of
/// two to every m.
pub fn drawn(build: &Build) -> Family {
    let mut family = Family::new("drawn");
    let random = &mut Random(SEED);
    for n in 0..AS_DRAWN {
        draw_any(random, build, &ROWS[n % ROWS.len()], |call| {
            family.encoded(call, name(call.kind));
        });
    }
    for m in LEAST..=MOST {
        for n in 0..FOR_EACH_M {
            draw_any(random, build, &ROWS[n % ROWS.len()], |call| {
                let call = call.with_lines(scaled(call.row, &call.lines, m));
                family.encoded(&call, name(call.kind));
            });
        }
    }
    family
}

/// Frames that are made to be filtered badly.
pub fn hard() -> Family {
    let mut family = Family::new("hard");
    let random = &mut Random(SEED);
    for m in LEAST..=MOST {
        for row in &ROWS {
            for (kind, name) in KINDS.iter().enumerate() {
                for _ in 0..EACH {
                    family.encoded(&frame(random, row, kind, m), name);
                }
            }
        }
    }
    family
}
