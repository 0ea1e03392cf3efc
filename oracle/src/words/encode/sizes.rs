//! More frames for the gains, whose lines have every size (`draw/sizes.rs`). E is
//! compared with the port in every field and line here too.

use crate::compare::Differing;
use crate::document::ROWS;
use crate::draw::sizes::{draw, KINDS};
use crate::draw::{Random, SEED};
use crate::original::Build;
use crate::words::encode::asked::Asked;
use crate::words::encode::gains;

/// Draws for each row and kind.
const DRAWS: usize = 1000;

pub fn run(build: &Build, gains: &mut gains::Tally) -> bool {
    let random = &mut Random(SEED.rotate_left(32));
    let mut asked = Asked::default();
    let mut unknown_panics = 0u64;
    // By kind: frames, frames with an active filter.
    let mut kinds = [[0u64; 2]; KINDS.len()];
    for _ in 0..DRAWS {
        for row in &ROWS {
            for (kind, name) in KINDS.iter().enumerate() {
                let call = draw(random, row, kind);
                let Some((wanted, _)) = build.wanted(&call, build.encoded(&call)) else {
                    unknown_panics += 1;
                    continue;
                };
                let loan = asked.ask(&call, &wanted, name);
                gains.take(build, &call, &loan, name);
                kinds[kind][0] += 1;
                kinds[kind][1] += u64::from(wanted.said.active());
            }
        }
    }
    let Asked {
        differ: Differing(differ),
        guards,
    } = asked;
    let frames: u64 = kinds.iter().map(|[frames, _]| frames).sum();
    let kinds = KINDS
        .iter()
        .zip(kinds)
        .map(|(name, [frames, active])| format!("{name} {frames} ({active})"));
    let kinds = kinds.collect::<Vec<_>>().join(", ");
    println!("encode: more frames for the gains, by kind (with a filter on): {kinds}; E (std) against tns_encode: {frames} frames compared, {differ} differ, {guards} wrote beyond what was lent, other panics of E {unknown_panics}");
    differ + guards + unknown_panics == 0
}
