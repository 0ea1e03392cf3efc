//! The word `index`: every f32 through the port's index choice and E's.
//! They differ where docs/DIFFERENCES.md, "Index and coefficient", says so, and
//! nowhere else: at 1 and -1, where E leaves its tables, and for the build `libm`
//! at two sizes of either sign.

use crate::original::{both, Build};
use crate::port::index;

/// A pattern at which the port and E differ, with the port's index.
type Listed = (u32, usize);

/// Those of either build, in the order of the patterns.
const BOTH: [Listed; 2] = [(0x3F80_0000, 16), (0xBF80_0000, 0)];

/// Those of `libm`, whose arcsine puts two thresholds one f32 higher.
const LIBM: [Listed; 6] = [
    (0x3DBC_F730, 9),
    (0x3F1A_4643, 12),
    BOTH[0],
    (0xBDBC_F730, 7),
    (0xBF1A_4643, 4),
    BOTH[1],
];

/// The patterns at which the port and E differ, with the port's index, and E's.
fn differing(build: &Build) -> Vec<(Listed, usize)> {
    let mut found = Vec::new();
    let (mut rc_q, mut rc_i, mut orders) = ([0.0f32; 16], [0usize; 16], [0usize; 2]);
    for block in (0..=u32::MAX).step_by(16) {
        let pattern = |j: usize| block + j as u32;
        for (j, q) in rc_q.iter_mut().enumerate() {
            *q = f32::from_bits(pattern(j));
        }
        (build.quantize)(2, &mut rc_q, &mut rc_i, &mut orders);
        for (j, e) in rc_i.iter().enumerate() {
            let here = index(f32::from_bits(pattern(j)));
            if here != *e {
                found.push(((pattern(j), here), *e));
            }
        }
        assert!(found.len() < 1000, "the port differs too often");
    }
    found
}

pub fn run() -> bool {
    let mut good = true;
    for build in both() {
        let name = build.name;
        let found = differing(&build);
        for ((pattern, here), e) in &found {
            println!(
                "index: {name}: {pattern:08X}: E {}, port {here}",
                *e as isize
            );
        }
        let listed: &[Listed] = if name == "libm" { &LIBM } else { &BOTH };
        let as_listed = found.iter().map(|(one, _)| one).eq(listed);
        println!(
            "index: {name}: every f32, 4294967296 patterns: {} differ, {} docs/DIFFERENCES.md",
            found.len(),
            if as_listed {
                "just those of"
            } else {
                "NOT those of"
            }
        );
        good &= as_listed;
    }
    good
}
