//! The family `direct`: the harness's f32 lattice with chosen coefficients and
//! lines, which the encoder need not ever choose together. The families of frames
//! show that this lattice is the port's.

use crate::document::exact::{LEAST, MOST};
use crate::document::Filters;
use crate::draw::{two, Random, SEED};
use crate::original::Build;
use crate::words::error::chosen::{coefficients, growing, indices, CHOICES};
use crate::words::error::family::Family;

/// Two bands of different orders and coefficients with the states carried.
const BANDS: [(usize, usize); 2] = [(0, 24), (24, 40)];
const LINES: usize = 40;
/// Rounds over every choice of coefficients, signs and sizes, for each m.
const ROUNDS: usize = 3;

const SIGNS: [&str; 4] = [
    "one sign",
    "alternating signs",
    "growing signs",
    "any signs",
];
const SIZES: [&str; 4] = ["exactly 2^m", "near 2^m", "any size", "subnormals and 2^m"];

fn line(random: &mut Random, size: usize, m: i32) -> f32 {
    let top = two(m).to_bits();
    f32::from_bits(match size {
        0 => top,
        // Down to 7/8 of 2^m.
        1 => top - random.below(1 << 21) as u32,
        2 => random.below(top as usize + 1) as u32,
        _ if random.once_in(9) => top,
        _ => random.below(1 << 23) as u32,
    })
}

pub fn run(build: &Build) -> Family {
    let mut family = Family::new("direct");
    let table = coefficients(build);
    let random = &mut Random(SEED);
    for m in LEAST..=MOST {
        for _ in 0..ROUNDS {
            for (choice, chosen) in CHOICES.iter().enumerate() {
                for (signs, signed) in SIGNS.iter().enumerate() {
                    for (size, sized) in SIZES.iter().enumerate() {
                        let all = [indices(random, choice), indices(random, choice)];
                        let q = all.map(|set| set.map(|index| table[index]));
                        let coefficients = std::array::from_fn(|n| q[n / 8][n % 8]);
                        let grown = q.map(|q| growing(&q));
                        let mut lines: [f32; LINES] = std::array::from_fn(|n| {
                            let sign = match signs {
                                0 => 1.0,
                                1 => [1.0, -1.0][n % 2],
                                2 => grown[usize::from(n >= BANDS[1].0)][n % 9],
                                _ => random.one_of(&[1.0, -1.0]),
                            };
                            sign * line(random, size, m)
                        });
                        // One line of 2^m, so that m is the frame's.
                        let at = random.below(LINES);
                        lines[at] = two(m).copysign(lines[at]);
                        let second = match random.below(4) {
                            0 => 1 + random.below(8),
                            _ => 8,
                        };
                        let filters = Filters {
                            bands: &BANDS,
                            orders: [8, second],
                            coefficients,
                        };
                        family.direct(&filters, &lines, || format!("{chosen}, {signed}, {sized}"));
                    }
                }
            }
        }
    }
    family
}
