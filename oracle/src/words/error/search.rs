//! The family `search`: nine lines climb towards the bound in the harness's f32
//! lattice. A filtered line depends on the nine lines up to it and on no others.
//! The coefficients are the search's own choice, not the encoder's: it shows how
//! near the lattice can come, not the encoder.
//!
//! The number of steps is fixed, and every step is measured and counted. What is
//! found at m = 0 is then carried to every m by a power of two.

use crate::document::exact::{LEAST, MOST};
use crate::document::Filters;
use crate::draw::{hard::times_two, Random, SEED};
use crate::original::Build;
use crate::words::error::chosen::{coefficients, growing, indices, CHOICES};
use crate::words::error::climb::{climb, keep_best, moved};
use crate::words::error::family::Family;

/// Starts for each choice of coefficients.
const STARTS: usize = 3;
/// Below this m a product in the lattice may be subnormal, so what was found at
/// m = 0 need not be as bad; the search climbs on there.
const NORMAL: i32 = -118;
const LOW_STEPS: usize = 5_000;

/// Steps of each start. Only the two choices that let lines of 2^m grow to
/// nearly 2^(m+8) come near the bound, so they have more.
fn steps(choice: usize) -> usize {
    if [0, 2].contains(&choice) {
        200_000
    } else {
        25_000
    }
}

const NINE: [(usize, usize); 1] = [(0, 9)];

#[derive(Clone)]
struct Nine {
    indices: [usize; 8],
    lines: [f32; 9],
}

/// A search that starts from one choice of coefficients.
struct Search<'a> {
    random: &'a mut Random,
    family: &'a mut Family,
    table: &'a [f32; 17],
    choice: usize,
}

impl Nine {
    fn new(random: &mut Random, table: &[f32; 17], choice: usize) -> Nine {
        let indices = indices(random, choice);
        let signs = growing(&indices.map(|n| table[n]));
        let lines = signs.map(|sign| moved(random, sign, 0));
        Nine { indices, lines }
    }

    /// One or two lines changed; where the coefficients are free, now and then
    /// one of them and the signs that go with it.
    fn changed(&self, random: &mut Random, table: &[f32; 17], free: bool, m: i32) -> Nine {
        let mut next = self.clone();
        if free && random.once_in(16) {
            next.indices[random.below(8)] = random.below(17);
            let signs = growing(&next.indices.map(|n| table[n]));
            for (line, sign) in next.lines.iter_mut().zip(signs) {
                *line = line.copysign(sign);
            }
        }
        for _ in 0..1 + random.below(2) {
            let n = random.below(9);
            next.lines[n] = moved(random, next.lines[n], m);
        }
        next
    }

    fn measure(&self, family: &mut Family, table: &[f32; 17], choice: usize) -> f64 {
        let index = |n: usize| self.indices.get(n);
        let filters = Filters {
            bands: &NINE,
            orders: [8, 0],
            coefficients: std::array::from_fn(|n| index(n).map_or(0.0, |index| table[*index])),
        };
        let what = || format!("{}: {:?}", CHOICES[choice], self.indices);
        let found = family.direct(&filters, &self.lines, what);
        found.map_or(0.0, |found| found.part)
    }
}

impl Search<'_> {
    fn climb(&mut self, nine: Nine, m: i32, steps: usize) -> (Nine, f64) {
        let (table, choice) = (self.table, self.choice);
        let part = nine.measure(self.family, table, choice);
        climb(
            (nine, part),
            steps,
            |nine, _| nine.changed(self.random, table, choice >= 4, m),
            |nine| Some(nine.measure(self.family, table, choice)),
            |part| *part,
        )
    }
}

pub fn run(build: &Build) -> Family {
    let mut family = Family::new("search");
    let random = &mut Random(SEED);
    let table = &coefficients(build);
    for (choice, name) in CHOICES.iter().enumerate() {
        let mut search = Search {
            random,
            family: &mut family,
            table,
            choice,
        };
        let steps = steps(choice);
        let mut best = None;
        for _ in 0..STARTS {
            let nine = Nine::new(search.random, table, choice);
            let (nine, part) = search.climb(nine, 0, steps);
            keep_best(&mut best, part, || nine);
        }
        let Some((part, nine)) = best else {
            continue;
        };
        let (indices, lines) = (nine.indices, nine.lines.map(f32::to_bits));
        println!("error: search: nine lines at m 0, starting with {name}: {STARTS} starts of {steps} steps, largest part {part:.4}; indices {indices:?}, lines {lines:08X?}");
        for m in LEAST..=MOST {
            let mut there = nine.clone();
            there.lines = nine.lines.map(|line| times_two(line, m));
            search.climb(there, m, if m < NORMAL { LOW_STEPS } else { 0 });
        }
    }
    family
}
