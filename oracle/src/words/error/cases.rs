//! The cases for `example_error.py`: random small ones, worked by the harness's
//! f32 lattice and its exact lattice, to be worked again there with Python's
//! whole numbers. One case a line, in words parted by spaces.

use crate::document::{exact, whole::Whole, Filters};
use crate::draw::{two, Random, SEED};
use crate::original::Build;
use crate::words::error::chosen::{coefficients, indices, CHOICES};
use std::path::Path;

const CASES: usize = 300;

/// One case: two orders, sixteen coefficients, the numbers of lines of the two
/// bands, the lines, the filtered lines, the exact lines. Floats are patterns;
/// these and the exact whole numbers are hexadecimal.
fn case(random: &mut Random, table: &[f32; 17]) -> String {
    let orders = [random.below(9), random.below(9)];
    let choice = random.below(CHOICES.len());
    let sets = [indices(random, choice), indices(random, choice)];
    let coefficients: [f32; 16] = std::array::from_fn(|n| table[sets[n / 8][n % 8]]);
    let lengths = [1 + random.below(12), 1 + random.below(12)];
    let bands = &[(0, lengths[0]), (lengths[0], lengths[0] + lengths[1])];
    // Lines of about one size, or of every size from 0 to 2^119.
    let (m, wide) = (random.between(-126, 119), random.once_in(2));
    let top = two(m).to_bits();
    let before: Vec<f32> = (0..bands[1].1)
        .map(|_| {
            let pattern = match wide {
                true => random.below(two(119).to_bits() as usize + 1) as u32,
                false => top - random.below(1 << 23) as u32,
            };
            f32::from_bits(pattern | random.sign())
        })
        .collect();
    let filters = Filters {
        bands,
        orders,
        coefficients,
    };
    let after = filters.filtered(&before);
    let exact = exact::lines(&filters, &before);
    let number = |n: &usize| format!("{n}");
    let pattern = |x: &f32| format!("{:x}", x.to_bits());
    let mut words: Vec<String> = orders.iter().map(number).collect();
    words.extend(coefficients.iter().map(pattern));
    words.extend(lengths.iter().map(number));
    words.extend(before.iter().chain(&after).map(pattern));
    words.extend(exact.iter().flatten().map(Whole::hex));
    words.join(" ")
}

/// Writes the cases where `run` looks for them.
pub fn write(build: &Build, root: &Path) -> bool {
    let table = coefficients(build);
    let random = &mut Random(SEED);
    let cases: String = (0..CASES).map(|_| case(random, &table) + "\n").collect();
    match std::fs::write(root.join("target/oracle/error_cases.txt"), cases) {
        Ok(()) => true,
        Err(why) => {
            println!("error: the cases cannot be written: {why}");
            false
        }
    }
}
