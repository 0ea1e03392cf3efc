//! The list `cost`: side data with E's bits.

use crate::document::Side;
use crate::draw::{any_side, every_place, every_side, Random, SEED};
use crate::original::Build;
use crate::words::lists::list::{Given, List, COST};
use std::path::Path;

const RECORDS: usize = 4000;

/// M1 to M5, then M14, of docs/RULES.md, "Marked cases", with the bits stated there.
fn marked() -> Vec<(Side, usize)> {
    let one = |weighting: u8, indices: &[usize]| {
        let mut side = Side::plain(weighting, indices.len());
        side.indices[..indices.len()].copy_from_slice(indices);
        side
    };
    let mut none = one(0, &[]);
    none.filters = 0;
    vec![
        (one(0, &[]), 1),
        (one(0, &[9]), 13),
        (one(1, &[0]), 18),
        (one(0, &[7, 9]), 14),
        (one(1, &[0; 8]), 84),
        (none, 0),
    ]
}

fn sides(random: &mut Random) -> Vec<Side> {
    let mut sides: Vec<Side> = marked().into_iter().map(|(side, _)| side).collect();
    // Every index at every place of every order; the others 8, then random.
    every_place(|side, _| sides.push(side));
    every_place(|mut side, place| {
        let index = side.indices[place];
        side.indices = any_side(random, 1).indices;
        side.indices[place] = index;
        sides.push(side);
    });
    // Every cost of one filter up to order 2.
    every_side(2, |side| sides.push(side.clone()));
    // Two filters: every pair of orders.
    for weighting in 0..2 {
        for pair in 0..81 {
            let mut side = any_side(random, 2);
            side.weighting = weighting;
            side.orders = [pair / 9, pair % 9];
            sides.push(side);
        }
    }
    // Orders and indices of filters that are not counted.
    for n in 0..400 {
        sides.push(any_side(random, n % 2));
    }
    // All indices at one end.
    for weighting in 0..2 {
        for filters in 1..=2 {
            for order in 0..=8 {
                for index in [0, 16] {
                    let mut side = Side::plain(weighting, order);
                    side.filters = filters;
                    side.orders = [order; 2];
                    side.indices = [index; 16];
                    sides.push(side);
                }
            }
        }
    }
    while sides.len() < RECORDS {
        let filters = random.below(3);
        sides.push(any_side(random, filters));
    }
    sides
}

pub fn run(builds: &[Build; 2], root: &Path) -> bool {
    let [std, libm] = builds;
    let mut good = true;
    for (m, (side, bits)) in marked().iter().enumerate() {
        let found = std.bits(side);
        if found != *bits {
            println!("lists: marked case {m} of the list: E {found}, docs/RULES.md {bits}");
            good = false;
        }
    }
    let mut list = List::default();
    let mut most = 0;
    for side in sides(&mut Random(SEED)) {
        let bits = std.bits(&side);
        most = most.max(bits);
        list.differ += usize::from(libm.bits(&side) != bits);
        let head = [COST, 0, 0, side.weighting, side.filters as u8];
        list.push(head, Given::Side(&side), &[], bits, &[]);
    }
    list.write(root, "cost", &format!(", at most {most} bits")) && good
}
