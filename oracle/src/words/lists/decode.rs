//! The list `decode`: whole decoder calls with D's lines.

use crate::document::{Decode, Row, Side, ROWS};
use crate::draw::{any_side, decoder::of_kind, length, spectra::KINDS, Random, SEED};
use crate::original::Build;
use crate::words::lists::list::{bits_of, patterns, Given, List, DECODE};
use std::path::Path;

/// Records for each row: one for each kind of spectrum.
const EACH: usize = KINDS.len();

/// The calls in their fixed order. In every row both filters take every order
/// from 0 to 8 while both are counted; a few records count fewer.
fn calls(random: &mut Random) -> Vec<Decode> {
    let mut calls = Vec::new();
    for (n, row) in ROWS.iter().enumerate() {
        for record in 0..EACH {
            let filters = match record {
                0..=8 => 2,
                9 => 0,
                10 | 11 => 1,
                _ => random.below(3),
            };
            let mut side = any_side(random, filters);
            side.orders = [record % 9, (4 * record + n) % 9];
            // Both ends of the table, used and not.
            match record {
                8 => side.indices = [16; 16],
                11 => side.indices = [0; 16],
                _ => {}
            }
            let length = length(random, row, record % 3);
            // Another kind for the same orders in each row.
            let kind = (record + 4 * n) % KINDS.len();
            calls.push(of_kind(random, row, side, kind, length));
        }
    }
    calls
}

/// Side data without an index 0, and an order for one of the filters.
fn without_0(random: &mut Random, filters: usize, filter: usize, order: usize) -> Side {
    let mut side = any_side(random, filters);
    side.orders[filter] = order;
    side.indices.fill_with(|| 1 + random.below(16));
    side
}

/// Index 0, at which D and docs/RULES.md differ: alone at every place of every
/// order, in either filter; and where it is not used, so that it changes nothing:
/// from an order on, and in a filter that is not counted or has no band. White
/// noise at the row's shortest length.
fn index_0(random: &mut Random) -> Vec<Decode> {
    let mut calls = Vec::new();
    let mut push = |random: &mut Random, row: &'static Row, side: Side| {
        calls.push(of_kind(random, row, side, 0, row.last_stop()));
    };
    for filter in 0..2 {
        let mut rows = ROWS.iter().filter(|r| r.bands.len() > filter).cycle();
        let mut next = || rows.next().expect("rows without end");
        for order in 0..=8 {
            for place in 0..order {
                let mut side = without_0(random, 2, filter, order);
                side.indices[8 * filter + place] = 0;
                push(random, next(), side);
            }
            if order < 8 {
                let mut side = without_0(random, 2, filter, order);
                side.indices[8 * filter + order..8 * filter + 8].fill(0);
                push(random, next(), side);
            }
        }
    }
    let [one_band, two_bands] = [&ROWS[5], &ROWS[8]];
    for (row, filters) in [(one_band, 0), (one_band, 2), (two_bands, 0), (two_bands, 1)] {
        let mut side = without_0(random, filters, 1, 8);
        side.indices[8..].fill(0);
        push(random, row, side);
    }
    calls
}

pub fn run(builds: &[Build; 2], root: &Path) -> bool {
    let mut list = List::default();
    let (mut acting, mut with_0) = (0, 0);
    let all = [calls(&mut Random(SEED)), index_0(&mut Random(!SEED))];
    for call in all.into_iter().flatten() {
        acting += usize::from(call.acts(0) || call.acts(1));
        with_0 += usize::from(call.uses_0());
        let [lines, others] = [0, 1].map(|n| patterns(&builds[n].wanted_lines(&call)));
        list.differ += usize::from(others != lines);
        let Decode { row, side, .. } = &call;
        let filters = side.filters as u8;
        let head = [DECODE, row.duration, row.bandwidth, 0, filters];
        list.push(head, Given::Side(side), &bits_of(&call.lines), 0, &lines);
    }
    let said = format!(", {acting} with an acting filter, {with_0} with index 0 at a used place");
    list.write(root, "decode", &said)
}
