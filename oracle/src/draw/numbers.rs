//! Side data and numbers of lines.

use crate::document::{Row, Side};
use crate::draw::random::Random;

/// Any length that a row accepts.
pub fn any_length(random: &mut Random, row: &Row) -> usize {
    row.last_stop() + random.below(row.longest() - row.last_stop() + 1)
}

/// The shortest, the longest, or any.
pub fn length(random: &mut Random, row: &Row, which: usize) -> usize {
    match which {
        0 => row.last_stop(),
        1 => row.longest(),
        _ => any_length(random, row),
    }
}

pub fn any_side(random: &mut Random, filters: usize) -> Side {
    let mut side = Side::plain(random.below(2) as u8, 0);
    side.filters = filters;
    side.orders.fill_with(|| random.below(9));
    side.indices.fill_with(|| random.below(17));
    side
}

/// One filter with every index at every place of every order, both weightings, and that place. Its other
/// indices are 8.
pub fn every_place(mut with: impl FnMut(Side, usize)) {
    for weighting in 0..2 {
        for order in 1..=8 {
            for place in 0..order {
                for index in 0..17 {
                    let mut side = Side::plain(weighting, order);
                    side.indices[place] = index;
                    with(side, place);
                }
            }
        }
    }
}

/// All side data of one filter with an order up to `most`, both weightings.
pub fn every_side(most: usize, mut with: impl FnMut(&Side)) {
    for weighting in 0..2 {
        for order in 0..=most {
            let mut side = Side::plain(weighting, order);
            side.indices[..order].fill(0);
            loop {
                with(&side);
                let Some(k) = side.indices[..order].iter().position(|i| *i < 16) else {
                    break;
                };
                side.indices[..k].fill(0);
                side.indices[k] += 1;
            }
        }
    }
}

/// The filter as the second of two, where the first has order 0. Assumes one filter.
pub fn as_second(side: &Side) -> Side {
    let mut other = side.clone();
    other.filters = 2;
    other.orders.swap(0, 1);
    other.indices.rotate_left(8);
    other
}

/// Every filter count with both weightings and every pair of orders. All indices
/// are 8.
pub fn every_shape(mut with: impl FnMut(Side)) {
    for filters in 0..=2 {
        for weighting in 0..2 {
            for pair in 0..81 {
                let mut side = Side::plain(weighting, pair / 9);
                side.filters = filters;
                side.orders[1] = pair % 9;
                with(side);
            }
        }
    }
}

/// A byte over `most`.
pub fn over(random: &mut Random, most: usize) -> u8 {
    (most + 1 + random.below(255 - most)) as u8
}
