//! The word `parts` (docs/RULES.md, "Cost before rounding (C-15)"): the port's
//! `tns_cost_2048ths` and `tns_cost` against the rule over T's own tables and against
//! E's bits; then the refusals. E gives no 2048ths, only bits that are rounded.

mod refusals;

use crate::compare::Differing;
use crate::document::{refusals::accepted, rules, Side};
use crate::draw::{as_second, every_place, every_shape, every_side, say_seed, Random, SEED};
use crate::original::{both, Build};
use crate::port::costs;

/// Draws of sixteen indices for each filter count, weighting and pair of orders.
const DRAWS: usize = 10_000;

/// No part may be over this.
const LIMIT: u32 = 83 * 2048;

#[derive(Default)]
struct Tally {
    compared: u64,
    /// Other parts than the rule's.
    parts: u64,
    /// Another answer than the rule's: of tns_cost_2048ths, of tns_cost.
    answers: [u64; 2],
    /// Other bits than E's, by build.
    bits: [u64; 2],
    guards: u64,
    differ: Differing,
    largest: u32,
    /// Records whose bits would be others if both filters were rounded up together.
    told_apart: u64,
}

impl Tally {
    /// A call of each function; `lent` draws the parts before it.
    fn take(&mut self, builds: &[Build; 2], lent: &mut Random, side: &Side) {
        let [weighting, filters, sets @ ..] = side.record();
        let (orders, indices) = sets.split_at(2);
        let before = [lent.pattern(), lent.pattern()];
        let given = costs(weighting, filters, orders, indices, before);
        let (parts, bits) = (rules::parts(side), rules::cost(side));
        let of_e = builds.each_ref().map(|build| build.bits(side));
        let other_parts = given.parts != parts.map(|part| part as u32);
        let other_answers = [given.with_parts, given.alone].map(|one| one != accepted(bits));
        let other_bits = of_e.map(|bits| bits != given.with_parts.bits as usize);
        self.parts += u64::from(other_parts);
        for n in 0..2 {
            self.answers[n] += u64::from(other_answers[n]);
            self.bits[n] += u64::from(other_bits[n]);
        }
        self.guards += u64::from(!given.guards_stand);
        let differs = other_parts || [other_answers, other_bits] != [[false; 2]; 2];
        self.differ.take(differs, || {
            let (record, [std, libm]) = (side.record(), of_e);
            let (left, answer, alone) = (given.parts, given.with_parts, given.alone);
            format!("parts: {record:?}: rule {parts:?}, {bits} bits; E std {std} bits, libm {libm}; tns_cost_2048ths {left:?}, {answer:?}; tns_cost {alone:?}")
        });
        self.count(parts, given.parts);
    }

    /// Counts what a record is a test of: the rule's parts, and the port's.
    fn count(&mut self, parts: [usize; 2], given: [u32; 2]) {
        self.compared += 1;
        self.largest = self.largest.max(given[0]).max(given[1]);
        let each = parts[0].div_ceil(2048) + parts[1].div_ceil(2048);
        let together = (parts[0] + parts[1]).div_ceil(2048);
        self.told_apart += u64::from(each != together);
    }

    fn print(&self, set: &str, how: &str) -> bool {
        let Tally {
            compared,
            parts,
            answers: [answers, alone],
            bits: [std, libm],
            guards,
            differ: Differing(differ),
            largest,
            told_apart,
        } = self;
        println!("parts: {set}: {how}: {compared} compared, {differ} differ");
        println!("parts: {set}: {parts} have other parts than the rule over T's tables, {answers} another answer of tns_cost_2048ths, {alone} another answer of tns_cost; {std} have other bits than E std, {libm} other bits than E libm; {guards} wrote beyond the parts");
        println!("parts: {set}: the largest part is {largest}, and none may be over {LIMIT}; {told_apart} would have other bits if both filters were rounded up together");
        differ + guards == 0 && *largest <= LIMIT
    }
}

/// Every small pattern of a filter, then one index at all places.
fn patterns(builds: &[Build; 2]) -> bool {
    let (mut tally, lent) = (Tally::default(), &mut Random(!SEED));
    let mut take = |side: &Side| tally.take(builds, lent, side);
    let mut as_either = |side: &Side| {
        take(side);
        take(&as_second(side));
    };
    every_side(4, &mut as_either);
    every_place(|side, _| as_either(&side));
    every_shape(|mut side| {
        for index in 0..17 {
            side.indices = [index; 16];
            take(&side);
        }
    });
    tally.print("patterns", "every pattern of orders 0..4 and every index at every place of every order, as the one filter and as the second of two; every index at all places, with every pair of orders, both weightings and 0..2 filters")
}

fn drawn(builds: &[Build; 2]) -> bool {
    let (mut tally, lent) = (Tally::default(), &mut Random(!SEED));
    let random = &mut Random(SEED);
    every_shape(|mut side| {
        for _ in 0..DRAWS {
            side.indices.fill_with(|| random.below(17));
            tally.take(builds, lent, &side);
        }
    });
    let how = format!("{DRAWS} draws of sixteen indices for every pair of orders, both weightings and 0..2 filters");
    // A tenth of the records is to tell apart how the filters are rounded.
    tally.print("drawn", &how) && 10 * tally.told_apart >= tally.compared
}

pub fn run() -> bool {
    say_seed("parts");
    let builds = both();
    let mut good = patterns(&builds);
    good &= drawn(&builds);
    good &= refusals::run(&builds[0]);
    good
}
