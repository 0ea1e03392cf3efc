//! Calls of both functions that may be refused, each refusal alone and with every
//! other, against docs/RULES.md, "Refusal numbers"; the parts must stay as they were.
//! Calls that turn out accepted must have E's bits and the rule's parts.

use crate::compare::refusals::Tally;
use crate::document::{refusals, rules, ROWS};
use crate::draw::refused::{any, each_alone, together, Input};
use crate::draw::{over, Random, SEED};
use crate::original::Build;
use crate::port::costs;

/// Draws for each set of faults and each row.
const DRAWS: usize = 100;
const ANY: usize = 100_000;

struct Calls<'a> {
    build: &'a Build,
    /// For the parts before a call.
    random: Random,
    tally: Tally,
}

impl Calls<'_> {
    /// A call of each function. Of a decoder call they take the side data alone.
    fn take(&mut self, weighting: u8, input: &Input) {
        let (filters, orders, indices) = (input.filters, &input.orders, &input.indices);
        let before = [self.random.pattern(), self.random.pattern()];
        let given = costs(weighting, filters, orders, indices, before);
        let (wanted, parts) = match refusals::cost(weighting, filters, orders, indices) {
            Some(refused) => (refused, before),
            None => {
                let side = input.side(weighting).expect("the rules accept it");
                let parts = rules::parts(&side).map(|part| part as u32);
                (refusals::accepted(self.build.bits(&side)), parts)
            }
        };
        let said = |function: &str| {
            let left = given.parts;
            format!("parts: {function}: weighting {weighting} filters {filters} orders {orders:?} indices {indices:?}, parts {before:?} to become {parts:?}, left {left:?}")
        };
        let [alone, with_parts] = [given.alone, given.with_parts].map(|answer| (wanted, answer));
        let (other, stand) = (given.parts != parts, given.guards_stand);
        let tally = &mut self.tally;
        tally.take(alone, false, true, || said("tns_cost"));
        tally.take(with_parts, other, stand, || said("tns_cost_2048ths"));
    }
}

pub fn run(build: &Build) -> bool {
    let mut calls = Calls {
        build,
        random: Random(!SEED),
        tally: Tally::default(),
    };
    let [inputs, more] = &mut [Random(SEED), Random(SEED)];
    each_alone(inputs, |input| calls.take(more.below(2) as u8, input));
    for weighting in 0..=255 {
        for row in &ROWS {
            calls.take(weighting, &Input::good(inputs, row));
        }
    }
    together(inputs, DRAWS, |input| {
        for weighting in [more.below(2) as u8, over(more, 1)] {
            calls.take(weighting, input);
        }
    });
    for _ in 0..ANY {
        let beyond = u8::from(more.once_in(40));
        calls.take(more.below(2) as u8 + beyond, &any(inputs));
    }
    let said = ["docs/RULES.md's", "a part", "the parts", "the rule"];
    calls.tally.print("parts", &[4..=8], said)
}
