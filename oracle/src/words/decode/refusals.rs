//! Calls that the rules refuse, each refusal alone and with every other, against
//! docs/RULES.md, "Refusal numbers"; the lines must stay as they were, NaN bits
//! included. Calls that turn out accepted are compared with D.

use crate::compare::{first_change, first_difference, refusals::Tally};
use crate::document::ACCEPTED;
use crate::draw::refused::{any, each_alone, together, Input};
use crate::draw::{spectra::patterns, Random, SEED};
use crate::original::Build;
use crate::port::{decode_lines, Lent};

/// Draws for each set of faults and each row.
const DRAWS: usize = 100;
const ANY: usize = 300_000;

struct Calls<'a> {
    build: &'a Build,
    random: Random,
    tally: Tally,
}

impl Calls<'_> {
    fn take(&mut self, input: &Input) {
        let Input {
            duration,
            bandwidth,
            filters,
            length,
            ..
        } = *input;
        let (orders, indices) = (&input.orders, &input.indices);
        let wanted = input.by_table();
        let before = patterns(&mut self.random, length);
        let mut lent = Lent::new(&before);
        let given = decode_lines(duration, bandwidth, filters, orders, indices, lent.lend());
        let other = if wanted == ACCEPTED {
            let call = input.call(before).expect("the rules accept it");
            first_difference(&self.build.wanted_lines(&call), lent.list())
        } else {
            first_change(&before, lent.list())
        };
        let stand = lent.guards_stand();
        let answers = (wanted, given);
        self.tally.take(answers, other.is_some(), stand, || {
            format!("decode: duration {duration} bandwidth {bandwidth} filters {filters} orders {orders:?} indices {indices:?}, {length} lines")
        });
    }
}

pub fn run(build: &Build) -> bool {
    let mut calls = Calls {
        build,
        random: Random(!SEED),
        tally: Tally::default(),
    };
    let random = &mut Random(SEED);
    each_alone(random, |input| calls.take(input));
    together(random, DRAWS, |input| calls.take(input));
    for _ in 0..ANY {
        calls.take(&any(random));
    }
    let said = ["document 01's", "a line", "the lines", "D"];
    calls.tally.print("decode", &[1..=7], said)
}
