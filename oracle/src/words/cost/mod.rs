//! The word `cost`: E's bit budget against the whole-number rule of docs/RULES.md,
//! "Cost", against the program ./tns, and at the inputs that the rules refuse.

mod program;
mod strange;

use crate::compare::Differing;
use crate::document::{rules, Side};
use crate::draw::{any_side, every_side, say_seed, Random, SEED};
use crate::original::{both, Build};
use std::path::Path;

const RANDOM: u64 = 20_000_000;

#[derive(Default)]
struct Tally {
    compared: u64,
    differ: Differing,
    most: usize,
}

impl Tally {
    fn take(&mut self, build: &Build, side: &Side) {
        let (given, wanted) = (build.bits(side), rules::cost(side));
        self.compared += 1;
        self.most = self.most.max(given);
        self.differ.take(given != wanted, || {
            let (name, record) = (build.name, side.record());
            format!("cost: {name}: {record:?}: E {given}, rule {wanted}")
        });
    }

    fn print(&self, build: &Build, what: &str) -> bool {
        println!(
            "cost: {}: E against the whole-number rule, {what}: {} compared, {} differ, at most {} bits",
            build.name, self.compared, self.differ.0, self.most
        );
        self.differ.0 == 0
    }
}

fn against_rule(build: &Build) -> bool {
    let mut tally = Tally::default();
    every_side(6, |side| tally.take(build, side));
    let mut good = tally.print(build, "one filter, every pattern of orders 0..6");
    let mut tally = Tally::default();
    let mut random = Random(SEED);
    for _ in 0..RANDOM {
        tally.take(build, &any_side(&mut random, 2));
    }
    good &= tally.print(build, "two filters, random");
    good
}

pub fn run(root: &Path) -> bool {
    say_seed("cost");
    let builds = both();
    let mut good = true;
    for build in &builds {
        good &= against_rule(build);
    }
    good &= program::run(root, &builds[0]);
    strange::run(&builds[0]);
    good
}
