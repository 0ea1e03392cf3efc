//! The list `encode`: whole encoder calls with E's answers. E and docs/RULES.md
//! differ by intent on 10 ms bandwidth 2 with a filter on, where lines 200 to 239
//! are those of E's lattice run on, and at coefficients of exactly 1 or -1; such
//! calls are left out. E gives no gains out: those are the rule's over E's lags.

use crate::compare::difference;
use crate::document::{Encode, Gains, Outcome, Row, ROWS};
use crate::draw::encoder::{draw, ACTIVE, GAIN_DAMPED, GAIN_ON, KINDS, SILENCE, THRESHOLD};
use crate::draw::{steer::is_threshold, Random, SEED};
use crate::original::{Build, How};
use crate::words::lists::list::{bits_of, patterns, Given, List, ENCODE};
use std::path::Path;

/// Draws before a search is given up.
const PATIENCE: usize = 100_000;

struct Search<'a> {
    build: &'a Build,
    random: Random,
    found: Vec<(Encode, Outcome)>,
    failed: usize,
}

impl Search<'_> {
    /// Draws until E's answer passes the test, and keeps that call.
    fn find(
        &mut self,
        row: &'static Row,
        kinds: &[usize],
        test: impl Fn(&Encode, &Outcome) -> bool,
    ) {
        let lengths = row.offered();
        for _ in 0..PATIENCE {
            let random = &mut self.random;
            let kind = random.one_of(kinds);
            let length = lengths[self.found.len() % lengths.len()];
            let mut taken = None;
            draw(random, self.build, row, kind, length, |call| {
                let mut call = call.clone();
                // A larger bit number says no more: both limits are far below.
                call.bits = call.bits.min(u64::from(u32::MAX));
                let Some(outcome) = listed(&call, self.build) else {
                    return;
                };
                if taken.is_none() && test(&call, &outcome) {
                    taken = Some((call, outcome));
                }
            });
            if let Some(taken) = taken {
                self.found.push(taken);
                return;
            }
        }
        println!(
            "lists: no encoder call found, row {}, kinds {kinds:?}",
            row.place()
        );
        self.failed += 1;
    }

    /// Calls of a row until every order from 1 to 8 stands in every filter.
    fn every_order(&mut self, row: &'static Row) {
        let filters = row.bands.len();
        let mut missing = vec![(1..=8).collect::<Vec<usize>>(); filters];
        while missing.iter().any(|orders| !orders.is_empty()) {
            let wanted = missing.clone();
            let before = self.found.len();
            self.find(row, &ACTIVE, |_, outcome| {
                (0..filters).any(|f| wanted[f].contains(&outcome.said.side.orders[f]))
            });
            if self.found.len() == before {
                return;
            }
            let (_, outcome) = &self.found[before];
            for (orders, order) in missing.iter_mut().zip(&outcome.said.side.orders) {
                orders.retain(|n| n != order);
            }
        }
    }

    /// Every other kind twice, on one row and another.
    fn every_kind(&mut self) {
        for again in 0..2 {
            for kind in (0..KINDS).filter(|k| !ACTIVE.contains(k) && *k != SILENCE) {
                let row = &ROWS[(kind + 5 * again) % ROWS.len()];
                self.find(row, &[kind], |_, _| true);
            }
        }
    }

    /// Calls exactly at a limit of the analysis.
    fn limits(&mut self) {
        let build = self.build;
        let at = |call: &Encode, gain: f32| build.gain(call, 0) == gain && !call.near_nyquist;
        for row in [&ROWS[0], &ROWS[8]] {
            self.find(row, &[GAIN_ON], |call, _| at(call, 1.5));
            self.find(row, &[GAIN_DAMPED], |call, _| {
                at(call, 2.0) && call.weighting() == 1
            });
            self.find(row, &[THRESHOLD], |call, outcome| {
                let reflections = build.reflections(call);
                reflections.into_iter().any(is_threshold) && outcome.said.side.orders[0] > 0
            });
            // A leaning spectrum that only the flag keeps as it is.
            self.find(row, &ACTIVE, |call, _| {
                call.near_nyquist && build.gain(call, 0) > 4.0
            });
        }
    }
}

/// E's answer as the list has it, or nothing where the list has none.
fn listed(call: &Encode, build: &Build) -> Option<Outcome> {
    let (outcome, how) = build.wanted(call, build.encoded(call))?;
    (how != How::AtOne).then_some(outcome)
}

fn push(list: &mut List, call: &Encode, Outcome { said, lines }: &Outcome, gains: &Gains) {
    let (row, near) = (call.row, u8::from(call.near_nyquist));
    let words = |bytes: &[u8]| -> Vec<u32> { bytes.iter().map(|byte| (*byte).into()).collect() };
    let left = [
        words(&said.side.record()),
        patterns(&said.coefficients),
        patterns(&gains.numbers()),
        words(&gains.on()),
        patterns(lines),
    ];
    let left = left.concat();
    let head = [ENCODE, row.duration, row.bandwidth, near, 0];
    let given = Given::BitNumber(call.bits);
    list.push(head, given, &bits_of(&call.lines), said.bits, &left);
}

pub fn run(builds: &[Build; 2], root: &Path) -> bool {
    let [std, libm] = builds;
    let mut search = Search {
        build: std,
        random: Random(SEED),
        found: Vec::new(),
        failed: 0,
    };
    for row in &ROWS {
        search.find(row, &[SILENCE], |_, _| true);
        search.every_order(row);
    }
    search.every_kind();
    search.limits();
    let mut list = List::default();
    let mut active = 0;
    for (call, outcome) in &search.found {
        active += usize::from(outcome.said.active());
        let other = listed(call, libm);
        let differs = other.is_none_or(|other| difference(outcome, &other).is_some());
        list.differ += usize::from(differs);
        push(&mut list, call, outcome, &std.gains(call));
    }
    list.write(root, "encode", &format!(", {active} with a filter on")) && search.failed == 0
}
