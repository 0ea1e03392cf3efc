//! The word `encode`: E against the port's encoder in every field and line, bit
//! by bit, where any NaN equals any other; the gains of every frame against the
//! rules; then the refusals. The two intended differences between docs/RULES.md and
//! E are counted by themselves.

mod asked;
mod gains;
mod refusals;
mod sizes;

use crate::compare::{difference, first_difference, Differing};
use crate::document::{Encode, Outcome, ROWS};
use crate::draw::encoder::{self, draw, draw_any, GAIN_DAMPED, GAIN_ON, KINDS, THRESHOLD};
use crate::draw::{say_seed, steer::is_threshold, Random, SEED};
use crate::original::{both, Build, How};
use crate::words::encode::asked::Asked;
use std::collections::BTreeMap;

const DRAWS: usize = 250_000;
/// The sizes of coefficients at which the two builds differ (docs/DIFFERENCES.md).
const LISTED: [u32; 2] = [0x3DBC_F730, 0x3F1A_4643];

#[derive(Default)]
struct OfRow {
    frames: u64,
    active: u64,
    lengths: BTreeMap<usize, u64>,
    other_lengths: u64,
    /// By filter and order.
    orders: [[u64; 9]; 2],
}

#[derive(Default)]
struct Tally {
    frames: u64,
    asked: Asked,
    gains: gains::Tally,
    unknown_panics: u64,
    run_on: u64,
    at_one: [u64; 2],
    /// Frames in which the harness's lattice is not E's.
    rule_differs: u64,
    builds_differ: u64,
    builds_differ_elsewhere: u64,
    rows: [OfRow; ROWS.len()],
    /// By kind: frames, frames with an active filter.
    kinds: [[u64; 2]; KINDS],
    /// Gains below, at and above the limit, at most 8 f32s away: 1.5, 2.
    near_limit: [[u64; 3]; 2],
    at_threshold: u64,
}

impl Tally {
    fn take(&mut self, builds: &[Build; 2], call: &Encode) {
        self.frames += 1;
        let build = &builds[0];
        let asked = build.encoded(call);
        self.compare_builds(builds, call, &asked);
        let Some((wanted, how)) = build.wanted(call, asked) else {
            self.unknown_panics += 1;
            return;
        };
        let kind = encoder::name(call.kind);
        let loan = self.asked.ask(call, &wanted, kind);
        self.gains.take(build, call, &loan, kind);
        self.count(build, call, &wanted, how);
    }

    /// The libm build against the std build, and whether a coefficient at which
    /// they are known to differ is the cause.
    fn compare_builds(&mut self, builds: &[Build; 2], call: &Encode, asked: &Option<Outcome>) {
        let differ = match (asked, builds[1].encoded(call)) {
            (Some(a), Some(b)) => difference(a, &b).is_some(),
            (a, b) => a.is_some() != b.is_some(),
        };
        if !differ {
            return;
        }
        self.builds_differ += 1;
        let [a, b] = [0, 1].map(|n| builds[n].reflections(call));
        let listed = a.iter().any(|x| LISTED.contains(&x.abs().to_bits()));
        if !listed || first_difference(&a, &b).is_some() {
            self.builds_differ_elsewhere += 1;
        }
    }

    fn count(&mut self, build: &Build, call: &Encode, wanted: &Outcome, how: How) {
        let row = call.row;
        let active = wanted.said.active();
        let of_row = &mut self.rows[row.place()];
        of_row.frames += 1;
        of_row.active += u64::from(active);
        let length = call.lines.len();
        if row.offered().contains(&length) {
            *of_row.lengths.entry(length).or_default() += 1;
        } else {
            of_row.other_lengths += 1;
        }
        for (counts, order) in of_row.orders.iter_mut().zip(wanted.said.side.orders) {
            counts[order] += 1;
        }
        self.kinds[call.kind][0] += 1;
        self.kinds[call.kind][1] += u64::from(active);
        match how {
            How::RunOn => self.run_on += 1,
            How::AtOne => {
                let reflections = build.reflections(call);
                self.at_one[0] += u64::from(reflections.contains(&1.0));
                self.at_one[1] += u64::from(reflections.contains(&-1.0));
            }
            How::Original if active => {
                let lines = wanted.said.filters(row).filtered(&call.lines);
                let differs = first_difference(&lines, &wanted.lines).is_some();
                self.rule_differs += u64::from(differs);
            }
            How::Original => {}
        }
        for (kind, limit, near) in [(GAIN_ON, 1.5f32, 0), (GAIN_DAMPED, 2.0, 1)] {
            if call.kind == kind {
                for filter in 0..row.bands.len() {
                    let away = build.gain(call, filter).to_bits() as i64 - limit.to_bits() as i64;
                    if away.abs() <= 8 {
                        self.near_limit[near][(away.signum() + 1) as usize] += 1;
                    }
                }
            }
        }
        if call.kind == THRESHOLD {
            let reflections = build.reflections(call);
            let at = reflections.iter().any(|x| is_threshold(*x));
            self.at_threshold += u64::from(at);
        }
    }

    fn print(&self) -> bool {
        for (row, of) in ROWS.iter().zip(&self.rows) {
            let (name, frames, active) = (row.name(), of.frames, of.active);
            let lengths = of
                .lengths
                .iter()
                .map(|(n, count)| format!("{count} of {n} lines, "));
            let (lengths, others): (String, u64) = (lengths.collect(), of.other_lengths);
            print!("encode: {name}: {frames} frames ({lengths}{others} of other lengths), {active} with a filter on; orders 0..8:");
            for (filter, counts) in of.orders.iter().enumerate().take(row.bands.len()) {
                print!(" filter {filter} {counts:?}");
            }
            println!();
        }
        let kinds = self
            .kinds
            .iter()
            .enumerate()
            .map(|(kind, [frames, active])| {
                let name = encoder::name(kind);
                format!("{name} {frames} ({active})")
            });
        let kinds = kinds.collect::<Vec<_>>().join(", ");
        println!("encode: frames by kind (with a filter on): {kinds}");
        let Tally {
            frames,
            asked:
                Asked {
                    differ: Differing(differ),
                    guards,
                },
            unknown_panics,
            run_on,
            at_one: [one, minus_one],
            rule_differs,
            builds_differ,
            builds_differ_elsewhere,
            near_limit: [on, damped],
            at_threshold,
            ..
        } = self;
        println!("encode: gains at most 8 f32s from the limit, below, at and above it: 1.5 {on:?}, 2 {damped:?}; frames with a coefficient exactly at a threshold: {at_threshold}");
        println!("encode: 10 ms bandwidth 2 with the filter on: {run_on} frames, lines below 200 compared with E, lines 200 to 239 with its lattice run on; that lattice differs from E in {rule_differs} frames of the other rows");
        println!("encode: coefficient exactly 1 or -1, E panics, compared with document 01: {one} frames with 1, {minus_one} with -1; other panics of E {unknown_panics}");
        println!("encode: libm differs from std in {builds_differ} frames, {builds_differ_elsewhere} of them without a coefficient of 3DBCF730 or 3F1A4643 in size");
        let active: u64 = self.rows.iter().map(|row| row.active).sum();
        println!("encode: E (std) against tns_encode: {frames} frames compared, {active} with a filter on; {differ} differ, {guards} wrote beyond what was lent");
        differ + guards + unknown_panics + rule_differs + builds_differ_elsewhere == 0
    }
}

/// Every length that E's configuration offers, both flags, every bit number
/// around the limit, every kind that is not steered.
fn systematic(tally: &mut Tally, builds: &[Build; 2], random: &mut Random) {
    for row in &ROWS {
        let around = row.limit() - 2..=row.limit() + 2;
        for length in row.offered() {
            for bits in around.clone().chain([0, u64::MAX]) {
                for kind in (0..KINDS).filter(|k| encoder::limit(*k).is_none()) {
                    draw(random, &builds[0], row, kind, length, |call| {
                        for near_nyquist in [false, true] {
                            let call = Encode {
                                bits,
                                near_nyquist,
                                ..call.clone()
                            };
                            tally.take(builds, &call);
                        }
                    });
                }
            }
        }
    }
}

pub fn run() -> bool {
    say_seed("encode");
    let builds = both();
    let mut random = Random(SEED);
    let mut tally = Tally::default();
    systematic(&mut tally, &builds, &mut random);
    for n in 0..DRAWS {
        let row = &ROWS[n % ROWS.len()];
        let take = |call: &Encode| tally.take(&builds, call);
        draw_any(&mut random, &builds[0], row, take);
    }
    let mut good = tally.print();
    good &= sizes::run(&builds[0], &mut tally.gains);
    good &= tally.gains.print();
    refusals::run(&builds[0]) && good
}
