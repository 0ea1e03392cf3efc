//! Calls that the rules refuse, against docs/RULES.md, "Refusal numbers"; lines, side
//! data, coefficients and gains must stay as they were. Calls that turn out accepted
//! are compared with E, and their gains with the rule over E's lags.

use crate::compare::{difference, first_change, gains_difference, refusals::Tally};
use crate::document::{refusals::spectrum, Encode, Row, ACCEPTED, ROWS};
use crate::draw::{over, Random, SEED};
use crate::original::Build;
use crate::port::Loan;

/// Draws for each set of faults and each row.
const DRAWS: usize = 1000;

/// The gains by themselves: refused calls, those that wrote a gain, a damping or a
/// byte of on or off; accepted calls, those that differ from the rule.
#[derive(Default)]
struct OfGains {
    refused: u64,
    changed: u64,
    accepted: u64,
    differ: u64,
}

impl OfGains {
    fn print(&self) -> bool {
        let OfGains {
            refused,
            changed,
            accepted,
            differ,
        } = self;
        println!("encode: refusals: gains: {refused} refused calls, {changed} of them changed a gain, a damping or an on byte; {accepted} accepted ones, {differ} of them differ from the rule over E's lags");
        changed + differ == 0
    }
}

fn take(
    (tally, gains): &mut (Tally, OfGains),
    build: &Build,
    random: &mut Random,
    at: (u8, u8, usize),
) {
    let (duration, bandwidth, length) = at;
    let mut wanted = spectrum(duration, bandwidth, length).unwrap_or(ACCEPTED);
    let accepted = wanted == ACCEPTED;
    // Any bit patterns, so that an untouched NaN is seen to be untouched; noise
    // where the call is accepted.
    let before: Vec<f32> = (0..length)
        .map(|_| match random.pattern() {
            n if accepted => n as i16 as f32,
            n => f32::from_bits(n),
        })
        .collect();
    let (bits, near_nyquist) = (random.below(960) as u64, random.once_in(2));
    let mut loan = Loan::new(&before);
    let given = loan.ask_numbers(duration, bandwidth, bits, near_nyquist);
    let other = match Row::of(duration, bandwidth) {
        Some(row) if accepted => {
            let call = Encode {
                row,
                bits,
                near_nyquist,
                kind: 0,
                lines: before,
            };
            let found = loan.outcome(given.bits);
            let differs = gains_difference(&build.gains(&call), loan.gains(), loan.on());
            gains.accepted += 1;
            gains.differ += u64::from(differs.is_some());
            let asked = build.wanted(&call, build.encoded(&call));
            asked.is_none_or(|(outcome, _)| {
                wanted.bits = outcome.said.bits as u16;
                difference(&outcome, &found).is_some()
            })
        }
        _ => {
            gains.refused += 1;
            gains.changed += u64::from(!loan.gains_untouched());
            !loan.untouched() || first_change(&before, loan.lines()).is_some()
        }
    };
    tally.take((wanted, given), other, loan.guards_stand(), || {
        format!("encode: duration {duration} bandwidth {bandwidth}, {length} lines")
    });
}

pub fn run(build: &Build) -> bool {
    let random = &mut Random(!SEED);
    let mut tallies = <(Tally, OfGains)>::default();
    for row in &ROWS {
        let (duration, bandwidth) = (row.duration, row.bandwidth);
        // Each alone: every number and every length.
        for n in 0..=255 {
            take(&mut tallies, build, random, (n, bandwidth, row.longest()));
            take(&mut tallies, build, random, (duration, n, row.longest()));
        }
        for length in 0..=row.longest() + 8 {
            take(&mut tallies, build, random, (duration, bandwidth, length));
        }
        // Every set of the three faults.
        for faults in 0..8 {
            for _ in 0..DRAWS {
                let mut at = (duration, bandwidth, row.longest());
                if faults & 1 != 0 {
                    at.0 = over(random, 1);
                }
                if faults & 2 != 0 {
                    at.1 = over(random, 4);
                }
                if faults & 4 != 0 {
                    at.2 = [
                        row.last_stop() - 1,
                        row.longest() + 1,
                        random.below(row.last_stop()),
                        row.longest() + 1 + random.below(600),
                        0,
                    ][random.below(5)];
                }
                take(&mut tallies, build, random, at);
            }
        }
    }
    let changed = "a line, side byte or coefficient";
    let said = ["document 01's", changed, "what was lent", "E"];
    let (tally, gains) = tallies;
    let good = tally.print("encode", &[1..=3], said);
    gains.print() && good
}
