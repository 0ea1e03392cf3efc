//! Calls of both doors that are refused, each refusal alone and with every other,
//! against docs/RULES.md, "Refusal numbers": the output and the states must stay as
//! they were, NaN bits included. Calls that turn out accepted are compared with D, or from
//! states of any bits with the harness's lattice.

use crate::compare::{first_change, first_difference, refusals::Tally};
use crate::document::{refusals::restart, Row, ACCEPTED, ROWS};
use crate::draw::refused::{any, each_alone, together, Input};
use crate::draw::{decoder::any_line, spectra::patterns, Random, SEED};
use crate::original::Build;
use crate::port::{Desk, Door, Numbers};

/// Draws for each set of faults and each row.
const DRAWS: usize = 4;
const ANY: usize = 20_000;

struct Calls<'a> {
    build: &'a Build,
    table: [f32; 17],
    /// For what is lent.
    random: Random,
    tally: Tally,
}

impl Calls<'_> {
    /// A call of each door.
    fn take(&mut self, input: &Input, line: usize, output: usize) {
        for door in [Door::Save, Door::Restart] {
            self.take_by(door, input, line, output);
        }
    }

    fn take_by(&mut self, door: Door, input: &Input, line: usize, output: usize) {
        let Input {
            duration,
            bandwidth,
            filters,
            length,
            ..
        } = *input;
        let (orders, indices) = (&input.orders[..], &input.indices[..]);
        let wanted = match (input.by_table(), Row::of(duration, bandwidth)) {
            (ACCEPTED, Some(row)) => restart(row, line, length, output).unwrap_or(ACCEPTED),
            (refused, _) => refused,
        };
        let spectrum = patterns(&mut self.random, length);
        let before = patterns(&mut self.random, output);
        let states = patterns(&mut self.random, 8);
        let mut desk = Desk::new(&spectrum, &before, &states);
        let numbers = Numbers {
            duration,
            bandwidth,
            filters,
            orders,
            indices,
        };
        let given = desk.ask(door, numbers, line);
        let mut other = first_change(&spectrum, desk.spectrum()).is_some();
        if wanted == ACCEPTED {
            let call = input.call(spectrum).expect("the rules accept it");
            let (from, lines, left) = match door {
                Door::Save => {
                    let states = call.states_before(&self.table, line);
                    (0, self.build.wanted_lines(&call), states)
                }
                Door::Restart => {
                    let states = states[..].try_into().expect("8 states");
                    (line, call.from_line(&self.table, line, &states), states)
                }
            };
            other |= first_change(&before[..from], &desk.output()[..from]).is_some()
                || first_difference(&lines, &desk.output()[from..]).is_some()
                || first_difference(&left, desk.states()).is_some();
        } else {
            other |= first_change(&before, desk.output()).is_some()
                || first_change(&states, desk.states()).is_some();
        }
        let stand = desk.guards_stand();
        self.tally.take((wanted, given), other, stand, || {
            format!("restart: {door:?}: duration {duration} bandwidth {bandwidth} filters {filters} orders {orders:?} indices {indices:?}, {length} lines, n {line}, an output of {output}")
        });
    }
}

/// A line that a row allows, or any if there is no such row.
fn good_line(random: &mut Random, input: &Input) -> usize {
    let row = Row::of(input.duration, input.bandwidth);
    row.map_or(random.below(410), |row| any_line(random, row))
}

/// A line that no row allows, or not this one.
fn bad_line(random: &mut Random, input: &Input) -> usize {
    let good = good_line(random, input);
    let row = Row::of(input.duration, input.bandwidth).unwrap_or(&ROWS[0]);
    match random.below(6) {
        0 => random.below(row.first_start()),
        1 => row.first_start() - 1,
        2 => row.last_stop() + 1,
        3 => row.last_stop() + 1 + random.below(400),
        // The same in its low half.
        4 => good + (1 << 32),
        _ => usize::MAX - random.below(400),
    }
}

/// An output of another length than the spectrum.
fn bad_output(random: &mut Random, input: &Input) -> usize {
    let length = input.length;
    match random.below(4) {
        0 => length + 1,
        1 => length.saturating_sub(1) + 2 * usize::from(length == 0),
        2 if length > 0 => random.below(length),
        _ => length + 1 + random.below(400),
    }
}

/// Every line from 0 to beyond the longest spectrum and some far away, and every
/// length of the output, each alone and once with the other fault.
fn each_new_alone(calls: &mut Calls, random: &mut Random) {
    for row in &ROWS {
        for length in [row.last_stop(), row.longest()] {
            let mut input = Input::good(random, row);
            input.length = length;
            let far = [1 << 31, 1 << 32, 1 << 63, usize::MAX - 1, usize::MAX];
            for line in (0..=row.longest() + 8).chain(far) {
                calls.take(&input, line, length);
                calls.take(&input, line, length + 1);
            }
            for output in 0..=row.longest() + 8 {
                let (good, bad) = (any_line(random, row), bad_line(random, &input));
                calls.take(&input, good, output);
                calls.take(&input, bad, output);
            }
        }
    }
}

pub fn run(build: &Build) -> bool {
    let mut calls = Calls {
        build,
        table: build.decoder_coefficients(),
        random: Random(!SEED),
        tally: Tally::default(),
    };
    let [inputs, more] = &mut [Random(SEED), Random(SEED)];
    each_alone(inputs, |input| {
        calls.take(input, good_line(more, input), input.length);
    });
    each_new_alone(&mut calls, more);
    // Every set of the nine faults: each set of the first seven without the other
    // two, with either and with both.
    together(inputs, DRAWS, |input| {
        for line in [good_line(more, input), bad_line(more, input)] {
            for output in [input.length, bad_output(more, input)] {
                calls.take(input, line, output);
            }
        }
    });
    for _ in 0..ANY {
        let input = any(inputs);
        let other = more.once_in(8);
        let output = if other { more.below(410) } else { input.length };
        calls.take(&input, more.below(410), output);
    }
    let changed = "the output, the states or the spectrum";
    let said = [
        "the documents'",
        changed,
        "what was lent",
        "D or the lattice",
    ];
    calls.tally.print("restart", &[1..=7, 16..=17], said)
}
