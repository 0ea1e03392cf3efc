//! Restarts from any eight states, NaN and infinities among them. D begins with
//! states of 0, so the lines are compared with those of the harness's lattice, which
//! the word compares with D's.

use crate::compare::{first_change, first_difference, Differing};
use crate::document::{Decode, ACCEPTED, ROWS};
use crate::draw::spectra::{fill, patterns, KINDS};
use crate::draw::{decoder, Random, SEED};
use crate::original::Build;
use crate::port::{Desk, Door, Numbers};

const CALLS: usize = 100_000;

#[derive(Default)]
struct Tally {
    /// Calls with a NaN among the states, and with an infinity.
    nan: u64,
    infinite: u64,
    /// Calls whose lines would be others from states of 0.
    carried: u64,
    differ: Differing,
    wrote: u64,
}

impl Tally {
    fn take(&mut self, random: &mut Random, call: &Decode, line: usize, table: &[f32; 17]) {
        // The kinds of spectra are kinds of states too.
        let kind = random.below(KINDS.len());
        let mut states = [0.0; 8];
        fill(kind, random, &mut states);
        let before = patterns(random, call.lines.len());
        let mut desk = Desk::new(&call.lines, &before, &states);
        let record = call.side.record();
        let answer = desk.ask(Door::Restart, Numbers::of(call.row, &record), line);
        let wanted = call.from_line(table, line, &states);
        let (below, given) = desk.output().split_at(line);
        let zeros = call.from_line(table, line, &[0.0; 8]);
        self.nan += u64::from(states.iter().any(|x| x.is_nan()));
        self.infinite += u64::from(states.iter().any(|x| x.is_infinite()));
        self.carried += u64::from(first_difference(&zeros, &wanted).is_some());
        let stand = first_change(&before[..line], below).is_none()
            && first_change(&call.lines, desk.spectrum()).is_none()
            && first_change(&states, desk.states()).is_none();
        self.wrote += u64::from(!stand || !desk.guards_stand());
        let first = first_difference(&wanted, given);
        self.differ.take(answer != ACCEPTED || first.is_some(), || {
            let (row, kind, states) = (call.row.name(), KINDS[kind], states.map(f32::to_bits));
            let at = first.map_or("no line".to_string(), |n| format!("line {}", line + n));
            format!("restart: any states: {row}, {:?}, n {line}, states of kind {kind} {states:08X?}: answer {answer:?}, {at} differs", call.side)
        });
    }
}

pub fn run(build: &Build) -> bool {
    let random = &mut Random(SEED);
    let table = build.decoder_coefficients();
    let mut tally = Tally::default();
    for n in 0..CALLS {
        let call = decoder::any_with_0(random, &ROWS[n % ROWS.len()]);
        let line = decoder::any_line(random, call.row);
        tally.take(random, &call, line, &table);
    }
    let Tally {
        nan,
        infinite,
        carried,
        differ: Differing(differ),
        wrote,
    } = tally;
    println!("restart: any states: {CALLS} calls of tns_decode_restart, {nan} with a NaN among the states, {infinite} with an infinity; the lines of {carried} would be others from states of 0; {differ} differ from the harness's lattice, {wrote} changed a line below n, the spectrum, the states or what lies beyond");
    differ + wrote == 0 && 4 * carried >= CALLS as u64
}
