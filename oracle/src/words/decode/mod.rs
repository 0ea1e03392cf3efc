//! The word `decode`: D against the port's decoder, line for line and bit by
//! bit, where any NaN equals any other; what D makes of index 0; then the
//! refusals, and what D does with them.

mod index_0;
mod refusals;
mod strange;

use crate::compare::{first_change, first_difference, Differing};
use crate::document::{Decode, ACCEPTED, ROWS};
use crate::draw::{decoder, say_seed, spectra::KINDS, Random, SEED};
use crate::original::{both, Build, D_INDEX_0};
use crate::port::{decode, Lent};

const CALLS: [usize; 2] = [1_200_000, 200_000];

#[derive(Default)]
struct OfRow {
    calls: u64,
    shortest: u64,
    longest: u64,
    /// Filters that acted, by filter and order.
    acted: [[u64; 9]; 2],
}

#[derive(Default)]
struct Tally {
    calls: u64,
    /// Calls with index 0 at a used place.
    with_0: u64,
    differ: Differing,
    not_accepted: u64,
    touched: u64,
    guards: u64,
    moved: u64,
    kinds: [u64; KINDS.len()],
    rows: [OfRow; ROWS.len()],
}

impl Tally {
    fn take(&mut self, build: &Build, call: &Decode) {
        let Decode {
            row, side, lines, ..
        } = call;
        let wanted = build.wanted_lines(call);
        let mut lent = Lent::new(lines);
        let answer = decode(row, side, &mut lent);
        let given = lent.list();
        let length = given.len();
        self.calls += 1;
        self.with_0 += u64::from(call.uses_0());
        self.kinds[call.kind] += 1;
        let of_row = &mut self.rows[row.place()];
        of_row.calls += 1;
        of_row.shortest += u64::from(length == row.last_stop());
        of_row.longest += u64::from(length == row.longest());
        for filter in (0..2).filter(|f| call.acts(*f)) {
            of_row.acted[filter][side.orders[filter]] += 1;
        }
        self.moved += u64::from(first_change(lines, given).is_some());
        self.not_accepted += u64::from(answer != ACCEPTED);
        self.guards += u64::from(!lent.guards_stand());
        self.touched += u64::from(outside_moved(call, given));
        let first = first_difference(&wanted, given);
        self.differ.take(first.is_some(), || {
            let n = first.unwrap_or(0);
            let (build, row, kind) = (build.name, row.name(), KINDS[call.kind]);
            let (filters, orders, indices) = (side.filters, side.orders, side.indices);
            let (wanted, given) = (wanted[n].to_bits(), given[n].to_bits());
            format!("decode: {build}: {row} with {length} lines, {kind}, filters {filters} orders {orders:?} indices {indices:?}: answer {answer:?}; line {n}: D {wanted:08X}, port {given:08X}")
        });
    }

    /// What was called, row by row.
    fn print_rows(&self, name: &str) {
        for (row, of) in ROWS.iter().zip(&self.rows) {
            let (stop, most, row_name) = (row.last_stop(), row.longest(), row.name());
            let (calls, shortest, longest) = (of.calls, of.shortest, of.longest);
            print!("decode: {name}: {row_name}: {calls} calls, {shortest} of {stop} lines, {longest} of {most}; acted with order 1..8:");
            for (filter, acted) in of.acted.iter().enumerate().take(row.bands.len()) {
                print!(" filter {filter} {:?}", &acted[1..]);
            }
            println!();
        }
        let kinds = KINDS.iter().zip(&self.kinds);
        let kinds: Vec<String> = kinds.map(|(kind, n)| format!("{kind} {n}")).collect();
        println!("decode: {name}: spectra: {}", kinds.join(", "));
    }

    fn print(&self, name: &str) -> bool {
        let Tally {
            calls,
            with_0,
            differ: Differing(differ),
            not_accepted,
            touched,
            guards,
            moved,
            ..
        } = self;
        println!("decode: {name}: D against tns_decode: {calls} calls compared, {with_0} of them with index 0 at a used place, which D gets as {D_INDEX_0}, {moved} changed a line; {differ} differ, {not_accepted} not accepted, {touched} changed a line outside the acting bands, {guards} wrote beyond the lines");
        // Index 0 is what D and the port differ in: a quarter of the calls is to
        // use it.
        differ + not_accepted + touched + guards == 0 && 4 * with_0 >= *calls
    }
}

/// Whether a line changed, NaN bits included, that no acting filter has.
fn outside_moved(call: &Decode, given: &[f32]) -> bool {
    let mut kept = vec![true; given.len()];
    for (filter, (start, stop)) in call.row.bands.iter().enumerate() {
        if call.acts(filter) {
            kept[*start..*stop].fill(false);
        }
    }
    (0..given.len()).any(|n| kept[n] && given[n].to_bits() != call.lines[n].to_bits())
}

pub fn run() -> bool {
    say_seed("decode");
    let builds = both();
    let mut good = true;
    for (build, calls) in builds.iter().zip(CALLS) {
        let mut random = Random(SEED);
        let mut tally = Tally::default();
        for n in 0..calls {
            let row = &ROWS[n % ROWS.len()];
            tally.take(build, &decoder::any(&mut random, row));
        }
        if build.name == "std" {
            tally.print_rows(build.name);
        }
        good &= tally.print(build.name);
    }
    good &= index_0::run(&builds);
    good &= refusals::run(&builds[0]);
    strange::run(&builds[0]);
    good
}
