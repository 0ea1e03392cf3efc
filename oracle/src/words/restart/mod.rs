//! The word `restart` (docs/RULES.md, "Restart at a line (C-22)"): the port saves a
//! frame before a line n, the frame is mended from n on, and the port decodes it again
//! from n. D decodes both frames whole. Then restarts from any states, and the refusals.

mod any_states;
mod refusals;

use crate::compare::{first_change, first_difference, Differing};
use crate::document::{Decode, Mended, ACCEPTED, ROWS};
use crate::draw::spectra::{patterns, KINDS};
use crate::draw::{decoder, say_seed, Random, SEED};
use crate::original::{both, Build, D_INDEX_0};
use crate::port::{Desk, Door, Numbers};

const FRAMES: [usize; 2] = [240_000, 60_000];

#[derive(Default)]
struct OfRow {
    frames: u64,
    /// By where n is: at the first start, inside the first band, at the second
    /// band's start, inside it, at the last stop.
    places: [u64; 5],
    /// Mended filters that act from n on, by filter and order.
    acted: [[u64; 9]; 2],
}

#[derive(Default)]
struct Tally {
    frames: u64,
    /// Mended frames with index 0 at a used place.
    with_0: u64,
    /// Frames whose lines from n on are others once they are mended.
    mended: u64,
    /// Mended frames whose lines from n on would be others without the states.
    carried: u64,
    /// Frames with n at the second band's start and another second filter: all,
    /// and those whose lines would be others without the states.
    second: [u64; 2],
    save_differs: Differing,
    states_differ: Differing,
    restart_differs: Differing,
    not_accepted: u64,
    below: u64,
    touched: u64,
    lent: u64,
    guards: u64,
    /// Frames of which the harness's lattice makes other lines than D.
    rule_differs: u64,
    kinds: [u64; KINDS.len()],
    rows: [OfRow; ROWS.len()],
}

struct Frames<'a> {
    build: &'a Build,
    /// The coefficient of each index.
    table: [f32; 17],
    /// For what is lent.
    random: Random,
    tally: Tally,
}

impl Frames<'_> {
    fn take(&mut self, frame: &Mended) {
        assert!(frame.agree(), "the drawn frames do not agree below n");
        let Mended { old, new, line } = frame;
        let [was, wanted] = [old, new].map(|call| self.build.wanted_lines(call));
        let states = self.save(old, *line, &was);
        self.restart(new, *line, &states, &wanted);
        self.count(frame, &was, &wanted);
    }

    /// Saves the old frame, of which D makes these lines; the states that the port
    /// gives.
    fn save(&mut self, old: &Decode, line: usize, wanted: &[f32]) -> [f32; 8] {
        let before = patterns(&mut self.random, old.lines.len());
        let lent = patterns(&mut self.random, 8);
        let mut desk = Desk::new(&old.lines, &before, &lent);
        let record = old.side.record();
        let answer = desk.ask(Door::Save, Numbers::of(old.row, &record), line);
        let (output, given) = (desk.output(), desk.states());
        let tally = &mut self.tally;
        tally.not_accepted += u64::from(answer != ACCEPTED);
        tally.guards += u64::from(!desk.guards_stand());
        tally.lent += u64::from(first_change(&old.lines, desk.spectrum()).is_some());
        tally.touched += u64::from(other_copy(old, 0, output));
        let first = first_difference(wanted, output);
        tally.save_differs.take(first.is_some(), || {
            let (n, told) = (first.unwrap_or(0), told(self.build, old, line));
            let (wanted, given) = (wanted[n].to_bits(), output[n].to_bits());
            format!("{told}: save: answer {answer:?}; line {n}: D {wanted:08X}, port {given:08X}")
        });
        // D does not show its states. The harness's lattice does, and its lines are
        // compared with D's.
        let states = old.states_before(&self.table, line);
        let first = first_difference(&states, given);
        tally.states_differ.take(first.is_some(), || {
            let (k, told) = (first.unwrap_or(0), told(self.build, old, line));
            let (wanted, given) = (states[k].to_bits(), given[k].to_bits());
            format!("{told}: save: answer {answer:?}; state {k}: lattice {wanted:08X}, port {given:08X}")
        });
        let whole = old.from_line(&self.table, 0, &[0.0; 8]);
        tally.rule_differs += u64::from(first_difference(wanted, &whole).is_some());
        given.try_into().expect("8 states")
    }

    /// Decodes the new frame from a line on; D makes these lines of it whole.
    fn restart(&mut self, new: &Decode, line: usize, states: &[f32; 8], wanted: &[f32]) {
        let before = patterns(&mut self.random, new.lines.len());
        let mut desk = Desk::new(&new.lines, &before, states);
        let record = new.side.record();
        let answer = desk.ask(Door::Restart, Numbers::of(new.row, &record), line);
        let output = desk.output();
        let tally = &mut self.tally;
        tally.not_accepted += u64::from(answer != ACCEPTED);
        tally.guards += u64::from(!desk.guards_stand());
        let changed = |before, now| first_change(before, now).is_some();
        let lent = changed(&new.lines, desk.spectrum()) || changed(states, desk.states());
        tally.lent += u64::from(lent);
        tally.below += u64::from(changed(&before[..line], &output[..line]));
        tally.touched += u64::from(other_copy(new, line, output));
        let first = first_difference(&wanted[line..], &output[line..]);
        tally.restart_differs.take(first.is_some(), || {
            let (n, told) = (line + first.unwrap_or(0), told(self.build, new, line));
            let (wanted, given) = (wanted[n].to_bits(), output[n].to_bits());
            format!(
                "{told}: restart: answer {answer:?}; line {n}: D {wanted:08X}, port {given:08X}"
            )
        });
    }

    /// Counts what a pair of frames is a test of.
    fn count(&mut self, frame: &Mended, was: &[f32], wanted: &[f32]) {
        let Mended { old, new, line } = frame;
        let (row, tally) = (new.row, &mut self.tally);
        tally.frames += 1;
        tally.with_0 += u64::from(new.uses_0());
        tally.kinds[new.kind] += 1;
        let others = |lines: &[f32]| first_difference(lines, &wanted[*line..]).is_some();
        let carried = others(&new.from_line(&self.table, *line, &[0.0; 8]));
        tally.mended += u64::from(others(&was[*line..]));
        tally.carried += u64::from(carried);
        let second = frame.at_second() && new.acting(1) != old.acting(1);
        tally.second[0] += u64::from(second);
        tally.second[1] += u64::from(second && carried);
        let (first_start, first_stop) = row.bands[0];
        let place = match *line {
            n if n == first_start => 0,
            n if n == row.last_stop() => 4,
            n if n < first_stop => 1,
            n if n == first_stop => 2,
            _ => 3,
        };
        let of_row = &mut tally.rows[row.place()];
        of_row.frames += 1;
        of_row.places[place] += 1;
        for (filter, (_, stop)) in row.bands.iter().enumerate() {
            if new.acts(filter) && line < stop {
                of_row.acted[filter][new.side.orders[filter]] += 1;
            }
        }
    }
}

/// Whether a line of the output, from a line on, that no acting filter has is not
/// the spectrum's, NaN bits included.
fn other_copy(call: &Decode, line: usize, output: &[f32]) -> bool {
    let mut copied = vec![true; output.len()];
    for (filter, (start, stop)) in call.row.bands.iter().enumerate() {
        if call.acts(filter) {
            copied[*start..*stop].fill(false);
        }
    }
    let mut lines = (line..output.len()).filter(|n| copied[*n]);
    lines.any(|n| output[n].to_bits() != call.lines[n].to_bits())
}

/// A frame in words.
fn told(build: &Build, call: &Decode, line: usize) -> String {
    let (build, row, kind) = (build.name, call.row.name(), KINDS[call.kind]);
    let (length, side) = (call.lines.len(), &call.side);
    let (filters, orders, indices) = (side.filters, side.orders, side.indices);
    format!("restart: {build}: {row} with {length} lines, {kind}, filters {filters} orders {orders:?} indices {indices:?}, n {line}")
}

impl Tally {
    /// What was called, row by row.
    fn print_rows(&self, name: &str) {
        for (row, of) in ROWS.iter().zip(&self.rows) {
            let (row_name, frames, last) = (row.name(), of.frames, row.last_stop());
            print!("restart: {name}: {row_name}: {frames} frames; n");
            for ((start, stop), counts) in row.bands.iter().zip(of.places.chunks(2)) {
                let (above, below) = (start + 1, stop - 1);
                print!(" {start}: {}, {above}..{below}: {},", counts[0], counts[1]);
            }
            let at_last = of.places[4];
            print!(" {last}: {at_last}; filters of the mended frame with order 1..8, from n on:");
            for (filter, acted) in of.acted.iter().enumerate().take(row.bands.len()) {
                print!(" filter {filter} {:?}", &acted[1..]);
            }
            println!();
        }
        let kinds = KINDS.iter().zip(&self.kinds);
        let kinds: Vec<String> = kinds.map(|(kind, n)| format!("{kind} {n}")).collect();
        println!("restart: {name}: spectra from n on: {}", kinds.join(", "));
    }

    fn print(&self, name: &str) -> bool {
        let Tally {
            frames,
            with_0,
            mended,
            carried,
            second: [second, second_carried],
            save_differs: Differing(save_differs),
            states_differ: Differing(states_differ),
            restart_differs: Differing(restart_differs),
            not_accepted,
            below,
            touched,
            lent,
            guards,
            rule_differs,
            ..
        } = self;
        println!("restart: {name}: {frames} frames mended from n on; the mended lines of {mended} are others, those of {carried} would be without the states; {second} have n at the second band's start and another second filter, and the lines of {second_carried} of these would be others without the states; {with_0} have index 0 at a used place, which D gets as {D_INDEX_0}");
        println!("restart: {name}: D against tns_decode_save: {frames} frames compared; {save_differs} differ; the states before n differ from the harness's in {states_differ}, whose lattice differs from D in {rule_differs}");
        println!("restart: {name}: D against tns_decode_restart: {frames} mended frames compared from n on; {restart_differs} differ, {below} changed a line below n");
        println!("restart: {name}: both: {not_accepted} not accepted, {touched} changed a line outside the acting bands, {lent} changed the spectrum or the states lent to restart, {guards} wrote beyond what was lent");
        let differ = save_differs + states_differ + restart_differs + rule_differs;
        let wrote = below + touched + lent + guards;
        // The frames are to put it to the test: mended lines that are others,
        // states that matter, and both at the second band's start.
        let tried = 2 * mended >= *frames && 4 * carried >= *frames;
        let tried = tried && 40 * second >= *frames && 80 * second_carried >= *frames;
        differ + wrote + not_accepted == 0 && tried
    }
}

pub fn run() -> bool {
    say_seed("restart");
    let builds = both();
    let mut good = true;
    for (build, count) in builds.iter().zip(FRAMES) {
        let mut frames = Frames {
            build,
            table: build.decoder_coefficients(),
            random: Random(!SEED),
            tally: Tally::default(),
        };
        let random = &mut Random(SEED);
        for n in 0..count {
            frames.take(&decoder::mended(random, &ROWS[n % ROWS.len()]));
        }
        if build.name == "std" {
            frames.tally.print_rows(build.name);
        }
        good &= frames.tally.print(build.name);
    }
    good &= any_states::run(&builds[0]);
    good &= refusals::run(&builds[0]);
    good
}
