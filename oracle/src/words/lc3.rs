//! The word `lc3`: the port against liblc3, an independent LC3 codec in C. Its
//! analysis arranges float operations in its own way, so what differs there is
//! counted and nothing is demanded; it is asked for ordinary spectra. Its
//! decoder does the same operations on finite numbers, and must leave the same
//! lines.

use crate::compare::{first_difference, Differing};
use crate::document::{Decode, Encode, Row, Side, ROWS};
use crate::draw::encoder::{draw, ACTIVE, GAIN_DAMPED, GAIN_ON, THRESHOLD};
use crate::draw::{any_side, decoder, spectra::KINDS, Random, SEED};
use crate::liblc3::{analyze, nbits, synthesize, Data};
use crate::original::{both, Build};
use crate::port::{decode, Lent, Loan};

const FRAMES: usize = 200_000;
/// Draws steered to a limit of the analysis; each gives several frames.
const STEERED: usize = 3_000;
const COSTS: usize = 1_000_000;
/// Decoder calls on all kinds of spectra.
const DECODED: usize = 1_600_000;

/// The largest difference of two lists of lines, by the largest line.
fn apart(a: &[f32], b: &[f32]) -> f64 {
    let most = |sizes: &mut dyn Iterator<Item = f64>| sizes.fold(0.0f64, f64::max);
    let largest = most(&mut a.iter().map(|x| f64::from(x.abs())));
    let pairs = a.iter().zip(b);
    let difference = most(&mut pairs.map(|(x, y)| (f64::from(*x) - f64::from(*y)).abs()));
    difference / if largest == 0.0 { 1.0 } else { largest }
}

#[derive(Clone, Copy, Default)]
struct Tally {
    frames: u64,
    active: u64,
    /// Where the side data differ: weighting or filter count, on or off,
    /// orders, indices.
    heads: u64,
    on_off: u64,
    orders: u64,
    indices: u64,
    /// Where the side data agree.
    bits: u64,
    identical: u64,
    apart: f64,
    /// Frames left out, and how many of them differ in the side data.
    underflow: [u64; 2],
}

impl Tally {
    fn encoder(&mut self, call: &Encode) {
        let row = call.row;
        let mut loan = Loan::new(&call.lines);
        let answer = loan.ask(call);
        let mut lines = call.lines.clone();
        let data = analyze(row, call.near_nyquist, call.bits as usize / 8, &mut lines);
        let (theirs, ours) = (data.side().record(), loan.side());
        if product_underflows(row, &call.lines) {
            self.underflow[0] += 1;
            self.underflow[1] += u64::from(*ours != theirs);
            return;
        }
        self.frames += 1;
        self.active += u64::from(ours[2] + ours[3] > 0);
        if ours[..2] != theirs[..2] {
            self.heads += 1;
        } else if (ours[2] > 0, ours[3] > 0) != (theirs[2] > 0, theirs[3] > 0) {
            self.on_off += 1;
        } else if ours[2..4] != theirs[2..4] {
            self.orders += 1;
        } else if *ours != theirs {
            self.indices += 1;
        } else {
            self.bits += u64::from(nbits(&data) != answer.bits as usize);
            self.compare(&lines, loan.lines());
        }
    }

    fn print_encoder(&self, what: &str) {
        let Tally {
            frames,
            active,
            heads,
            on_off,
            orders,
            indices,
            bits,
            identical,
            apart,
            underflow: [left_out, differ],
        } = self;
        println!("lc3: encoder: {what}: {frames} frames, {active} with a filter on; side data differ: weighting or filters {heads}, on or off {on_off}, orders {orders}, indices {indices}; where they agree bits differ in {bits}, lines are the same in {identical} and at most {apart:.1e} of the largest line apart; left out, energies' product underflows: {left_out}, {differ} of them differ");
    }

    fn compare(&mut self, theirs: &[f32], ours: &[f32]) {
        self.apart = self.apart.max(apart(ours, theirs));
        self.identical += u64::from(first_difference(ours, theirs).is_none());
    }

    fn decoder(&mut self, random: &mut Random, row: &Row, lines: &[f32]) {
        let side = any_side(random, row.bands.len());
        let mut lent = Lent::new(lines);
        decode(row, &side, &mut lent);
        let mut theirs = lines.to_vec();
        synthesize(row, &Data::of(&side), &mut theirs);
        self.frames += 1;
        self.active += u64::from(side.orders[..side.filters].iter().any(|n| *n > 0));
        self.compare(&theirs, lent.list());
    }
}

/// Side data as liblc3's decoder goes by them: it has a filter for each band,
/// whatever the count, and one that does not act has order 0.
fn by_band(call: &Decode) -> Side {
    let mut side = call.side.clone();
    side.filters = call.row.bands.len();
    for filter in (0..2).filter(|f| !call.acts(*f)) {
        side.orders[filter] = 0;
    }
    side
}

/// The decoder on all kinds of spectra. liblc3 makes NaN of some infinities and 0
/// of some -0, as stages beyond the order with coefficients 0 would. So lines are
/// the same if their numbers are, and calls in which it meets or leaves a line
/// that is not finite are left out. Whether all other lines are the same, with
/// index 0 used in a quarter of the calls.
fn decoded() -> bool {
    let random = &mut Random(SEED);
    let finite = |lines: &[f32]| lines.iter().all(|x| x.is_finite());
    let (mut calls, mut with_0) = (0, 0);
    let mut differ = Differing::default();
    for n in 0..DECODED {
        let call = decoder::any_with_0(random, &ROWS[n % ROWS.len()]);
        let Decode {
            row, side, lines, ..
        } = &call;
        let mut theirs = lines.clone();
        synthesize(row, &Data::of(&by_band(&call)), &mut theirs);
        if !finite(lines) || !finite(&theirs) {
            continue;
        }
        let mut lent = Lent::new(lines);
        decode(row, side, &mut lent);
        calls += 1;
        with_0 += usize::from(call.uses_0());
        let mut pairs = theirs.iter().zip(lent.list());
        let first = pairs.position(|(x, y)| x != y);
        differ.take(first.is_some(), || {
            let n = first.unwrap_or(0);
            let (theirs, ours) = (theirs[n].to_bits(), lent.list()[n].to_bits());
            let (name, kind) = (row.name(), KINDS[call.kind]);
            format!("lc3: decoder: {name}, {kind}, {side:?}: line {n}: liblc3 {theirs:08X}, port {ours:08X}")
        });
    }
    let Differing(differ) = differ;
    let left_out = DECODED - calls;
    println!("lc3: decoder: all kinds of spectra: {calls} calls compared, {with_0} of them with index 0 at a used place; {differ} differ; left out, a line is not finite: {left_out}");
    differ == 0 && 4 * with_0 >= calls
}

/// Whether a band's three energies multiply to 0 in f32 though none is 0: there
/// docs/RULES.md, "Analysis", turns the filter off, and liblc3 looks at each energy.
fn product_underflows(row: &Row, lines: &[f32]) -> bool {
    (0..row.bands.len()).any(|band| {
        let energies = row
            .subbands(band)
            .map(|(start, stop)| lines[start..stop].iter().map(|x| x * x).sum::<f32>());
        energies.iter().product::<f32>() == 0.0 && !energies.contains(&0.0)
    })
}

/// Whether liblc3's side data have the assumed shape: silence, both weightings.
fn probe() -> bool {
    let mut good = true;
    for row in &ROWS {
        for (nbytes, weighting) in [(20, true), (200, false)] {
            let data = analyze(row, false, nbytes, &mut [0.0; 400]);
            let found = (data.nfilters as usize, data.lpc_weighting, data.rc_order);
            if found != (row.bands.len(), weighting, [0, 0]) {
                println!("lc3: {}: side data {found:?} for silence", row.name());
                good = false;
            }
        }
    }
    good
}

/// liblc3's bits against E's, for random side data.
fn costs(build: &Build) {
    let random = &mut Random(SEED);
    let mut differ = 0;
    for _ in 0..COSTS {
        let filters = 1 + random.below(2);
        let side = any_side(random, filters);
        differ += usize::from(nbits(&Data::of(&side)) != build.bits(&side));
    }
    println!("lc3: bits of {COSTS} random side data: liblc3 differs from E in {differ}");
}

/// Draws calls of one of the kinds for a row, with a bit number in whole bytes.
fn calls(random: &mut Random, build: &Build, n: usize, kinds: &[usize]) -> Vec<Encode> {
    let row = &ROWS[n % ROWS.len()];
    let kind = random.one_of(kinds);
    let length = random.one_of(&row.offered());
    let bits = 8 * (20 + random.below(100) as u64);
    let mut calls = Vec::new();
    draw(random, build, row, kind, length, |call| {
        calls.push(Encode {
            bits,
            ..call.clone()
        });
    });
    calls
}

pub fn run() -> bool {
    if !probe() {
        println!("lc3: NOT COMPARED: this liblc3 has side data of another shape");
        return false;
    }
    let [build, _] = both();
    costs(&build);
    let random = &mut Random(SEED);
    let mut encoder = [Tally::default(); ROWS.len()];
    let mut decoder = [Tally::default(); ROWS.len()];
    // White noise, tones, speech, autoregressive; and those that turn filters on.
    let ordinary = [&[0, 1, 2, 3], &ACTIVE[..]].concat();
    for n in 0..FRAMES {
        for call in calls(random, &build, n, &ordinary) {
            let place = call.row.place();
            encoder[place].encoder(&call);
            decoder[place].decoder(random, call.row, &call.lines);
        }
    }
    for (row, tally) in ROWS.iter().zip(&encoder) {
        tally.print_encoder(&row.name());
    }
    let mut limits = Tally::default();
    for n in 0..STEERED {
        let kinds = [GAIN_ON, GAIN_DAMPED, THRESHOLD];
        for call in calls(random, &build, n, &kinds) {
            limits.encoder(&call);
        }
    }
    limits.print_encoder("steered to the limits of gain and index, all rows");
    for (row, tally) in ROWS.iter().zip(&decoder) {
        let (name, frames, active) = (row.name(), tally.frames, tally.active);
        let (identical, apart) = (tally.identical, tally.apart);
        println!("lc3: decoder: {name}: {frames} frames, {active} with a filter acting; lines are the same in {identical} and at most {apart:.1e} of the largest line apart");
    }
    decoder.iter().all(|tally| tally.identical == tally.frames) & decoded()
}
