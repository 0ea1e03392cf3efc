//! Gain, damping and on or off of each filter (docs/RULES.md, "Gains (C-18)"). E gives
//! none of them out, so the port is compared with the rules: over E's own lags, and
//! over the rules' own. What E does give is its reflection coefficients: they must be
//! those that follow from the rules' damping and on or off.

use crate::compare::{first_difference, gains_difference, Differing};
use crate::document::analysis::{lags, Analysis, FilterGain};
use crate::document::{Encode, Gains, WhyOff};
use crate::draw::two;
use crate::original::Build;
use crate::port::Loan;

/// So many frames are to be compared at least, and so many of each thing that a frame
/// can have.
const FRAMES: u64 = 200_000;
const ENOUGH: u64 = 5_000;

/// The lines that are counted by themselves.
const STRAYS: [&str; 4] = ["subnormal", "2^64 or more in size", "infinite", "NaN"];
const SUBNORMAL: usize = 0;

/// What a line is among these.
fn stray(line: f32) -> Option<usize> {
    match line {
        _ if line.is_nan() => Some(3),
        _ if line.is_infinite() => Some(2),
        _ if line.abs() >= two(64) => Some(1),
        _ if line.is_subnormal() => Some(SUBNORMAL),
        _ => None,
    }
}

/// Frames and bands with such a line in a band.
#[derive(Clone, Copy, Default)]
struct OfStray {
    frames: u64,
    bands: u64,
    /// Of the bands, those whose filter is on, and those whose gain is a number.
    on: u64,
    numbers: u64,
}

#[derive(Default)]
pub struct Tally {
    frames: u64,
    /// From the rules over E's lags, and over the rules' own.
    differ: [Differing; 2],
    on: u64,
    damped: u64,
    /// Filters that are on and have order 0, and those that are off and have another.
    on_of_order_0: u64,
    off_of_order: u64,
    /// By reason, in the order of the reasons.
    off: [u64; 4],
    /// The least and the largest finite gain.
    finite: Option<(f32, f32)>,
    infinite: u64,
    zero: u64,
    negative: u64,
    /// Filters whose recursion leaves an error of 0: the gain is lag 0.
    no_error: u64,
    strays: [OfStray; STRAYS.len()],
    /// Filters whose reflection coefficients are not E's.
    reflections: Differing,
    /// Filters that are on though all of E's coefficients are 0.
    on_at_zero: u64,
    /// Damped filters that would have other coefficients without damping.
    would_differ: u64,
}

impl Tally {
    /// A call that was asked with what is lent here and accepted.
    pub fn take(&mut self, build: &Build, call: &Encode, loan: &Loan, kind: &str) {
        self.frames += 1;
        let analyses: Vec<Analysis> = (0..call.row.bands.len())
            .map(|filter| build.analysis(call, filter))
            .collect();
        let of_e = Gains(std::array::from_fn(|filter| {
            let analysis = analyses.get(filter);
            analysis.map_or(FilterGain::ABSENT, |analysis| analysis.record)
        }));
        let own = call.gains(|filter| lags(call.row, filter, &call.lines));
        for ((wanted, whose), differ) in [(of_e, "E's lags"), (own, "its own lags")]
            .into_iter()
            .zip(&mut self.differ)
        {
            let what = gains_difference(&wanted, loan.gains(), loan.on());
            differ.take(what.is_some(), || {
                let what = what.unwrap_or_default();
                format!(
                    "encode: gains: {}, {kind}: rule over {whose}, given: {what}",
                    call.row.name()
                )
            });
        }
        self.count_strays(call, &own);
        let found = build.reflections(call);
        for (filter, record) in own.0.iter().enumerate() {
            match record.why_off(filter < analyses.len()) {
                None => self.on += 1,
                Some(why) => self.off[why as usize] += 1,
            }
            let order = loan.side()[2 + filter];
            self.on_of_order_0 += u64::from(record.on && order == 0);
            self.off_of_order += u64::from(!record.on && order != 0);
            if let Some(analysis) = analyses.get(filter) {
                self.count(analysis, &found[8 * filter..8 * filter + 8], call);
            }
        }
    }

    /// A filter that has a band, and E's reflection coefficients of it.
    fn count(&mut self, analysis: &Analysis, found: &[f32], call: &Encode) {
        let FilterGain { gain, damping, on } = analysis.record;
        if gain.is_finite() {
            let (least, most) = self.finite.unwrap_or((gain, gain));
            self.finite = Some((least.min(gain), most.max(gain)));
        }
        self.infinite += u64::from(gain.is_infinite());
        self.zero += u64::from(gain == 0.0);
        self.negative += u64::from(gain < 0.0);
        self.no_error += u64::from(analysis.error == 0.0);
        let wanted = analysis.reflections();
        let place = first_difference(&wanted, found);
        self.reflections.take(place.is_some(), || {
            let name = call.row.name();
            format!(
                "encode: gains: {name}: rule's reflection coefficients {wanted:?}, E's {found:?}"
            )
        });
        self.on_at_zero += u64::from(on && found.iter().all(|x| *x == 0.0));
        if damping < 1.0 {
            self.damped += 1;
            let undamped = analysis.damped(1.0);
            let other = first_difference(&undamped, found).is_some();
            self.would_differ += u64::from(other);
        }
    }

    fn count_strays(&mut self, call: &Encode, gains: &Gains) {
        let mut of_frame = [false; STRAYS.len()];
        for ((start, stop), record) in call.row.bands.iter().zip(&gains.0) {
            let mut of_band = [false; STRAYS.len()];
            for n in call.lines[*start..*stop].iter().filter_map(|x| stray(*x)) {
                of_band[n] = true;
            }
            for n in (0..STRAYS.len()).filter(|n| of_band[*n]) {
                of_frame[n] = true;
                self.strays[n].bands += 1;
                self.strays[n].on += u64::from(record.on);
                self.strays[n].numbers += u64::from(!record.gain.is_nan());
            }
        }
        for (of, met) in self.strays.iter_mut().zip(of_frame) {
            of.frames += u64::from(met);
        }
    }

    pub fn print(&self) -> bool {
        let Tally {
            frames,
            differ: [Differing(of_e), Differing(own)],
            on,
            damped,
            on_of_order_0,
            off_of_order,
            off,
            finite,
            infinite,
            zero,
            negative,
            no_error,
            strays,
            reflections: Differing(reflections),
            on_at_zero,
            would_differ,
        } = self;
        let filters = on + off.iter().sum::<u64>();
        let with_band = filters - off[WhyOff::NoBand as usize];
        let [no_band, nan, low, flag] = off;
        println!("encode: gains: {frames} frames, {filters} filters compared; frames that differ from the rule over E's lags {of_e}, from the rule over its own lags {own}");
        println!("encode: gains: filters on {on}, {damped} of them damped, {on_of_order_0} of order 0; off: no such band {no_band}, gain not a number {nan}, gain not over 1.5 {low}, near Nyquist {flag}; {off_of_order} off with another order than 0");
        let (least, most) = finite.unwrap_or_default();
        println!("encode: gains: finite ones from {least:e} to {most:e}, infinite {infinite}, zero {zero}, negative {negative}; error of 0, so that the gain is lag 0: {no_error}");
        let said = STRAYS.iter().zip(strays).map(|(name, of)| {
            let OfStray {
                frames,
                bands,
                on,
                numbers,
            } = of;
            format!(
                "{name} {frames} ({bands} bands, gain a number in {numbers}, filter on in {on})"
            )
        });
        let said = said.collect::<Vec<_>>().join(", ");
        println!("encode: gains: frames with such a line in a band: {said}");
        println!("encode: gains: E's reflection coefficients against those that follow from the rule's damping and on or off: {with_band} filters, {reflections} differ, {on_at_zero} are on with all of them 0; of the damped ones {would_differ} would be others undamped");
        // A line of these makes its band's energy infinite or NaN, and so the gain NaN.
        let numbers: u64 = strays[SUBNORMAL + 1..].iter().map(|of| of.numbers).sum();
        let differ = of_e + own + reflections + on_at_zero + numbers + off_of_order;
        let kinds = [on, damped, on_of_order_0, negative, no_error, would_differ];
        let of_strays = strays.iter().map(|of| &of.frames);
        let counted = kinds.into_iter().chain(off).chain(of_strays);
        let counted = counted.chain([&strays[SUBNORMAL].on]);
        let enough = *frames >= FRAMES && counted.min() >= Some(&ENOUGH);
        if !enough {
            println!("encode: gains: something was met fewer than {ENOUGH} times, or fewer than {FRAMES} frames");
        }
        differ == 0 && enough
    }
}
