//! Encoder calls at a limit of the analysis: two spectra are mixed, and the part
//! of the second is halved in on until the limit lies between two f32s.

use crate::document::{Encode, Row};
use crate::draw::bands::{bands, coarse};
use crate::draw::random::Random;
use crate::draw::spectra::noise;
use crate::original::Build;

/// The magnitudes at which the index changes (std build), as the word `tables`
/// prints them. A build of another toolchain may move by one pattern; the calls
/// drawn here are near them all the same.
const THRESHOLDS: [u32; 8] = [
    0x3DBC_F730,
    0x3E8C_1D8E,
    0x3EE4_37D1,
    0x3F1A_4643,
    0x3F3D_2FB0,
    0x3F59_A7D4,
    0x3F6E_B680,
    0x3F7B_A421,
];

/// A limit of the analysis.
pub enum Limit {
    /// A gain in a random filter.
    Gain(f32),
    /// A coefficient at a threshold of the index.
    Threshold,
    /// A coefficient of 1 or -1.
    One,
}

/// What is mixed: lines that stay, lines whose part grows, and a test of the call
/// that turns where the limit is.
type Mix<'a> = (Vec<f32>, Vec<f32>, Box<dyn Fn(&Encode) -> bool + 'a>);

pub fn is_threshold(x: f32) -> bool {
    THRESHOLDS.contains(&x.abs().to_bits())
}

/// Where a test of bit patterns turns between two of them, by halving; nothing if
/// it does not turn.
pub fn turn(mut low: u32, mut high: u32, test: impl Fn(u32) -> bool) -> Option<u32> {
    let first = test(low);
    if test(high) == first {
        return None;
    }
    while high - low > 1 {
        let middle = low + (high - low) / 2;
        if test(middle) == first {
            low = middle;
        } else {
            high = middle;
        }
    }
    Some(high)
}

/// The calls for every part around the place where the test turns; none
/// if it does not.
pub fn steer(
    random: &mut Random,
    build: &Build,
    limit: Limit,
    mut call: Encode,
    mut with: impl FnMut(&Encode),
) {
    const TOP: f32 = 64.0;
    const AROUND: u32 = 8;
    call.near_nyquist &= matches!(limit, Limit::Gain(_));
    let mix = match limit {
        Limit::Gain(gain) => Some(near_gain(random, build, &call, gain)),
        Limit::Threshold => near_threshold(random, build, &call),
        Limit::One => Some(near_one(random, build, &call)),
    };
    let Some((still, moved, test)) = mix else {
        return;
    };
    let at = |p: u32| {
        let lines = still.iter().zip(&moved);
        let lines = lines.map(|(s, m)| s + f32::from_bits(p) * m).collect();
        call.with_lines(lines)
    };
    if let Some(turn) = turn(AROUND, TOP.to_bits(), |p| test(&at(p))) {
        for p in turn - AROUND..turn + AROUND {
            with(&at(p));
        }
    }
}

/// Noise that is mixed with lines of a strong lean.
fn lean(random: &mut Random, row: &Row, length: usize) -> (Vec<f32>, Vec<f32>) {
    let (mut still, mut moved) = (vec![0.0; length], vec![0.0; length]);
    noise(random, &mut still, 1.0);
    bands(random, row, &mut moved, -2, 2);
    (still, moved)
}

/// Calls whose gain in a random filter is the given one or next to it.
fn near_gain<'a>(random: &mut Random, build: &'a Build, call: &Encode, gain: f32) -> Mix<'a> {
    let row = call.row;
    let (still, moved) = lean(random, row, call.lines.len());
    let filter = random.below(row.bands.len());
    let test = move |call: &Encode| build.gain(call, filter) > gain;
    (still, moved, Box::new(test))
}

/// Two leaning spectra are mixed; a coefficient that moves over a threshold
/// from the one to the other is taken.
fn near_threshold<'a>(random: &mut Random, build: &'a Build, call: &Encode) -> Option<Mix<'a>> {
    let row = call.row;
    let (_, still) = lean(random, row, call.lines.len());
    let (_, moved) = lean(random, row, call.lines.len());
    let reflections = |lines: &Vec<f32>| build.reflections(&call.with_lines(lines.clone()));
    let (from, to) = (reflections(&still), reflections(&moved));
    let mut over = Vec::new();
    for place in 0..8 * row.bands.len() {
        for (n, pattern) in THRESHOLDS.iter().enumerate() {
            let t = f32::from_bits(*pattern);
            if (from[place].abs() < t) != (to[place].abs() < t) {
                // The two at which the builds differ count more.
                let weight = if n == 0 || n == 3 { 4 } else { 1 };
                over.extend([(place, t); 4].into_iter().take(weight));
            }
        }
    }
    if over.is_empty() {
        return None;
    }
    let (place, threshold) = random.one_of(&over);
    let test = move |call: &Encode| build.reflections(call)[place].abs() >= threshold;
    Some((still, moved, Box::new(test)))
}

/// One coarse subband and two of level lines or waves, with growing noise: the
/// lag that starts above lag 0 falls below it. Where the two are equal, a
/// reflection coefficient is exactly 1 or -1.
fn near_one<'a>(random: &mut Random, build: &'a Build, call: &Encode) -> Mix<'a> {
    let row = call.row;
    let length = call.lines.len();
    let (mut still, mut moved) = (vec![0.0; length], vec![0.0; length]);
    let filter = random.below(row.bands.len());
    let (step, waves) = (1 + random.below(2), random.once_in(2));
    let turning = random.once_in(2);
    for band in 0..row.bands.len() {
        let odd = random.below(3);
        for (n, (start, stop)) in row.subbands(band).into_iter().enumerate() {
            if n == odd {
                coarse(random, &mut still[start..stop], step);
                continue;
            }
            let turn = match waves {
                true => 1.55 + 0.45 * random.unit(),
                false => 2.0,
            };
            let (mut before, mut now) = (1.0, 1.0);
            for line in (start..stop).step_by(step) {
                still[line] = now;
                moved[line] = random.unit();
                (before, now) = (now, turn * now - before);
            }
        }
    }
    if turning {
        for lines in [&mut still, &mut moved] {
            for line in lines.iter_mut().skip(step).step_by(2 * step) {
                *line = -*line;
            }
        }
    }
    let test = move |call: &Encode| {
        let lags = (build.lags)(row.duration, row.bandwidth, filter, &call.lines);
        lags[step].abs() >= lags[0]
    };
    (still, moved, Box::new(test))
}
