//! The word `tables`: every f32 from -1 to 1 through E's quantization.
//! A sweep is kept as runs: where the index or the coefficient changes.
//! Assumes that bit patterns rise with the magnitude, as IEEE's do.

use crate::document::rules;
use crate::original::{both, Build};
use std::hint::black_box;

const ONE: u32 = 0x3F80_0000;
const SIGN: u32 = 0x8000_0000;
const MOST_RUNS: usize = 1_000_000;

/// An index, and the pattern of its coefficient.
type Answer = (usize, u32);

/// From this magnitude on, up to the next run, E gives this answer.
type Run = (u32, Answer);

/// One build's runs below 1: the positive side and the negative side.
type Sweep = [Vec<Run>; 2];

fn sweep_side(build: &Build, sign: u32) -> Vec<Run> {
    let mut runs = Vec::new();
    let mut now: Answer = (usize::MAX, u32::MAX);
    let (mut rc_q, mut rc_i, mut orders) = ([0.0f32; 16], [0usize; 16], [0usize; 2]);
    for block in (0..ONE).step_by(16) {
        for (j, q) in rc_q.iter_mut().enumerate() {
            *q = f32::from_bits(sign | (block + j as u32));
        }
        (build.quantize)(2, &mut rc_q, &mut rc_i, &mut orders);
        let answers = || rc_i.iter().zip(&rc_q).map(|(i, q)| (*i, q.to_bits()));
        let changed = answers().fold(0, |sum, (i, q)| sum | (i ^ now.0) | (q ^ now.1) as usize);
        if changed != 0 {
            for (j, answer) in answers().enumerate() {
                if answer != now {
                    runs.push((block + j as u32, answer));
                    now = answer;
                }
            }
            assert!(runs.len() < MOST_RUNS, "the sweep changes too often");
        }
    }
    runs
}

/// The smallest magnitude of index 8 + k, or 8 - k on the negative side.
fn thresholds(runs: &[Run], negative: bool) -> [u32; 8] {
    std::array::from_fn(|k| {
        let index = if negative { 7 - k } else { 9 + k };
        let starts = runs.iter().filter(|(_, answer)| answer.0 == index);
        starts.map(|(start, _)| *start).min().unwrap_or(u32::MAX)
    })
}

/// The coefficient patterns that a sweep gave for an index.
fn patterns(sweep: &Sweep, index: usize) -> Vec<u32> {
    let mut found = Vec::new();
    for (_, answer) in sweep.iter().flatten() {
        if answer.0 == index && !found.contains(&answer.1) {
            found.push(answer.1);
        }
    }
    found
}

fn at(runs: &[Run], magnitude: u32) -> Answer {
    let next = runs.partition_point(|(start, _)| *start <= magnitude);
    runs[next - 1].1
}

/// Prints every stretch of one side where the threshold rule does not give the
/// run's index; returns how many values that is.
fn rule_breaks(name: &str, runs: &[Run], thresholds: &[u32; 8], negative: bool) -> u64 {
    let cuts = runs.iter().map(|(start, _)| *start);
    let cuts = cuts.chain(thresholds.iter().copied().filter(|t| *t < ONE));
    stretches(&format!("{name}: rule broken"), cuts, negative, |from| {
        let (e, _) = at(runs, from);
        let r = rules::index(thresholds, from, negative);
        (e != r).then(|| format!("E {e}, rule {r}"))
    })
}

/// Prints every stretch of one side where the two builds differ; returns how
/// many values that is.
fn build_differences(a: &[Run], b: &[Run], negative: bool) -> u64 {
    let cuts = a.iter().chain(b).map(|(start, _)| *start);
    stretches("builds differ", cuts, negative, |from| {
        let (s, l) = (at(a, from), at(b, from));
        (s != l).then(|| format!("std {} {:08X}, libm {} {:08X}", s.0, s.1, l.0, l.1))
    })
}

/// Walks the stretches between cuts (first and last magnitude), prints those of
/// which there is something to say, and adds up their values.
fn stretches(
    what: &str,
    cuts: impl Iterator<Item = u32>,
    negative: bool,
    said: impl Fn(u32) -> Option<String>,
) -> u64 {
    let mut cuts: Vec<u32> = cuts.chain([ONE]).collect();
    cuts.sort_unstable();
    cuts.dedup();
    let side = if negative { "-" } else { "+" };
    let mut values = 0;
    for pair in cuts.windows(2) {
        let (from, to) = (pair[0], pair[1] - 1);
        if let Some(said) = said(from) {
            println!("tables: {what} at {side}{from:08X}..{side}{to:08X}: {said}");
            values += u64::from(to - from) + 1;
        }
    }
    values
}

fn hex(patterns: &[u32]) -> String {
    let words: Vec<String> = patterns.iter().map(|p| format!("{p:08X}")).collect();
    words.join("/")
}

fn steps(build: &Build) {
    let expected = 12401689.0f64 / 67108864.0;
    let steps = [build.encoder_step, build.decoder_step];
    let [e, d] = steps.map(f32::to_bits);
    println!(
        "tables: {}: step of E {e:08X}, of D {d:08X}, 12401689/2^26 {}",
        build.name,
        steps.iter().all(|step| f64::from(*step) == expected)
    );
}

/// Where the original leaves the range, and beyond it.
fn outside(build: &Build) {
    for (label, x) in [
        ("1", 1.0f32),
        ("-1", -1.0),
        ("next above 1", f32::from_bits(ONE + 1)),
        ("1.5", 1.5),
        ("infinity", f32::INFINITY),
        ("NaN", f32::NAN),
    ] {
        let (index, coefficient) = build.quantize_one(x);
        let index = match index {
            usize::MAX => "-1 (as usize, wrapped)".to_string(),
            _ => index.to_string(),
        };
        let name = build.name;
        println!("tables: {name}: E at {label}: index {index}, coefficient {coefficient:08X}");
    }
}

pub fn run() -> bool {
    let builds = both();
    builds.iter().for_each(steps);
    let sweeps: [Sweep; 2] = [0, 1].map(|n| [0, SIGN].map(|sign| sweep_side(&builds[n], sign)));
    let mut good = true;
    for (build, [positive, negative]) in builds.iter().zip(&sweeps) {
        println!(
            "tables: {}: {} values strictly inside -1..1 swept; runs: positive {}, negative {}",
            build.name,
            2 * u64::from(ONE),
            positive.len(),
            negative.len()
        );
    }
    for index in 0..17 {
        let [s, l] = [0, 1].map(|n| patterns(&sweeps[n], index));
        let d = [0, 1].map(|n| (builds[n].decoder_coefficient)(black_box(index)).to_bits());
        good &= s.len() == 1 && l.len() == 1;
        println!(
            "tables: coefficient {index:2}: E std {}, E libm {}, D std {:08X}, D libm {:08X} ({:e})",
            hex(&s),
            hex(&l),
            d[0],
            d[1],
            f32::from_bits(s.first().copied().unwrap_or(0))
        );
    }
    let found = [0, 1].map(|n| {
        let [positive, negative] = &sweeps[n];
        [thresholds(positive, false), thresholds(negative, true)]
    });
    for k in 0..8 {
        let [[sp, sn], [lp, ln]] = found.map(|sides| sides.map(|side| side[k]));
        println!(
            "tables: threshold {}: std +{sp:08X} -{sn:08X}, libm +{lp:08X} -{ln:08X} ({:e})",
            k + 1,
            f32::from_bits(sp)
        );
    }
    for (i, build) in builds.iter().enumerate() {
        let [positive, negative] = &sweeps[i];
        let broken = rule_breaks(build.name, positive, &found[i][0], false)
            + rule_breaks(build.name, negative, &found[i][0], true);
        good &= broken == 0;
        println!(
            "tables: {}: threshold rule (positive side's thresholds, mirrored) broken at {broken} values",
            build.name
        );
    }
    let [std, libm] = &sweeps;
    let differing =
        build_differences(&std[0], &libm[0], false) + build_differences(&std[1], &libm[1], true);
    println!("tables: std and libm differ at {differing} values strictly inside -1..1");
    builds.iter().for_each(outside);
    good
}
