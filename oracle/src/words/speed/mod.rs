//! The words `speed` and `counts`: the port, the original and liblc3 side by
//! side, in one process, on the same lines in the same memory. The port is called
//! in three ways: by its exports, as from C; the same inside the Rust crate's
//! guard of the float environment; and by the crate's own functions, as from
//! Rust. `speed` prints times. `counts` makes the same calls once under
//! valgrind's callgrind, which counts their instructions. Neither demands
//! anything; bench/run makes a table of both.
//!
//! A line of `speed` has fields between tabs: encode or decode, duration code,
//! bandwidth, what is run, the orders met, then the ns a call of the port, of
//! the port guarded, of the crate, of the Rust and of liblc3. A label of `counts`
//! has the first four and then whose call it is and how often it was made.
//!
//! After these come lines and labels of restart, which only the port has: they are
//! of four calls of its exports, which the function describes.

mod callgrind;
// The guard's own text, as it lies from the build folder,
// target/oracle/tree/src/words/speed.
#[rustfmt::skip]
#[path = "../../../../../../rust/src/float.rs"]
mod float;

use crate::document::{Row, Side, ACCEPTED, ROWS};
use crate::draw::{bands::bands, Random, SEED};
use crate::liblc3::{analyze, synthesize, Data};
use crate::original::{both, Build};
use crate::port::{decode_lines, encode_lines, restart_lines, save_lines, Beside, Numbers};
use gillsextant::{Bandwidth, Duration};
use std::ffi::CString;
use std::hint::black_box;
use std::time::Instant;

/// So many that a row's lines, before and after, stay in the first-level cache.
const FRAMES: usize = 12;
/// The whole list is gone through so often, since what disturbs the machine may
/// last longer than one measurement.
const PASSES: usize = 8;
const ROUNDS: usize = 250;
/// Far above the weighting limits; a whole number of bytes for liblc3.
const BITS: u64 = 1600;

// By code, which the crate does not take.
const DURATIONS: [Duration; 2] = [Duration::TenMs, Duration::SevenPointFiveMs];
const BANDWIDTHS: [Bandwidth; 5] = [
    Bandwidth::NarrowBand,
    Bandwidth::WideBand,
    Bandwidth::SemiSuperWideBand,
    Bandwidth::SuperWideBand,
    Bandwidth::FullBand,
];

/// The lines of a frame at a round address, as a codec's own buffer has them.
#[derive(Clone)]
#[repr(align(64))]
struct Lines([f32; 400]);

/// The frames of a row, and the same memory for all to work in.
struct Frames {
    fresh: Vec<Lines>,
    used: Vec<Lines>,
    length: usize,
}

/// The least times met so far: what is measured, then the orders met and the
/// times, the first of a call that does nothing.
#[derive(Default)]
struct Least(Vec<(String, String, Vec<f64>)>);

impl Least {
    fn keep(&mut self, name: &str, met: &str, times: &[f64]) {
        match self.0.iter_mut().find(|entry| entry.0 == name) {
            Some(entry) => {
                for (least, time) in entry.2.iter_mut().zip(times) {
                    *least = least.min(*time);
                }
            }
            None => {
                let entry = (name.to_string(), met.to_string(), times.to_vec());
                self.0.push(entry);
            }
        }
    }

    fn print(&self) {
        for (name, met, times) in &self.0 {
            let times = times[1..].iter().map(|t| format!("{:.2}", t - times[0]));
            println!("{name}\t{met}\t{}", times.collect::<Vec<_>>().join("\t"));
        }
    }
}

/// Where measurements go: to callgrind, or to the least times.
enum Sink {
    Counts,
    Times(Least),
}

impl Frames {
    fn new(fresh: Vec<Lines>, row: &Row) -> Self {
        Frames {
            used: fresh.clone(),
            fresh,
            length: row.last_stop(),
        }
    }

    fn refill(&mut self) {
        for (used, fresh) in self.used.iter_mut().zip(&self.fresh) {
            used.0[..self.length].copy_from_slice(&fresh.0[..self.length]);
        }
    }

    /// One call for each frame, in ns a call; the copying is not timed.
    fn time(&mut self, call: &mut impl FnMut(&mut [f32])) -> f64 {
        self.refill();
        let start = Instant::now();
        for used in &mut self.used {
            call(&mut used.0[..self.length]);
        }
        start.elapsed().as_nanos() as f64 / FRAMES as f64
    }

    /// One call for each frame, its instructions counted; the copying is not.
    fn count(&mut self, label: &str, call: &mut impl FnMut(&mut [f32])) {
        self.refill();
        for used in &mut self.used {
            let lines = black_box(&mut used.0[..self.length]);
            callgrind::toggle();
            call(lines);
            callgrind::toggle();
        }
        callgrind::dump(&CString::new(label).expect("a label without zeros"));
    }
}

/// The calls by turns, so that what disturbs the machine disturbs all of them
/// alike, and beside them a call that does nothing, which is taken off.
fn measure(
    sink: &mut Sink,
    (name, met): (&str, &str),
    frames: &mut Frames,
    (mut port, mut guarded, mut by_crate): (
        impl FnMut(&mut [f32]),
        impl FnMut(&mut [f32]),
        impl FnMut(&mut [f32]),
    ),
    mut original: impl FnMut(&mut [f32]),
    mut lc3: impl FnMut(&mut [f32]),
) {
    let mut nothing = |lines: &mut [f32]| {
        black_box(lines);
    };
    let Sink::Times(times) = sink else {
        frames.count(&format!("{name}\tnothing\t{FRAMES}"), &mut nothing);
        frames.count(&format!("{name}\tport\t{FRAMES}"), &mut port);
        frames.count(&format!("{name}\tguarded\t{FRAMES}"), &mut guarded);
        frames.count(&format!("{name}\tcrate\t{FRAMES}"), &mut by_crate);
        frames.count(&format!("{name}\tRust\t{FRAMES}"), &mut original);
        frames.count(&format!("{name}\tliblc3\t{FRAMES}"), &mut lc3);
        return;
    };
    let mut least = [f64::INFINITY; 6];
    for _ in 0..ROUNDS {
        least[0] = least[0].min(frames.time(&mut nothing));
        least[1] = least[1].min(frames.time(&mut port));
        least[2] = least[2].min(frames.time(&mut guarded));
        least[3] = least[3].min(frames.time(&mut by_crate));
        least[4] = least[4].min(frames.time(&mut original));
        least[5] = least[5].min(frames.time(&mut lc3));
    }
    times.keep(name, met, &least);
}

/// Frames whose bands all get a filter, and the same one from all three.
fn active(random: &mut Random, row: &Row, build: &Build) -> Vec<Lines> {
    let mut frames = Vec::new();
    while frames.len() < FRAMES {
        let mut lines = Lines([0.0; 400]);
        bands(random, row, &mut lines.0[..row.last_stop()], 0, 10);
        let drawn = lines.clone();
        let lines = &mut lines.0[..row.last_stop()];
        let answer = (build.encode)(row.duration, row.bandwidth, BITS, false, lines).side;
        lines.copy_from_slice(&drawn.0[..row.last_stop()]);
        let second = analyze(row, false, BITS as usize / 8, lines).side();
        let met = &answer.orders[..row.bands.len()];
        if answer == second_opinion(&answer, &second) && met.iter().all(|order| *order > 0) {
            frames.push(drawn);
        }
    }
    frames
}

/// liblc3's side data, which leaves open what it does not count.
fn second_opinion(first: &Side, second: &Side) -> Side {
    let mut opinion = first.clone();
    opinion.orders[..second.filters].copy_from_slice(&second.orders[..second.filters]);
    for f in 0..second.filters {
        let places = 8 * f..8 * f + second.orders[f];
        opinion.indices[places.clone()].copy_from_slice(&second.indices[places]);
    }
    opinion
}

/// What an encode call writes beside the lines.
#[derive(Clone, Default)]
struct Written {
    side: [u8; 20],
    coefficients: [f32; 16],
    gains: [f32; 4],
    on: [u8; 2],
}

impl Written {
    fn lend(&mut self) -> Beside<'_> {
        Beside {
            side: &mut self.side,
            coefficients: &mut self.coefficients,
            gains: &mut self.gains,
            on: &mut self.on,
        }
    }
}

fn encode(sink: &mut Sink, row: &Row, build: &Build, what: &str, flag: bool, frames: Vec<Lines>) {
    let (d, w) = (row.duration, row.bandwidth);
    let (duration, bandwidth) = (DURATIONS[d as usize], BANDWIDTHS[w as usize]);
    let mut frames = Frames::new(frames, row);
    let mut written = Written::default();
    let mut met = Vec::new();
    frames.refill();
    for (used, fresh) in frames.used.iter_mut().zip(&frames.fresh) {
        let lines = &mut used.0[..frames.length];
        let answer = encode_lines(d, w, BITS, flag, lines, written.lend());
        lines.copy_from_slice(&fresh.0[..frames.length]);
        let original = (build.encode)(d, w, BITS, flag, lines);
        assert_eq!(answer.refusal, 0, "the port refuses a frame of the bench");
        let side = &written.side;
        assert_eq!(*side, original.side.record(), "the port and E differ");
        met.extend(side[2..2 + row.bands.len()].iter().map(u8::to_string));
    }
    met.sort_unstable();
    met.dedup();
    let mut guarded = written.clone();
    measure(
        sink,
        (&format!("encode\t{d}\t{w}\t{what}"), &met.join(" ")),
        &mut frames,
        (
            |lines: &mut [f32]| {
                black_box(encode_lines(d, w, BITS, flag, lines, written.lend()));
            },
            |lines: &mut [f32]| {
                let beside = guarded.lend();
                let call = move || encode_lines(d, w, BITS, flag, lines, beside);
                black_box(float::in_default(call));
            },
            |lines: &mut [f32]| {
                black_box(&gillsextant::encode(duration, bandwidth, BITS, flag, lines));
            },
        ),
        |lines| {
            black_box((build.encode)(d, w, BITS, flag, lines));
        },
        |lines| {
            black_box(analyze(row, flag, BITS as usize / 8, lines));
        },
    );
}

fn decode(sink: &mut Sink, row: &Row, order: usize, build: &Build, random: &mut Random) {
    let (d, w) = (row.duration, row.bandwidth);
    let (duration, bandwidth) = (DURATIONS[d as usize], BANDWIDTHS[w as usize]);
    let drawn = (0..FRAMES).map(|_| {
        let mut lines = Lines([0.0; 400]);
        bands(random, row, &mut lines.0[..row.last_stop()], 0, 10);
        lines
    });
    let mut frames = Frames::new(drawn.collect(), row);
    let mut side = Side::plain(0, 0);
    side.filters = row.bands.len();
    side.orders = [order, if row.bands.len() == 2 { order } else { 0 }];
    side.indices.fill_with(|| 6 + random.below(5));
    let filters = side.filters as u8;
    let orders = &side.orders.map(|n| n as u8);
    let indices = &side.indices.map(|n| n as u8);
    let data = Data::of(&side);
    let lines = &mut frames.used[0].0[..frames.length];
    let answer = decode_lines(d, w, filters, orders, indices, lines);
    assert_eq!(answer, ACCEPTED, "the port refuses a frame of the bench");
    measure(
        sink,
        (
            &format!("decode\t{d}\t{w}\torder {order}"),
            &order.to_string(),
        ),
        &mut frames,
        (
            |lines: &mut [f32]| {
                black_box(decode_lines(d, w, filters, orders, indices, lines));
            },
            |lines: &mut [f32]| {
                let call = move || decode_lines(d, w, filters, orders, indices, lines);
                black_box(float::in_default(call));
            },
            |lines: &mut [f32]| {
                let _ = black_box(gillsextant::decode(
                    duration, bandwidth, filters, orders, indices, lines,
                ));
            },
        ),
        |lines| {
            (build.decode)(d, w, side.filters, &side.orders, &side.indices, lines);
            black_box(lines);
        },
        |lines| {
            synthesize(row, &data, lines);
            black_box(lines);
        },
    );
}

/// Parts of a frame at order 8 with both filters counted, by turns: a whole decode
/// in place; a restart at the middle of the lines from the first band's start to
/// the last stop; a copy of the spectrum into the output with a whole decode there;
/// a save before that line. A line of `speed` has the fields restart, duration code,
/// bandwidth, the line, the order and the ns a call of the four; a label of `counts`
/// has the first four, one of decode, restart, copy and save, and how often it was
/// made.
///
/// All find the lines fresh in the same memory. Of what is written beside them
/// there is one for all frames: a restart takes as long from one frame's states as
/// from another's.
fn restart(sink: &mut Sink, row: &Row, random: &mut Random) {
    let drawn = (0..FRAMES).map(|_| {
        let mut lines = Lines([0.0; 400]);
        bands(random, row, &mut lines.0[..row.last_stop()], 0, 10);
        lines
    });
    let mut frames = Frames::new(drawn.collect(), row);
    let mut side = Side::plain(0, 0);
    (side.filters, side.orders) = (2, [8, 8]);
    side.indices.fill_with(|| 6 + random.below(5));
    let record = side.record();
    let numbers = Numbers::of(row, &record);
    let whole = |lines: &mut [f32]| {
        let (orders, indices) = (numbers.orders, numbers.indices);
        decode_lines(row.duration, row.bandwidth, 2, orders, indices, lines)
    };
    let (length, line) = (frames.length, (row.first_start() + row.last_stop()) / 2);
    let mut outputs = [(); 3].map(|()| Lines([0.0; 400]));
    let [again, copied, saved] = outputs.each_mut().map(|lines| &mut lines.0[..length]);
    let (mut states, mut given) = ([0.0; 8], [0.0; 8]);

    let first = &mut frames.used[0].0[..length];
    let answers = [
        save_lines(numbers, first, saved, line, &mut states),
        restart_lines(numbers, first, again, line, &mut states),
        whole(first),
    ];
    let refused = "the port refuses a frame of the bench";
    assert_eq!(answers, [ACCEPTED; 3], "{refused}");
    assert_eq!(first, saved, "save and decode differ");
    assert_eq!(first[line..], again[line..], "restart and decode differ");

    let mut nothing = |lines: &mut [f32]| {
        black_box(lines);
    };
    let mut decode = |lines: &mut [f32]| {
        black_box(whole(lines));
    };
    let mut restart = |lines: &mut [f32]| {
        black_box(restart_lines(numbers, lines, again, line, &mut states));
    };
    let mut copy = |lines: &mut [f32]| {
        copied.copy_from_slice(lines);
        black_box(whole(copied));
    };
    let mut save = |lines: &mut [f32]| {
        black_box(save_lines(numbers, lines, saved, line, &mut given));
    };
    let name = format!("restart\t{}\t{}\tat {line}", row.duration, row.bandwidth);
    let Sink::Times(times) = sink else {
        frames.count(&format!("{name}\tnothing\t{FRAMES}"), &mut nothing);
        frames.count(&format!("{name}\tdecode\t{FRAMES}"), &mut decode);
        frames.count(&format!("{name}\trestart\t{FRAMES}"), &mut restart);
        frames.count(&format!("{name}\tcopy\t{FRAMES}"), &mut copy);
        frames.count(&format!("{name}\tsave\t{FRAMES}"), &mut save);
        return;
    };
    let mut least = [f64::INFINITY; 5];
    for _ in 0..ROUNDS {
        least[0] = least[0].min(frames.time(&mut nothing));
        least[1] = least[1].min(frames.time(&mut decode));
        least[2] = least[2].min(frames.time(&mut restart));
        least[3] = least[3].min(frames.time(&mut copy));
        least[4] = least[4].min(frames.time(&mut save));
    }
    times.keep(&name, "8", &least);
}

/// Every measurement once, on the same frames each time.
fn pass(sink: &mut Sink, build: &Build) {
    let mut random = Random(SEED);
    for row in &ROWS {
        let frames = active(&mut random, row, build);
        let silence = vec![Lines([0.0; 400]); FRAMES];
        encode(sink, row, build, "on", false, frames.clone());
        encode(sink, row, build, "flag", true, frames);
        encode(sink, row, build, "silence", false, silence);
    }
    for row in &ROWS {
        for order in 0..=8 {
            decode(sink, row, order, build, &mut random);
        }
    }
    for row in &ROWS {
        restart(sink, row, &mut random);
    }
}

pub fn times() -> bool {
    let [build, _] = both();
    println!("the best of {PASSES} passes of {ROUNDS} rounds of {FRAMES} frames");
    let mut sink = Sink::Times(Least::default());
    for _ in 0..PASSES {
        pass(&mut sink, &build);
    }
    if let Sink::Times(least) = sink {
        least.print();
    }
    true
}

pub fn counts() -> bool {
    let [build, _] = both();
    pass(&mut Sink::Counts, &build);
    true
}
