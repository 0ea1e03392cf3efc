//! What E and D (std build) do with input that the rules (docs/RULES.md) refuse or
//! change.

use crate::compare::strange::{decoder, line, Given};
use crate::document::ROWS;
use crate::original::Build;
use original_std::common::config::{FrameDuration, Lc3Config};
use original_std::encoder::temporal_noise_shaping::TemporalNoiseShaping;
use std::hint::black_box;

fn encoder_cost(e: &Build) {
    let with = |place: usize, index: usize| {
        let mut indices = [8usize; 16];
        indices[place] = index;
        indices
    };
    let (used, unused) = (with(0, 17), with(1, 255));
    let eights = [8usize; 24];
    let i16 = &eights[..16];
    let say = |input: &str, weighting: u8, (filters, orders, indices): Given| {
        line("E cost", input, || {
            let bits = (e.cost)(black_box(filters), weighting, indices, orders);
            format!("accepted, {bits} bits")
        });
    };
    say("index 17 at a used place (order 1)", 0, (1, &[1, 0], &used));
    let name = "index 255 at an unused place (order 1, place 1)";
    say(name, 0, (1, &[1, 0], &unused));
    say("order 9, filter counted", 0, (1, &[9, 0], i16));
    say("order 9, filter not counted", 0, (1, &[0, 9], i16));
    say("weighting 2, order 1", 2, (1, &[1, 0], i16));
    say("weighting 2, order 0", 2, (1, &[0, 0], i16));
    say("three filters, 2 orders, 16 indices", 0, (3, &[0, 0], i16));
    let name = "three filters, 3 orders, 24 indices";
    say(name, 0, (3, &[1, 1, 1], &eights));
    say("one filter, 1 order, 8 indices", 0, (1, &[8], &eights[..8]));
    let name = "one filter of order 8, 7 indices";
    say(name, 0, (1, &[8, 0], &eights[..7]));
    say("no filter, no orders, no indices", 0, (0, &[], &[]));
}

fn encoder_quantize(e: &Build) {
    for x in [1.0f32, -1.0] {
        let input = format!("coefficient exactly {x}");
        line("E quantize, then cost", &input, || {
            let mut rc_q = [0.0; 16];
            rc_q[0] = black_box(x);
            let (mut rc_i, mut orders) = ([0; 16], [0; 2]);
            (e.quantize)(1, &mut rc_q, &mut rc_i, &mut orders);
            let bits = (e.cost)(1, 0, &rc_i, &orders);
            format!("accepted, {bits} bits")
        });
    }
}

/// E on falling lines, by itself: it is configured for another length.
fn encoder_run() {
    for (input, ne, length, bandwidth) in [
        ("bandwidth 5", 400, 400, 5),
        ("length 399 where 400 is configured", 400, 399, 4),
        ("bandwidth 0, length 81 where 80 is configured", 80, 81, 0),
        ("bandwidth 2, falling spectrum of 240 lines", 240, 240, 2),
    ] {
        line("E run", &format!("10 ms, {input}"), || {
            let n_ms = FrameDuration::TenMs;
            let mut lines: Vec<f32> = (0..length).map(|n| 0.97f32.powi(n)).collect();
            let before = lines.clone();
            let e = TemporalNoiseShaping::new(Lc3Config { n_ms, ne });
            let orders = e
                .run(&mut lines, black_box(bandwidth), 1000, false)
                .rc_order;
            let moved = (0..lines.len()).filter(|n| lines[*n] != before[*n]);
            let moved: Vec<usize> = moved.collect();
            let (first, last) = (moved.first(), moved.last());
            format!("accepted, orders {orders:?}, lines changed {first:?}..={last:?}")
        });
    }
}

fn decoder_lines(build: &Build) {
    let nines = [9usize; 24];
    let mut far = [9usize; 16];
    far[0] = 17;
    let i16 = &nines[..16];
    let say = |input: &str, given: Given, length: usize| {
        decoder(build, input, &ROWS[0], given, length, |lines| {
            format!("line 13 {:08X}", lines[13].to_bits())
        });
    };
    say("three filters, 2 orders", (3, &[1, 0], i16), 80);
    say("two filters on a one-band row", (2, &[1, 1], i16), 80);
    say("order 9, first filter of one", (1, &[9, 0], i16), 80);
    say("order 9 of a filter without a band", (2, &[1, 9], i16), 80);
    say("spectrum of 79 lines", (1, &[1, 0], i16), 79);
    say("spectrum of 401 lines", (1, &[1, 0], i16), 401);
    say("index 17 at a used place", (1, &[1, 0], &far), 80);
    say("1 order, 1 index", (1, &[1], &nines[..1]), 80);
    say("3 orders, 24 indices", (1, &[1, 0, 0], &nines), 80);
}

pub fn run(build: &Build) {
    encoder_cost(build);
    encoder_quantize(build);
    encoder_run();
    decoder_lines(build);
}
