//! The library called from Rust: the lists of `crates/prog_replay/data`, refusals, buffers that a refused call
//! must not change, empty slices, threads. Encode records are also tried through the export as C calls it,
//! because the crate cannot express refusals 1 and 2 and does not show what a refused call leaves.

mod common;

use common::{bits_of, same, List, Record, BANDWIDTHS, DURATIONS};
use gillsextant::decoder::temporal_noise_shaping::apply_temporal_noise_shaping;
use gillsextant::encoder::temporal_noise_shaping::TemporalNoiseShaping;
use gillsextant::{
    cost, cost_exact, decode, decode_restart, decode_save, encode, Bandwidth, Duration, Encoded,
    Refusal, Saved, WhyOff,
};

/// The exports as the crate declares them.
#[allow(dead_code)] // one of them is called here
#[path = "../src/exports.rs"]
mod exports;

impl Record {
    fn costs(&self) {
        let found = cost(self.choice, self.filters, &self.orders, &self.indices);
        assert_eq!(found, self.answer);
        // The other cost call answers the same, and its parts have the bits, each rounded up on its own.
        let exact = cost_exact(self.choice, self.filters, &self.orders, &self.indices);
        assert_eq!(exact.map(|exact| exact.bits), self.answer);
        if let Ok(exact) = exact {
            let (counted, others) = exact.parts.split_at(self.filters.into());
            let bits: u32 = counted.iter().map(|part| 1 + part.div_ceil(2048)).sum();
            assert_eq!(u32::from(exact.bits), bits);
            assert!(others.iter().all(|part| *part == 0));
        }
    }

    fn decodes(&self) {
        let duration = DURATIONS[self.duration as usize];
        let bandwidth = BANDWIDTHS[self.bandwidth as usize];
        let mut lines = self.before.clone();
        let (orders, indices) = (&self.orders, &self.indices);
        let found = decode(
            duration,
            bandwidth,
            self.filters,
            orders,
            indices,
            &mut lines,
        );
        assert_eq!(found, self.verdict());
        assert!(same(&lines, &self.after));
        // lc3-codec's names.
        let wide = |list: &[u8]| list.iter().map(|n| *n as usize).collect::<Vec<_>>();
        let mut lines = self.before.clone();
        let found = apply_temporal_noise_shaping(
            duration,
            bandwidth,
            self.filters as usize,
            &wide(orders),
            &wide(indices),
            &mut lines,
        );
        assert_eq!(found, self.verdict());
        assert!(same(&lines, &self.after));
    }

    /// The crate's answer to an encode record, or nothing where Rust cannot express the call.
    fn encoded(&self, lines: &mut [f32]) -> Option<Result<Encoded, Refusal>> {
        if self.call != 3 {
            return None;
        }
        let duration = *DURATIONS.get(self.duration as usize)?;
        let bandwidth = *BANDWIDTHS.get(self.bandwidth as usize)?;
        let near_nyquist = self.choice == 1;
        Some(encode(
            duration,
            bandwidth,
            self.bit_number,
            near_nyquist,
            lines,
        ))
    }

    fn encodes(&self) {
        let mut lines = self.before.clone();
        let found = self.encoded(&mut lines).expect("Rust can express it");
        assert_eq!(found.map(|got| got.bits), self.answer);
        assert!(same(&lines, &self.after));
        // lc3-codec's names.
        let mut lines = self.before.clone();
        let named = TemporalNoiseShaping::new(DURATIONS[self.duration as usize]).run(
            &mut lines,
            self.bandwidth as usize,
            self.bit_number as usize,
            self.choice == 1,
        );
        assert_eq!(
            named
                .as_ref()
                .map(|got| got.nbits_tns as u16)
                .map_err(|why| *why),
            self.answer
        );
        assert!(same(&lines, &self.after));
        if let (Ok(got), Ok(named)) = (found, named) {
            let side = got.side;
            assert_eq!([side.weighting, side.filters], self.side[..2]);
            assert_eq!(side.orders, self.side[2..4]);
            assert_eq!(side.indices, self.side[4..]);
            assert_eq!(bits_of(&got.coefficients), bits_of(&self.coefficients));
            assert_eq!(named.rc_i, side.indices.map(usize::from));
            self.tells_gains(&got);
        }
    }

    /// Gain, damping and on or off of each filter are those of the list.
    fn tells_gains(&self, got: &Encoded) {
        let numbers = got.gains.map(|of| [of.gain, of.damping]).concat();
        assert!(same(&numbers, &self.gains));
        assert_eq!(got.gains.map(|of| u8::from(of.on)), self.on[..]);
        let why = got.why_off();
        assert_eq!(why, [0, 1].map(|filter| self.why_off(filter)));
        assert_eq!(why.map(|why| why.is_none()), got.gains.map(|of| of.on));
    }

    /// Why a filter of an accepted encode record is off, by the record alone: the first reason stands.
    fn why_off(&self, filter: usize) -> Option<WhyOff> {
        let gain = self.gains[2 * filter];
        if filter == 1 && self.bandwidth < 3 {
            return Some(WhyOff::NoBand);
        }
        if gain.is_nan() {
            return Some(WhyOff::NotANumber);
        }
        if gain <= 1.5 {
            return Some(WhyOff::LowGain);
        }
        (self.choice == 1).then_some(WhyOff::NearNyquist)
    }

    /// An encode call by the export, with everything that it may write to filled with 0xA5.
    fn encodes_by_export(&self) {
        let pattern = f32::from_bits(0xa5a5_a5a5);
        let (mut side, mut on) = ([0xa5; 20], [0xa5; 2]);
        let (mut coefficients, mut gains) = ([pattern; 16], [pattern; 4]);
        let mut lines = self.before.clone();
        // Sound: each pointer comes from a borrow, is valid for its length, and no two overlap.
        let answer = unsafe {
            exports::tns_encode(
                self.duration,
                self.bandwidth,
                self.bit_number,
                self.choice == 1,
                lines.as_mut_ptr(),
                lines.len(),
                &mut side,
                &mut coefficients,
                &mut gains,
                &mut on,
            )
        };
        let (refusal, bits) = match self.answer {
            Ok(bits) => (0, bits),
            Err(why) => (why.number(), 0),
        };
        assert_eq!((answer.refusal, answer.bits), (refusal, bits));
        assert_eq!((answer.place, answer.found), (0, 0));
        assert_eq!((&side[..], &on[..]), (&self.side[..], &self.on[..]));
        assert_eq!(bits_of(&coefficients), bits_of(&self.coefficients));
        assert!(same(&gains, &self.gains));
        assert!(same(&lines, &self.after));
    }

    fn saves(&self) {
        let mut output = self.output.clone();
        let found = decode_save(
            DURATIONS[self.duration as usize],
            BANDWIDTHS[self.bandwidth as usize],
            self.filters,
            &self.orders,
            &self.indices,
            &self.before,
            &mut output,
            self.line,
        );
        assert_eq!(found.map(|_| ()), self.verdict());
        assert!(same(&output, &self.after));
        // Only the exports show the states of a refused call: restart.rs.
        if let Ok(saved) = found {
            assert_eq!(saved.line(), self.line);
            assert!(same(&saved.states(), &self.states_after));
        }
    }

    fn restarts(&self) {
        let states = self.states[..].try_into().expect("there are eight");
        let mut output = self.output.clone();
        let found = decode_restart(
            DURATIONS[self.duration as usize],
            BANDWIDTHS[self.bandwidth as usize],
            self.filters,
            &self.orders,
            &self.indices,
            &self.before,
            &mut output,
            &Saved::new(self.line, states),
        );
        assert_eq!(found, self.verdict());
        assert!(same(&output, &self.after));
    }

    /// Makes the call and compares, or says that Rust cannot express it: the crate has no call for the index
    /// rule, and no duration or bandwidth that does not exist.
    fn replayed(&self) -> bool {
        let exists = self.duration < 2 && self.bandwidth < 5;
        match self.call {
            1 => self.costs(),
            2 if exists => self.decodes(),
            3 if exists => self.encodes(),
            4 if exists => self.saves(),
            5 if exists => self.restarts(),
            _ => return false,
        }
        true
    }
}

/// Replays a list. Gives how many records it has, and how many of them Rust cannot express. If it fails, the
/// last record printed is the one that failed.
fn replayed(name: &str) -> (usize, usize) {
    let mut list = List::of(name);
    let (mut records, mut without) = (0, 0);
    while list.more() {
        println!("{name}: record {records}");
        without += usize::from(!Record::next(&mut list).replayed());
        records += 1;
    }
    (records, without)
}

#[test]
fn costs_of_the_list() {
    assert_eq!(replayed("cost"), (4000, 0));
}

#[test]
fn decoded_spectra_of_the_list() {
    assert_eq!(replayed("decode"), (242, 0));
}

#[test]
fn encoded_spectra_across_threads() {
    let threads: Vec<_> = (0..4)
        .map(|_| std::thread::spawn(|| replayed("encode")))
        .collect();
    for thread in threads {
        assert_eq!(thread.join().unwrap(), (168, 0));
    }
}

#[test]
fn worked_cases() {
    assert_eq!(replayed("worked"), (489, 41));
}

/// All encode records of both lists. Those that are refused have 0xA5 in every byte of what the call may write
/// to besides the lines.
#[test]
fn encoded_spectra_by_the_export() {
    let (mut records, mut refused) = (0, 0);
    for name in ["encode", "worked"] {
        let mut list = List::of(name);
        while list.more() {
            let record = Record::next(&mut list);
            if record.call != 3 {
                continue;
            }
            println!("{name}: encode record {records}");
            record.encodes_by_export();
            if record.answer.is_err() {
                assert_eq!(
                    (&record.side[..], &record.on[..]),
                    (&[0xa5; 20][..], &[0xa5; 2][..])
                );
                let floats = [&record.coefficients[..], &record.gains[..]].concat();
                assert_eq!(bits_of(&floats), [0xa5a5_a5a5; 20]);
                refused += 1;
            }
            records += 1;
        }
    }
    assert_eq!((records, refused), (168 + 117, 33));
}

/// Among the encode records of both lists are filters that are on, some of them damped, and filters that are off
/// for each of the reasons.
#[test]
fn every_reason_is_met() {
    let (mut on, mut damped, mut off) = (0, 0, [0; 4]);
    for name in ["encode", "worked"] {
        let mut list = List::of(name);
        while list.more() {
            let record = Record::next(&mut list);
            let Some(Ok(got)) = record.encoded(&mut record.before.clone()) else {
                continue;
            };
            for (filter, why) in got.gains.iter().zip(got.why_off()) {
                damped += usize::from(filter.damping < 1.0);
                match why {
                    None => on += 1,
                    Some(why) => off[why as usize] += 1,
                }
            }
        }
    }
    assert_eq!((on, damped, off), (218, 16, [124, 26, 115, 21]));
}

/// A silent first band, and equal lines in the second, which is a click: as it is, near Nyquist, and with a NaN.
#[test]
fn reasons_of_a_filter() {
    let mut lines = [0.0; 240];
    lines[120..].fill(1000.0);
    let of = |near_nyquist, mut lines: [f32; 240]| {
        let (duration, bandwidth) = (Duration::SevenPointFiveMs, Bandwidth::SuperWideBand);
        encode(duration, bandwidth, 320, near_nyquist, &mut lines).expect("accepted")
    };
    let [low, flag] = [Some(WhyOff::LowGain), Some(WhyOff::NearNyquist)];
    let plain = of(false, lines);
    let [silent, click] = plain.gains;
    assert_eq!((silent.gain, silent.damping, silent.on), (1.0, 1.0, false));
    assert!(click.gain > 2.0 && click.damping == 1.0 && click.on);
    assert_eq!(plain.why_off(), [low, None]);
    let near = of(true, lines);
    let told = near.gains[1];
    assert_eq!((told.gain, told.damping, told.on), (click.gain, 1.0, false));
    assert_eq!(near.why_off(), [low, flag]);
    lines[60] = f32::NAN;
    let stray = of(true, lines);
    assert!(stray.gains[0].gain.is_nan() && !stray.gains[0].on);
    assert_eq!(stray.why_off(), [Some(WhyOff::NotANumber), flag]);
}

/// A refused decode call, which must leave the lines alone.
fn refused(lines: usize, filters: u8, orders: &[u8], indices: &[u8]) -> Refusal {
    let before: Vec<f32> = (0..lines).map(|n| n as f32 - 7.5).collect();
    let mut after = before.clone();
    let why = decode(
        Duration::TenMs,
        Bandwidth::FullBand,
        filters,
        orders,
        indices,
        &mut after,
    )
    .unwrap_err();
    assert_eq!(bits_of(&before), bits_of(&after));
    why
}

#[test]
fn refusals_leave_the_lines() {
    let mut index = [8; 16];
    index[11] = 17;
    assert_eq!(refused(399, 1, &[0, 0], &[8; 16]), Refusal::SpectrumLength);
    assert_eq!(refused(401, 1, &[9, 0], &index), Refusal::SpectrumLength);
    assert_eq!(refused(400, 3, &[9], &index), Refusal::ListLength);
    assert_eq!(refused(400, 3, &[9, 0], &index), Refusal::FilterCount);
    assert_eq!(
        refused(400, 0, &[0, 9], &index),
        Refusal::Order { place: 1, found: 9 }
    );
    assert_eq!(
        refused(400, 0, &[0, 8], &index),
        Refusal::Index {
            place: 11,
            found: 17
        }
    );
    assert_eq!(cost(2, 1, &[0, 0], &[8; 16]), Err(Refusal::Weighting));
    assert_eq!(cost_exact(2, 1, &[0, 0], &[8; 16]), Err(Refusal::Weighting));
    let mut lines = [1.5; 399];
    assert_eq!(
        encode(Duration::TenMs, Bandwidth::FullBand, 0, false, &mut lines),
        Err(Refusal::SpectrumLength)
    );
    assert_eq!(lines, [1.5; 399]);
}

/// What the rules give, at both weightings, with every count, and with parts that all differ.
#[test]
fn costs_before_rounding() {
    let mut indices = [8; 16];
    indices[..2].copy_from_slice(&[7, 9]);
    indices[8] = 0;
    let exact = |weighting, filters, orders| {
        let exact = cost_exact(weighting, filters, orders, &indices).expect("accepted");
        (exact.bits, exact.parts)
    };
    // orders 2 and 1: 13988 + 6335 + 5485, and 17234 + 20480; then with the other weighting's orders
    assert_eq!(exact(0, 2, &[2, 1]), (14 + 20, [25808, 37714]));
    assert_eq!(exact(1, 2, &[2, 1]), (12 + 18, [21257, 33163]));
    assert_eq!(exact(0, 1, &[2, 1]), (14, [25808, 0]));
    assert_eq!(exact(0, 0, &[2, 1]), (0, [0, 0]));
    assert_eq!(exact(0, 2, &[0, 1]), (1 + 20, [0, 37714]));
    assert_eq!(exact(1, 2, &[2, 0]), (12 + 1, [21257, 0]));
}

#[test]
fn empty_slices() {
    assert_eq!(refused(0, 0, &[], &[]), Refusal::SpectrumLength);
    assert_eq!(refused(400, 0, &[], &[]), Refusal::ListLength);
    assert_eq!(cost(0, 0, &[], &[]), Err(Refusal::ListLength));
    assert_eq!(cost_exact(0, 0, &[], &[]), Err(Refusal::ListLength));
    assert_eq!(
        encode(
            Duration::SevenPointFiveMs,
            Bandwidth::NarrowBand,
            0,
            true,
            &mut []
        ),
        Err(Refusal::SpectrumLength)
    );
}

#[test]
fn wide_numbers_under_the_other_names() {
    let mut lines = [1.0; 400];
    let mut call = |filters, orders: &[usize], indices: &[usize]| {
        apply_temporal_noise_shaping(
            Duration::TenMs,
            Bandwidth::FullBand,
            filters,
            orders,
            indices,
            &mut lines,
        )
    };
    assert_eq!(
        call(usize::MAX, &[0, 0], &[8; 16]),
        Err(Refusal::FilterCount)
    );
    assert_eq!(call(256, &[0, 0], &[8; 16]), Err(Refusal::FilterCount));
    assert_eq!(
        call(2, &[256, 0], &[8; 16]),
        Err(Refusal::Order {
            place: 0,
            found: 255
        })
    );
    assert_eq!(
        call(2, &[0, 0], &[264; 16]),
        Err(Refusal::Index {
            place: 0,
            found: 255
        })
    );
    assert_eq!(call(2, &[0, 0, 0], &[8; 16]), Err(Refusal::ListLength));
    let tns = TemporalNoiseShaping::new(Duration::TenMs);
    assert_eq!(tns.run(&mut lines, 256, 0, false), Err(Refusal::Bandwidth));
}

#[test]
fn refusals_speak() {
    let why: Box<dyn std::error::Error> = Box::new(Refusal::Order { place: 0, found: 9 });
    assert_eq!(why.to_string(), "order 9 at place 0 is over 8");
    assert_eq!(Refusal::Weighting.number(), 8);
}

/// How far finite lines are from those that they should be, as a part of the largest.
fn apart(wanted: &[f32], found: &[f32]) -> f32 {
    assert!(wanted.iter().chain(found).all(|x| x.is_finite()));
    let most = |sizes: &mut dyn Iterator<Item = f32>| sizes.fold(0.0, f32::max);
    let largest = most(&mut wanted.iter().map(|x| x.abs()));
    let pairs = wanted.iter().zip(found);
    most(&mut pairs.map(|(x, y)| (x - y).abs())) / largest
}

/// With the encoder's side data, the decoder gives the lines back, except for rounding.
#[test]
fn encoded_spectra_come_back() {
    let mut list = List::of("encode");
    let mut filtered = 0;
    while list.more() {
        let record = Record::next(&mut list);
        let orders = &record.side[2..4];
        if orders == [0, 0] || record.before.iter().any(|x| !x.is_finite()) {
            continue;
        }
        let mut lines = record.after;
        let duration = DURATIONS[record.duration as usize];
        let bandwidth = BANDWIDTHS[record.bandwidth as usize];
        let (filters, indices) = (record.side[1], &record.side[4..]);
        decode(duration, bandwidth, filters, orders, indices, &mut lines).unwrap();
        assert!(apart(&record.before, &lines) < 4e-6);
        filtered += 1;
    }
    assert_eq!(filtered, 117);
}

/// A gain that is not a number is equal to another such gain and to nothing else.
#[test]
fn equal_calls_have_equal_results() {
    let encoded = |first: f32, near_nyquist: bool| {
        let mut lines: Vec<f32> = (0..400).map(|n| 1000.0 * 0.95f32.powi(n)).collect();
        lines[20] = first;
        encode(
            Duration::TenMs,
            Bandwidth::FullBand,
            320,
            near_nyquist,
            &mut lines,
        )
        .unwrap()
    };
    let strange = encoded(f32::NAN, true);
    assert!(strange.gains[0].gain.is_nan());
    assert_eq!(strange, encoded(f32::INFINITY, true));
    let plain = encoded(1.0, true);
    assert_eq!(plain, encoded(1.0, true));
    assert_eq!(plain.side, strange.side);
    assert_ne!(plain, strange);
    assert_ne!(encoded(1.0, false).gains[0], plain.gains[0]);
}

/// Equal lines are a click. The encoder writes index 0 for it: at full band in the second filter, at 12 kHz in
/// the first. If index 0 meant coefficient 0, as in lc3-codec 0.2.0, the decoder would smear the click.
#[test]
fn a_click_comes_back() {
    for (bandwidth, place) in [(Bandwidth::FullBand, 8), (Bandwidth::SemiSuperWideBand, 0)] {
        let click = [1000.0; 400];
        let mut sent = click;
        let side = encode(Duration::TenMs, bandwidth, 320, false, &mut sent)
            .unwrap()
            .side;
        let zeros = side.indices.iter().filter(|index| **index == 0);
        assert_eq!((side.indices[place], zeros.count()), (0, 1));
        assert!(side.orders[place / 8] > 0);
        let decoded = |indices: [u8; 16]| {
            let mut lines = sent;
            let (filters, orders) = (side.filters, &side.orders);
            decode(
                Duration::TenMs,
                bandwidth,
                filters,
                orders,
                &indices,
                &mut lines,
            )
            .unwrap();
            apart(&click, &lines)
        };
        let mut without = side.indices;
        without[place] = 8;
        assert!(decoded(side.indices) < 4e-6);
        assert!(decoded(without) > 0.5);
    }
}
