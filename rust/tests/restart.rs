//! Saving the decoder's states before a line and restarting there: docs/RULES.md, "Restart at a line (C-22)".
//! A save and a restart, in a frame as it is and in a mended one, must give the lines of the list `decode`,
//! which are those of D, the decoder of lc3-codec 0.2.0. Then come states of every kind, refusals, and lines
//! that are only copied. Refusals are tried through the exports as C calls them, because the crate cannot
//! express 1 and 2 and does not show the states of a refused call. Where the crate can express a call, it must
//! answer the same.

mod common;

use common::frames::{pattern, Frame};
use common::{bits_of, refusal_of, same, List, Record};
use gillsextant::{Refusal, Saved};
use std::collections::BTreeSet;

/// The exports as the crate declares them.
#[allow(dead_code)] // two of them are called here
#[path = "../src/exports.rs"]
mod exports;

/// A frame of the list, saved and restarted at a line, as it is and as it was before it was mended:
/// always D's lines.
fn mended(frame: &Frame, wanted: &[f32], line: usize) {
    let (saved, output) = frame.saved(line);
    assert!(same(&output, wanted));
    assert!(same(&frame.restarted(&saved), &wanted[line..]));
    // The first state is the line before, if that was filtered. No filter reaches beyond its order.
    if frame.filtered(line - 1) {
        assert!(same(&saved.states()[..1], &wanted[line - 1..line]));
    }
    let acting = (0..2).filter(|filter| frame.acts_below(*filter, line));
    let reach = acting.map(|filter| frame.orders[filter] as usize).max();
    let beyond = &saved.states()[reach.unwrap_or(0)..];
    assert!(beyond.iter().all(|state| state.to_bits() == 0));

    let (saved_before, mut output) = frame.before_mending(line).saved(line);
    assert!(same(&saved_before.states(), &saved.states()));
    assert!(same(&frame.restarted(&saved_before), &wanted[line..]));
    // The old output has the lines below already, so that now it is whole.
    assert_eq!(frame.try_restart(&mut output, &saved_before), Ok(()));
    assert!(same(&output, wanted));
}

/// All 242 records of D's lines, each at every band's start, inside every band and at the last stop:
/// 3 lines in the rows of one band and 5 in those of two. The pair where it fails is the last that is
/// printed.
#[test]
fn mended_frames_of_the_list() {
    let mut list = List::of("decode");
    let (mut records, mut tried) = (0, 0);
    let [mut rows, mut filters, mut orders, mut bands] = [(); 4].map(|_| BTreeSet::new());
    while list.more() {
        let record = Record::next(&mut list);
        let frame = Frame::of(&record);
        for line in frame.lines_of_each_kind(records) {
            println!("decode: record {records}, line {line}");
            mended(&frame, &record.after, line);
            tried += 1;
        }
        records += 1;
        rows.insert(5 * frame.duration + frame.bandwidth);
        filters.insert(frame.filters);
        bands.insert(frame.bands().len() as u8);
        let counted = frame.bands().len().min(frame.filters as usize);
        orders.extend(&frame.orders[..counted]);
    }
    assert_eq!((records, tried), (242, 972));
    assert!(rows.into_iter().eq(0..10));
    assert!(filters.into_iter().eq(0..3));
    assert!(orders.into_iter().eq(0..9));
    assert!(bands.into_iter().eq(1..3));
}

/// Where something has run before, states decide: from zeros, and from the states before the line
/// before, frames of the list get other lines. They are counted inside the first band, at the second
/// band's start and inside the second band. At the last stop nothing is left to filter, and any states
/// give D's lines.
#[test]
fn states_decide() {
    let mut list = List::of("decode");
    let (mut records, mut from_zeros, mut from_others) = (0, [0; 3], [0; 3]);
    while list.more() {
        let record = Record::next(&mut list);
        let frame = Frame::of(&record);
        let goes_wrong = |line: usize, states| {
            let found = frame.restarted(&Saved::new(line, states));
            usize::from(!same(&found, &record.after[line..]))
        };
        let mut lines = frame.lines_of_each_kind(records);
        let last = lines.pop().expect("there are some");
        for (kind, line) in lines.into_iter().skip(1).enumerate() {
            let others = frame.saved(line - 1).0.states();
            from_zeros[kind] += goes_wrong(line, [0.0; 8]);
            from_others[kind] += goes_wrong(line, others);
        }
        assert_eq!(goes_wrong(last, [f32::NAN; 8]), 0);
        records += 1;
    }
    assert_eq!((from_zeros, from_others), ([185, 75, 89], [168, 71, 83]));
}

/// A call as C makes it, with its buffers.
#[derive(Clone)]
struct Call {
    frame: Frame,
    output: Vec<f32>,
    line: usize,
    states: [f32; 8],
}

impl Call {
    fn new(frame: Frame, line: usize) -> Self {
        Call {
            output: pattern(frame.spectrum.len()),
            states: pattern(8).try_into().expect("there are eight"),
            frame,
            line,
        }
    }

    fn save(&mut self) -> [u16; 4] {
        let frame = &self.frame;
        // Sound: each pointer is good for its length, and no two overlap.
        let answer = unsafe {
            exports::tns_decode_save(
                frame.duration,
                frame.bandwidth,
                frame.filters,
                frame.orders.as_ptr(),
                frame.orders.len(),
                frame.indices.as_ptr(),
                frame.indices.len(),
                frame.spectrum.as_ptr(),
                frame.spectrum.len(),
                self.output.as_mut_ptr(),
                self.output.len(),
                self.line,
                &mut self.states,
            )
        };
        [answer.refusal, answer.place, answer.found, answer.bits]
    }

    fn restart(&mut self) -> [u16; 4] {
        let frame = &self.frame;
        // Sound as above.
        let answer = unsafe {
            exports::tns_decode_restart(
                frame.duration,
                frame.bandwidth,
                frame.filters,
                frame.orders.as_ptr(),
                frame.orders.len(),
                frame.indices.as_ptr(),
                frame.indices.len(),
                frame.spectrum.as_ptr(),
                frame.spectrum.len(),
                self.output.as_mut_ptr(),
                self.output.len(),
                self.line,
                &self.states,
            )
        };
        [answer.refusal, answer.place, answer.found, answer.bits]
    }

    /// The bits of the output, of the states and of all that is read.
    fn bits(&self) -> [Vec<u32>; 5] {
        let wide = |bytes: &[u8]| bytes.iter().copied().map(u32::from).collect();
        [
            bits_of(&self.output),
            bits_of(&self.states),
            bits_of(&self.frame.spectrum),
            wide(&self.frame.orders),
            wide(&self.frame.indices),
        ]
    }

    /// Both calls are refused with these numbers and leave every bit, and so are the crate's where it can
    /// express them.
    fn assert_refused(&self, number: u16, place: u16, found: u16) {
        for call in [Call::save, Call::restart] {
            let mut lent = self.clone();
            assert_eq!(call(&mut lent), [number, place, found, 0]);
            assert_eq!(lent.bits(), self.bits());
        }
        if self.frame.duration < 2 && self.frame.bandwidth < 5 {
            let why = refusal_of(number, place, found);
            let mut output = self.output.clone();
            let saved = self.frame.try_save(&mut output, self.line);
            assert_eq!(saved.err(), Some(why));
            let saved = Saved::new(self.line, self.states);
            let restarted = self.frame.try_restart(&mut output, &saved);
            assert_eq!(restarted, Err(why));
            assert_eq!(bits_of(&output), bits_of(&self.output));
        }
    }

    /// Both calls are accepted, the second with the states of the first, and leave what the crate's do;
    /// of the states the second leaves every bit.
    fn assert_accepted(&self) {
        let mut lent = self.clone();
        let (saved, whole) = self.frame.saved(self.line);
        assert_eq!(lent.save(), [0; 4]);
        let [output, states, read @ ..] = self.bits();
        let (whole, saved_states) = (bits_of(&whole), bits_of(&saved.states()));
        assert_eq!(lent.bits()[..2], [whole.clone(), saved_states.clone()]);
        assert_eq!(lent.bits()[2..], read);
        assert_ne!(saved_states, states);

        lent.output.clone_from(&self.output);
        assert_eq!(lent.restart(), [0; 4]);
        let below = output[..self.line].iter();
        let mended = below.chain(&whole[self.line..]).copied().collect();
        assert_eq!(lent.bits()[..2], [mended, saved_states]);
        assert_eq!(lent.bits()[2..], read);
    }
}

/// The second band's start of a frame of 10 ms at full band.
fn good() -> Call {
    Call::new(Frame::of_row(0, 4, 8), 200)
}

/// Each of the refusals 1 to 7 by itself.
#[test]
fn refusals_of_the_decoder() {
    type Fault = fn(&mut Frame);
    let faults: [(Fault, [u16; 3]); 18] = [
        (|frame| frame.duration = 2, [1, 0, 0]),
        (|frame| frame.duration = 255, [1, 0, 0]),
        (|frame| frame.bandwidth = 5, [2, 0, 0]),
        (|frame| frame.bandwidth = 255, [2, 0, 0]),
        (|frame| frame.spectrum.truncate(399), [3, 0, 0]),
        (|frame| frame.spectrum.push(1.0), [3, 0, 0]),
        (|frame| frame.spectrum.clear(), [3, 0, 0]),
        (|frame| frame.orders.truncate(1), [4, 0, 0]),
        (|frame| frame.orders.push(1), [4, 0, 0]),
        (|frame| frame.orders.clear(), [4, 0, 0]),
        (|frame| frame.indices.truncate(15), [4, 0, 0]),
        (|frame| frame.indices.push(8), [4, 0, 0]),
        (|frame| frame.indices.clear(), [4, 0, 0]),
        (|frame| frame.filters = 3, [5, 0, 0]),
        (|frame| frame.filters = 255, [5, 0, 0]),
        (|frame| frame.orders[0] = 9, [6, 0, 9]),
        (|frame| frame.orders[1] = 255, [6, 1, 255]),
        (|frame| frame.indices[15] = 17, [7, 15, 17]),
    ];
    for (fault, [number, place, found]) in faults {
        let mut frame = good().frame;
        fault(&mut frame);
        Call::new(frame, 200).assert_refused(number, place, found);
    }
    // Orders and indices of filters that are not counted as well.
    let mut frame = good().frame;
    frame.filters = 0;
    frame.indices[11] = 255;
    Call::new(frame.clone(), 200).assert_refused(7, 11, 255);
    frame.orders[1] = 9;
    Call::new(frame, 200).assert_refused(6, 1, 9);
}

/// Every set of faults, one for each refusal, is refused by the lowest: among them each pair of 7, 16
/// and 17, and all three.
#[test]
fn the_lowest_refusal() {
    const ALL: [u16; 9] = [1, 2, 3, 4, 5, 6, 7, 16, 17];
    for set in 1..1 << ALL.len() {
        let faults: Vec<u16> = (0..ALL.len())
            .filter(|place| set >> place & 1 == 1)
            .map(|place| ALL[place])
            .collect();
        let has = |number| faults.contains(&number);
        let Call {
            mut frame,
            mut line,
            ..
        } = good();
        if has(1) {
            frame.duration = 2;
        }
        if has(2) {
            frame.bandwidth = 5;
        }
        if has(3) {
            frame.spectrum.truncate(399);
        }
        if has(4) {
            frame.indices.truncate(15);
        }
        if has(5) {
            frame.filters = 3;
        }
        if has(6) {
            frame.orders[1] = 10;
        }
        if has(7) {
            frame.indices[11] = 17;
        }
        if has(16) {
            line = 11;
        }
        let mut call = Call::new(frame, line);
        if has(17) {
            call.output.push(0.5);
        }
        println!("faults {faults:?}");
        match faults[0] {
            6 => call.assert_refused(6, 1, 10),
            7 => call.assert_refused(7, 11, 17),
            number => call.assert_refused(number, 0, 0),
        }
    }
}

/// A call of each row, at its shortest length and at its longest.
fn calls_of_every_row(line: fn(&Frame) -> usize) -> Vec<Call> {
    let mut calls = Vec::new();
    for (duration, bandwidth) in (0..2).flat_map(|d| (0..5).map(move |b| (d, b))) {
        let longest = Frame::of_row(duration, bandwidth, 8);
        let mut shortest = longest.clone();
        shortest.spectrum.truncate(longest.last_stop());
        calls.extend([shortest, longest].map(|frame| Call::new(frame.clone(), line(&frame))));
    }
    calls
}

/// In every row the lines from the first start to the last stop are accepted, and no other. Three of the
/// refused ones would become the first start if they were cut to one byte, to two or to four.
#[test]
fn lines_that_are_refused() {
    for call in calls_of_every_row(Frame::first_start) {
        let (first, last) = (call.frame.first_start(), call.frame.last_stop());
        let at = |line| Call {
            line,
            ..call.clone()
        };
        for line in [first, first + 1, last - 1, last] {
            at(line).assert_accepted();
        }
        let near = [0, first - 1, last + 1, 401];
        let cut = [first + (1 << 9), first + (1 << 16), first + (1 << 32)];
        let far = [usize::MAX - 1, usize::MAX];
        for line in [&near[..], &cut, &far].concat() {
            at(line).assert_refused(16, 0, 0);
        }
    }
}

/// In every row an output of another length than the spectrum's is refused, also one that has room
/// for more, or that would do for a shorter spectrum.
#[test]
fn outputs_that_are_refused() {
    for call in calls_of_every_row(Frame::last_stop) {
        let length = call.frame.spectrum.len();
        let of = |length| Call {
            output: pattern(length),
            ..call.clone()
        };
        of(length).assert_accepted();
        for other in [0, 1, call.frame.last_stop() - 1, length - 1, length + 1] {
            of(other).assert_refused(17, 0, 0);
        }
    }
}

/// Eight states of any kind are accepted, everywhere.
#[test]
fn any_states_are_taken() {
    let kinds = [
        f32::NAN,
        f32::INFINITY,
        f32::NEG_INFINITY,
        -0.0,
        f32::MAX,
        f32::from_bits(1),
    ];
    for call in calls_of_every_row(Frame::first_start) {
        for line in call.frame.lines_of_each_kind(5) {
            for state in kinds {
                call.frame.restarted(&Saved::new(line, [state; 8]));
            }
        }
    }
}

/// The first line that the lattice makes of a line and a first state, at order 1 with this index, in
/// the first band and at the second band's start.
fn first_line(line: f32, state: f32, index: u8) -> f32 {
    let found = [50, 200].map(|n| {
        let mut frame = Frame::of_row(0, 4, 1);
        frame.spectrum[n] = line;
        frame.indices = vec![index; 16];
        // Order 1 has one state; the other seven have no part in it.
        let mut states = [f32::NAN; 8];
        states[0] = state;
        frame.restarted(&Saved::new(n, states))[0]
    });
    assert!(same(&found[..1], &found[1..]));
    found[0]
}

/// What comes of them: at order 1 the line less the coefficient times the state, as f32s. Index 8 means
/// coefficient 0, and 9 one above it.
#[test]
fn odd_states_run_on() {
    assert!(first_line(1.0, f32::NAN, 9).is_nan());
    assert!(first_line(1.0, f32::NAN, 8).is_nan());
    assert!(first_line(1.0, f32::INFINITY, 8).is_nan());
    assert_eq!(first_line(1.0, f32::INFINITY, 9), f32::NEG_INFINITY);
    assert_eq!(first_line(1.0, f32::NEG_INFINITY, 9), f32::INFINITY);
    // A state of -0.0 is not 0.0.
    assert_eq!(first_line(-0.0, 0.0, 9).to_bits(), (-0.0f32).to_bits());
    assert_eq!(first_line(-0.0, -0.0, 9).to_bits(), 0.0f32.to_bits());
}

/// NaNs in every line: those that no filter has keep their bits in what is saved, and from the line on
/// in what is restarted. Of every row, with every count, with order 0 and with order 8.
#[test]
fn copied_lines_keep_their_bits() {
    for call in calls_of_every_row(Frame::first_start) {
        for (filters, order) in (0..3).flat_map(|filters| [(filters, 0), (filters, 8)]) {
            let mut frame = call.frame.clone();
            frame.filters = filters;
            frame.orders = vec![order; 2];
            // Other NaNs than those in the output.
            frame.spectrum = pattern(frame.spectrum.len()).iter().map(|x| -x).collect();
            for line in frame.lines_of_each_kind(7) {
                let (saved, _) = frame.saved(line);
                frame.restarted(&saved);
            }
        }
    }
}

#[test]
fn saved_keeps_line_and_states() {
    let states = pattern(8).try_into().expect("there are eight");
    let saved = Saved::new(usize::MAX, states);
    let copy = saved;
    assert_eq!(copy.line(), usize::MAX);
    assert_eq!(bits_of(&copy.states()), bits_of(&states));
    assert_ne!(saved, copy); // NaNs
    assert_eq!(Saved::new(12, [1.0; 8]), Saved::new(12, [1.0; 8]));
    assert_ne!(Saved::new(12, [1.0; 8]), Saved::new(13, [1.0; 8]));
    assert_ne!(Saved::new(12, [1.0; 8]), Saved::new(12, [2.0; 8]));
}

#[test]
fn both_refusals_speak() {
    assert_eq!(Refusal::Line.number(), 16);
    assert_eq!(Refusal::OutputLength.number(), 17);
    assert_eq!(
        Refusal::Line.to_string(),
        "the line is below the first start or over the last stop"
    );
    assert_eq!(
        Refusal::OutputLength.to_string(),
        "the output has another length than the spectrum"
    );
}
