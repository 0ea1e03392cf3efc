//! The caller's float environment. In every environment a call of the crate answers and leaves the same bits,
//! and the environment is the same afterwards. Other tests show that the spectra can detect a difference: the
//! exports, called without the guard, give other bits or raise the exceptions.
//!
//! A test sets the thread's control word MXCSR only for a call and restores it before it compares anything,
//! because Rust assumes the default.

mod common;

use common::narrations::{block, priced, Block, Bytes};
use gillsextant::decoder::temporal_noise_shaping::apply_temporal_noise_shaping;
use gillsextant::encoder::temporal_noise_shaping::TemporalNoiseShaping;
use gillsextant::narration::{read_block, rescue_block, write_block, BlockRefusal};
use gillsextant::{
    cost, cost_exact, decode, decode_restart, decode_save, encode, Bandwidth, Duration, Refusal,
    Saved,
};
use std::arch::asm;
use std::hint::black_box;

// The fields of MXCSR. Of the default only the masks are set.
const FLUSH_TO_ZERO: u32 = 0x8000;
/// To nearest, down, up, towards zero.
const ROUNDING_MODES: [u32; 4] = [0x0000, 0x2000, 0x4000, 0x6000];
const MASKS: u32 = 0x1f80;
const DENORMALS_ARE_ZERO: u32 = 0x0040;
const FLAGS: u32 = 0x003f;
const DEFAULT: u32 = MASKS;
const FIRST_MASK: u32 = 0x0080;
const DENORMAL: u32 = 0x0002;
const DIVIDE_BY_ZERO: u32 = 0x0004;

/// The exports as the crate declares them.
#[path = "../src/exports.rs"]
mod unguarded;

/// An answer's four numbers.
fn numbers(answer: unguarded::Answer) -> [u16; 4] {
    [answer.refusal, answer.place, answer.found, answer.bits]
}

fn word_now() -> u32 {
    let mut word = 0;
    unsafe { asm!("stmxcsr [{}]", in(reg) &mut word) };
    word
}

fn set_word(word: u32) {
    unsafe { asm!("ldmxcsr [{}]", in(reg) &word) };
}

/// Makes a call with this word set; what it gave, and the word afterwards.
#[inline(never)]
fn within<R>(word: u32, call: impl FnOnce() -> R) -> (R, u32) {
    let before = word_now();
    set_word(word);
    let answer = call();
    let after = word_now();
    set_word(before);
    (answer, after)
}

/// Every rounding mode, with flush-to-zero and denormals-are-zero each off and on.
fn masked() -> Vec<u32> {
    let mut words = Vec::new();
    for mode in ROUNDING_MODES {
        for flush in [0, FLUSH_TO_ZERO] {
            words.extend([0, DENORMALS_ARE_ZERO].map(|zero| MASKS | mode | flush | zero));
        }
    }
    words
}

/// The same words, and each of them with one of the six exceptions unmasked and with all of them.
fn environments() -> Vec<u32> {
    let mut words = masked();
    for word in masked() {
        words.extend((0..6).map(|exception| word & !(FIRST_MASK << exception)));
        words.push(word & !MASKS);
    }
    words
}

/// What a call said, number by number, and the bits of the lines that it left.
#[derive(Clone, Debug, PartialEq)]
struct Outcome {
    said: Vec<u32>,
    lines: Vec<u32>,
}

fn bits_of(floats: &[f32]) -> impl Iterator<Item = u32> + '_ {
    floats.iter().map(|x| x.to_bits())
}

impl Outcome {
    fn new(said: impl IntoIterator<Item = u32>, lines: &[f32]) -> Self {
        Outcome {
            said: said.into_iter().collect(),
            lines: bits_of(lines).collect(),
        }
    }
}

// Every call is of one row, with one filter.
const DURATION: Duration = Duration::TenMs;
const BANDWIDTH: Bandwidth = Bandwidth::WideBand;
const CODES: (u8, u8) = (0, 1);
const LINES: usize = 160;
const BITS: u64 = 320;
const ORDERS: [u8; 2] = [8, 0];
const INDICES: [u8; 16] = [11, 7, 10, 8, 9, 7, 9, 7, 8, 8, 8, 8, 8, 8, 8, 8];
/// Where states are saved and the decoder restarted: inside the band, and before large lines overflow.
const LINE: usize = 14;
/// What an encode call by the export finds where it writes besides the lines. Only a refused call leaves it.
const LENT_BYTE: u8 = 0xa5;
const LENT: f32 = -7.25;

/// A call in an environment: what it did, and the word afterwards.
type Call = fn(u32, &[f32]) -> (Outcome, u32);

/// The bits of gains and dampings. A NaN has no bits of its own, so one pattern stands for all.
fn gains_of(floats: &[f32]) -> impl Iterator<Item = u32> + '_ {
    let pattern = |x: &f32| if x.is_nan() { 0x7fc0_0000 } else { x.to_bits() };
    floats.iter().map(pattern)
}

fn by_encode(word: u32, lines: &[f32]) -> (Outcome, u32) {
    let mut lines = lines.to_vec();
    let (answer, after) = within(word, || {
        encode(DURATION, BANDWIDTH, BITS, false, &mut lines)
    });
    let encoded = answer.expect("the frame is accepted");
    let side = encoded.side;
    let bytes = [side.weighting, side.filters].into_iter();
    let bytes = bytes.chain(side.orders).chain(side.indices).map(u32::from);
    let said = [u32::from(encoded.bits)].into_iter().chain(bytes);
    let said = said.chain(bits_of(&encoded.coefficients));
    let gains = encoded.gains.map(|of| [of.gain, of.damping]).concat();
    let on = encoded.gains.map(|of| u32::from(of.on));
    let said = said.chain(gains_of(&gains)).chain(on);
    (Outcome::new(said, &lines), after)
}

fn by_run(word: u32, lines: &[f32]) -> (Outcome, u32) {
    let mut lines = lines.to_vec();
    let tns = TemporalNoiseShaping::new(DURATION);
    let (answer, after) = within(word, || {
        tns.run(&mut lines, CODES.1.into(), BITS as usize, false)
    });
    let result = answer.expect("the frame is accepted");
    let numbers = [
        result.nbits_tns,
        result.lpc_weighting.into(),
        result.num_tns_filters,
    ];
    let numbers = numbers.into_iter().chain(result.rc_order);
    let said = numbers.chain(result.rc_i).map(|n| n as u32);
    let said = said.chain(bits_of(&result.rc_q));
    (Outcome::new(said, &lines), after)
}

fn by_decode(word: u32, lines: &[f32]) -> (Outcome, u32) {
    let mut lines = lines.to_vec();
    let (answer, after) = within(word, || {
        decode(DURATION, BANDWIDTH, 1, &ORDERS, &INDICES, &mut lines)
    });
    answer.expect("the frame is accepted");
    (Outcome::new([], &lines), after)
}

fn by_apply(word: u32, lines: &[f32]) -> (Outcome, u32) {
    let mut lines = lines.to_vec();
    let (orders, indices) = (ORDERS.map(usize::from), INDICES.map(usize::from));
    let (answer, after) = within(word, || {
        apply_temporal_noise_shaping(DURATION, BANDWIDTH, 1, &orders, &indices, &mut lines)
    });
    answer.expect("the frame is accepted");
    (Outcome::new([], &lines), after)
}

fn save_at(line: usize, lines: &[f32], output: &mut [f32]) -> Result<Saved, Refusal> {
    decode_save(
        DURATION, BANDWIDTH, 1, &ORDERS, &INDICES, lines, output, line,
    )
}

fn restart(saved: &Saved, lines: &[f32], output: &mut [f32]) -> Result<(), Refusal> {
    decode_restart(
        DURATION, BANDWIDTH, 1, &ORDERS, &INDICES, lines, output, saved,
    )
}

/// What is saved of lines in the default environment.
fn saved(lines: &[f32]) -> Saved {
    save_at(LINE, lines, &mut vec![0.0; lines.len()]).expect("the frame is accepted")
}

fn by_save(word: u32, lines: &[f32]) -> (Outcome, u32) {
    let mut output = vec![0.0; lines.len()];
    let (answer, after) = within(word, || save_at(LINE, lines, &mut output));
    let saved = answer.expect("the frame is accepted");
    (Outcome::new(bits_of(&saved.states()), &output), after)
}

fn by_restart(word: u32, lines: &[f32]) -> (Outcome, u32) {
    let saved = saved(lines);
    let mut output = vec![0.0; lines.len()];
    let (answer, after) = within(word, || restart(&saved, lines, &mut output));
    answer.expect("the frame is accepted");
    (Outcome::new([], &output), after)
}

fn by_cost(word: u32, lines: &[f32]) -> (Outcome, u32) {
    let (answer, after) = within(word, || cost(0, 1, &ORDERS, &INDICES));
    let bits = answer.expect("the side data are accepted");
    (Outcome::new([u32::from(bits)], lines), after)
}

fn by_cost_exact(word: u32, lines: &[f32]) -> (Outcome, u32) {
    let (answer, after) = within(word, || cost_exact(0, 1, &ORDERS, &INDICES));
    let exact = answer.expect("the side data are accepted");
    let [first, second] = exact.parts;
    (
        Outcome::new([exact.bits.into(), first, second], lines),
        after,
    )
}

/// How many numbers an encode call by the export says before its gains: answer, side data, coefficients.
const BEFORE_GAINS: usize = 4 + 20 + 16;

fn encode_unguarded(word: u32, lines: &[f32]) -> (Outcome, u32) {
    let mut lines = lines.to_vec();
    let (mut side, mut coefficients) = ([LENT_BYTE; 20], [LENT; 16]);
    let (mut gains, mut on) = ([LENT; 4], [LENT_BYTE; 2]);
    let (answer, after) = within(word, || unsafe {
        unguarded::tns_encode(
            CODES.0,
            CODES.1,
            BITS,
            false,
            lines.as_mut_ptr(),
            lines.len(),
            &mut side,
            &mut coefficients,
            &mut gains,
            &mut on,
        )
    });
    let said = numbers(answer).into_iter().map(u32::from);
    let said = said
        .chain(side.map(u32::from))
        .chain(bits_of(&coefficients));
    let said = said.chain(gains_of(&gains)).chain(on.map(u32::from));
    (Outcome::new(said, &lines), after)
}

fn decode_unguarded(word: u32, lines: &[f32]) -> (Outcome, u32) {
    decode_orders_unguarded(ORDERS, word, lines)
}

fn decode_orders_unguarded(orders: [u8; 2], word: u32, lines: &[f32]) -> (Outcome, u32) {
    let mut lines = lines.to_vec();
    let (answer, after) = within(word, || unsafe {
        unguarded::tns_decode(
            CODES.0,
            CODES.1,
            1,
            orders.as_ptr(),
            orders.len(),
            INDICES.as_ptr(),
            INDICES.len(),
            lines.as_mut_ptr(),
            lines.len(),
        )
    });
    let said = numbers(answer).map(u32::from);
    (Outcome::new(said, &lines), after)
}

fn save_unguarded(word: u32, lines: &[f32]) -> (Outcome, u32) {
    save_at_unguarded(LINE, word, lines)
}

fn save_at_unguarded(line: usize, word: u32, lines: &[f32]) -> (Outcome, u32) {
    let mut output = vec![0.0; lines.len()];
    let mut states = [0.0; 8];
    let (answer, after) = within(word, || unsafe {
        unguarded::tns_decode_save(
            CODES.0,
            CODES.1,
            1,
            ORDERS.as_ptr(),
            ORDERS.len(),
            INDICES.as_ptr(),
            INDICES.len(),
            lines.as_ptr(),
            lines.len(),
            output.as_mut_ptr(),
            output.len(),
            line,
            &mut states,
        )
    });
    let said = numbers(answer).into_iter().map(u32::from);
    (Outcome::new(said.chain(bits_of(&states)), &output), after)
}

fn restart_unguarded(word: u32, lines: &[f32]) -> (Outcome, u32) {
    restart_at_unguarded(LINE, word, lines)
}

fn restart_at_unguarded(line: usize, word: u32, lines: &[f32]) -> (Outcome, u32) {
    let mut output = vec![0.0; lines.len()];
    let states = saved(lines).states();
    let (answer, after) = within(word, || unsafe {
        unguarded::tns_decode_restart(
            CODES.0,
            CODES.1,
            1,
            ORDERS.as_ptr(),
            ORDERS.len(),
            INDICES.as_ptr(),
            INDICES.len(),
            lines.as_ptr(),
            lines.len(),
            output.as_mut_ptr(),
            output.len(),
            line,
            &states,
        )
    });
    let said = numbers(answer).map(u32::from);
    (Outcome::new(said, &output), after)
}

fn cost_unguarded(word: u32, orders: [u8; 2]) -> [u16; 4] {
    let (answer, _) = within(word, || unsafe {
        unguarded::tns_cost(
            0,
            1,
            orders.as_ptr(),
            orders.len(),
            INDICES.as_ptr(),
            INDICES.len(),
        )
    });
    numbers(answer)
}

/// The numbers of the answer, and the parts as the call leaves them.
fn cost_exact_unguarded(word: u32, orders: [u8; 2]) -> ([u16; 4], [u32; 2]) {
    let mut parts = [1, 2];
    let (answer, _) = within(word, || unsafe {
        unguarded::tns_cost_2048ths(
            0,
            1,
            orders.as_ptr(),
            orders.len(),
            INDICES.as_ptr(),
            INDICES.len(),
            &mut parts,
        )
    });
    (numbers(answer), parts)
}

/// The record of this row and these orders and indices, and the blocks 7 and 65535 that it makes.
fn narrated() -> (Bytes, [Block; 2]) {
    let mut record = [0; 24];
    record[..6].copy_from_slice(&[CODES.0, CODES.1, 1, 0, ORDERS[0], ORDERS[1]]);
    record[6..22].copy_from_slice(&INDICES);
    let record = priced(record);
    (record, [7, 65535].map(|number| block(number, &[record])))
}

/// A block's two numbers, as the others' four.
fn block_numbers(answer: unguarded::BlockAnswer) -> [u16; 2] {
    [answer.refusal, answer.records]
}

fn write_unguarded(word: u32, records: &[u8], block: &mut [u8; 512]) -> [u16; 2] {
    let (answer, _) = within(word, || unsafe {
        unguarded::tns_block_write(7, records.as_ptr(), records.len(), block)
    });
    block_numbers(answer)
}

fn read_unguarded(word: u32, block: &[u8], records: &mut [u8; 480]) -> [u16; 2] {
    let (answer, _) = within(word, || unsafe {
        unguarded::tns_block_read(7, block.as_ptr(), block.len(), records)
    });
    block_numbers(answer)
}

fn rescue_unguarded(word: u32, bytes: &[u8], block: &mut [u8; 512]) -> [u16; 2] {
    let (answer, _) = within(word, || unsafe {
        unguarded::tns_block_rescue(7, bytes.as_ptr(), bytes.len(), block)
    });
    [answer.refusal, answer.number]
}

fn falling(loudest: f32) -> Vec<f32> {
    (0..LINES as i32)
        .map(|n| loudest * 0.95f32.powi(n))
        .collect()
}

/// Whether the encoder filters the falling spectrum whose loudest line has these bits.
fn filters(loudest: u32) -> bool {
    let mut lines = falling(f32::from_bits(loudest));
    let encoded = encode(DURATION, BANDWIDTH, BITS, false, &mut lines);
    encoded.expect("the frame is accepted").side.orders != [0, 0]
}

/// The quietest falling spectrum that the encoder filters, and the next quieter one. It filters none
/// whose three energies have the product 0, so here a rounding decides, and every field of the answer
/// hangs on it.
fn at_the_edge() -> [Vec<f32>; 2] {
    let (mut off, mut on) = ((-40f32).exp2().to_bits(), 1f32.to_bits());
    assert!(filters(on) && !filters(off));
    while on - off > 1 {
        let middle = off + (on - off) / 2;
        if filters(middle) {
            on = middle;
        } else {
            off = middle;
        }
    }
    [on, off].map(|bits| falling(f32::from_bits(bits)))
}

/// Ordinary lines; some that are subnormal; two spectra at the edge; large lines; one that is infinite.
fn spectra() -> Vec<Vec<f32>> {
    let ordinary = falling(1000.0);
    let mut subnormal = ordinary.clone();
    subnormal[..30].fill(f32::from_bits(0x0000_0b8e));
    let mut infinite = ordinary.clone();
    infinite[30] = f32::INFINITY;
    let large = (0..LINES).map(|n| if n % 3 == 0 { -3e38 } else { 3e38 });
    let [on, off] = at_the_edge();
    vec![ordinary, subnormal, on, off, large.collect(), infinite]
}

/// In every environment what is done in the default one, and the environment afterwards as it was.
fn same_in_every_environment(call: Call) {
    let spectra = spectra();
    for (n, lines) in spectra.iter().enumerate() {
        let (expected, _) = call(DEFAULT, lines);
        for word in environments() {
            let (found, _) = call(word, lines);
            assert_eq!(found, expected, "spectrum {n} with MXCSR {word:#06x}");
        }
    }
    // With the flags up as well: none is lost, and where the guard acts none is added.
    let all_up = environments().into_iter().map(|word| word | FLAGS);
    for word in environments().into_iter().chain(all_up) {
        for (n, lines) in spectra.iter().enumerate() {
            let (_, after) = call(word, lines);
            let raised = if word == DEFAULT { after & FLAGS } else { 0 };
            assert_eq!(after, word | raised, "spectrum {n} with MXCSR {word:#06x}");
        }
    }
}

#[test]
fn encode_is_the_same() {
    same_in_every_environment(by_encode);
}

#[test]
fn decode_is_the_same() {
    same_in_every_environment(by_decode);
}

#[test]
fn save_is_the_same() {
    same_in_every_environment(by_save);
}

#[test]
fn restart_is_the_same() {
    same_in_every_environment(by_restart);
}

#[test]
fn cost_is_the_same() {
    same_in_every_environment(by_cost);
}

#[test]
fn cost_exact_is_the_same() {
    same_in_every_environment(by_cost_exact);
}

#[test]
fn encode_by_the_other_name_is_the_same() {
    same_in_every_environment(by_run);
}

#[test]
fn decode_by_the_other_name_is_the_same() {
    same_in_every_environment(by_apply);
}

/// The calls that compute with floats, without the guard.
const UNGUARDED: [Call; 4] = [
    encode_unguarded,
    decode_unguarded,
    save_unguarded,
    restart_unguarded,
];

/// Without the guard, every environment except the default changes lines.
#[test]
fn lines_hang_on_the_environment() {
    let spectra = spectra();
    for word in masked() {
        for call in UNGUARDED {
            let other = |x: &Vec<f32>| call(word, x).0.lines != call(DEFAULT, x).0.lines;
            assert_eq!(spectra.iter().any(other), word != DEFAULT, "{word:#06x}");
        }
    }
}

/// And the encoder's bits, side data and coefficients, and the states that are saved.
#[test]
fn side_data_and_states_hang_on_the_environment() {
    let spectra = spectra();
    for word in masked() {
        for call in [encode_unguarded as Call, save_unguarded] {
            let said = |word, x: &Vec<f32>| {
                let mut said = call(word, x).0.said;
                said.truncate(BEFORE_GAINS);
                said
            };
            let other = |x: &Vec<f32>| said(word, x) != said(DEFAULT, x);
            assert_eq!(spectra.iter().any(other), word != DEFAULT, "{word:#06x}");
        }
    }
}

/// And the gains: gain, damping, on or off.
#[test]
fn gains_hang_on_the_environment() {
    let spectra = spectra();
    let gains = |word, x: &Vec<f32>| encode_unguarded(word, x).0.said.split_off(BEFORE_GAINS);
    for word in masked() {
        let other = |x: &Vec<f32>| gains(word, x) != gains(DEFAULT, x);
        assert_eq!(spectra.iter().any(other), word != DEFAULT, "{word:#06x}");
    }
}

/// What single products raise: all exceptions but the division by zero. An emulator may have no flag for a
/// denormal operand; then no call can raise it either.
fn raised_by_products() -> u32 {
    let raised =
        |x: f32, y: f32| within(DEFAULT, || black_box(black_box(x) * black_box(y))).1 & FLAGS;
    let denormal = raised(f32::from_bits(1), 1.0);
    let small = f32::MIN_POSITIVE;
    let others = raised(0.0, f32::INFINITY) | raised(f32::MAX, f32::MAX) | raised(small, small);
    assert_eq!(others | DENORMAL | DIVIDE_BY_ZERO, FLAGS);
    assert_eq!(denormal & !DENORMAL, 0);
    others | denormal
}

/// A call raises five of the six exceptions, and would end there if they were not masked. No spectrum
/// is known at which the library divides by zero.
#[test]
fn calls_raise_exceptions() {
    for call in UNGUARDED {
        let raised = |sum, lines: &Vec<f32>| sum | call(DEFAULT, lines).1 & FLAGS;
        let raised = spectra().iter().fold(0, raised);
        assert_eq!(raised, raised_by_products());
    }
}

/// As include/tns.h says, refusals and the cost calls need no guard in C.
#[test]
fn refusals_and_cost_are_the_same_unguarded() {
    for lines in spectra() {
        let before: Vec<u32> = bits_of(&lines).collect();
        let short = &lines[1..];
        for word in environments() {
            let (refused, _) = decode_orders_unguarded([8, 9], word, &lines);
            assert_eq!(refused.said, [6, 1, 9, 0]);
            assert_eq!(refused.lines, before);
            let (refused, _) = encode_unguarded(word, short);
            assert_eq!(refused.said[..4], [3, 0, 0, 0]);
            let (bytes, floats) = ([LENT_BYTE.into(); 20], [LENT.to_bits(); 20]);
            let left = bytes.into_iter().chain(floats).chain([LENT_BYTE.into(); 2]);
            assert_eq!(refused.said[4..], left.collect::<Vec<u32>>());
            assert_eq!(refused.lines, before[1..]);
            for call in [save_at_unguarded, restart_at_unguarded] {
                let (refused, _) = call(LINES + 1, word, &lines);
                assert_eq!(refused.said[..4], [16, 0, 0, 0]);
                assert_eq!(refused.lines, [0; LINES]);
            }
            assert_eq!(cost_unguarded(word, [8, 9]), [6, 1, 9, 0]);
            assert_eq!(
                cost_unguarded(word, ORDERS),
                cost_unguarded(DEFAULT, ORDERS)
            );
            let refused = cost_exact_unguarded(word, [8, 9]);
            assert_eq!(refused, ([6, 1, 9, 0], [1, 2]));
            assert_eq!(
                cost_exact_unguarded(word, ORDERS),
                cost_exact_unguarded(DEFAULT, ORDERS)
            );
        }
    }
}

/// Blocks through the crate and, as include/tns.h allows in C, without the guard: what is written, read and
/// rescued, what is refused, and the environment afterwards.
#[test]
fn blocks_are_the_same() {
    let (record, [wanted, elsewhere]) = narrated();
    let cut = &wanted[..511];
    for word in environments() {
        let (mut block, mut records) = ([0; 512], [0; 480]);
        let answer = within(word, || write_block(7, &record, &mut block));
        assert_eq!((answer, block), ((Ok(1), word), wanted));
        let answer = within(word, || read_block(7, &wanted, &mut records));
        assert_eq!((answer, &records[..24]), ((Ok(1), word), &record[..]));
        let refused = within(word, || read_block(7, cut, &mut records));
        assert_eq!(refused, (Err(BlockRefusal::Length), word));
        let refused = within(word, || write_block(7, &record[1..], &mut block));
        assert_eq!(refused, (Err(BlockRefusal::Record), word));
        let mut block = [0; 512];
        let answer = within(word, || rescue_block(7, &elsewhere, &mut block));
        assert_eq!((answer, block), ((Ok(65535), word), wanted));
        let refused = within(word, || rescue_block(7, cut, &mut block));
        assert_eq!(refused, (Err(BlockRefusal::Length), word));

        let (mut block, mut records) = ([0; 512], [0; 480]);
        assert_eq!(write_unguarded(word, &record, &mut block), [0, 1]);
        assert_eq!(block, wanted);
        assert_eq!(read_unguarded(word, &wanted, &mut records), [0, 1]);
        assert_eq!(records[..24], record);
        assert_eq!(write_unguarded(word, &record[1..], &mut block), [12, 0]);
        assert_eq!(read_unguarded(word, cut, &mut records), [9, 0]);
        let mut block = [0; 512];
        assert_eq!(rescue_unguarded(word, &elsewhere, &mut block), [0, 65535]);
        assert_eq!(block, wanted);
        assert_eq!(rescue_unguarded(word, cut, &mut block), [9, 0]);
    }
}

/// A refused call leaves the environment too.
#[test]
fn refusals_leave_the_environment() {
    for word in environments() {
        let mut lines = vec![1.5; LINES - 1];
        let (answer, after) = within(word, || {
            encode(DURATION, BANDWIDTH, BITS, false, &mut lines)
        });
        assert_eq!((answer.err(), after), (Some(Refusal::SpectrumLength), word));
        let (answer, after) = within(word, || cost(2, 1, &ORDERS, &INDICES));
        assert_eq!((answer, after), (Err(Refusal::Weighting), word));
        let (answer, after) = within(word, || cost_exact(2, 1, &ORDERS, &INDICES));
        assert_eq!((answer, after), (Err(Refusal::Weighting), word));
        let (lines, mut output) = ([1.5; LINES], [0.0; LINES]);
        let (answer, after) = within(word, || save_at(LINES + 1, &lines, &mut output));
        assert_eq!((answer, after), (Err(Refusal::Line), word));
        let saved = Saved::new(LINE, [0.0; 8]);
        let (answer, after) = within(word, || restart(&saved, &lines, &mut output[1..]));
        assert_eq!((answer, after), (Err(Refusal::OutputLength), word));
    }
}
