//! The two builds of the original behind one type.
//! Assumes that both crates come from the same text (`original/lib.rs`).

use crate::document::{Encoded, Side};
use std::hint::black_box;

/// D's public function: duration code, bandwidth, filters, orders, indices,
/// lines. Assumes a bandwidth from 0 to 4; any duration code but 0 is 7.5 ms.
type Decode = fn(u8, u8, usize, &[usize], &[usize], &mut [f32]);

pub struct Build {
    pub name: &'static str,
    /// E's `apply_quantization`: filters, coefficients, indices, orders.
    pub quantize: fn(usize, &mut [f32], &mut [usize], &mut [usize]),
    /// E's `calc_bit_budget`: filters, weighting, indices, orders.
    pub cost: fn(usize, u8, &[usize], &[usize]) -> usize,
    pub powi: fn(f32, usize) -> f32,
    pub powi_loop: fn(f32) -> [f32; 9],
    /// D's coefficient of an index.
    pub decoder_coefficient: fn(usize) -> f32,
    pub encoder_step: f32,
    pub decoder_step: f32,
    pub decode: Decode,
    /// E's public function: duration code, bandwidth, bit number, near-Nyquist
    /// flag, lines. E is configured for as many lines as there are.
    pub encode: fn(u8, u8, u64, bool, &mut [f32]) -> Encoded,
    /// The lags of one filter: duration code, bandwidth, filter, lines.
    pub lags: fn(u8, u8, usize, &[f32]) -> [f32; 9],
    /// The coefficients before they are quantized: duration code, bandwidth,
    /// near-Nyquist flag, weighting, lines.
    pub reflection: fn(u8, u8, bool, u8, &[f32]) -> [f32; 16],
}

macro_rules! build {
    ($krate:ident, $name:literal) => {{
        use $krate::common::config::FrameDuration::{self, SevenPointFiveMs, TenMs};
        use $krate::common::config::Lc3Config;
        use $krate::decoder::side_info::Bandwidth;
        use $krate::decoder::temporal_noise_shaping as decoder;
        use $krate::encoder::temporal_noise_shaping as encoder;
        fn duration(code: u8) -> FrameDuration {
            if code == 0 {
                TenMs
            } else {
                SevenPointFiveMs
            }
        }
        fn config(code: u8, ne: usize) -> Lc3Config {
            let n_ms = duration(code);
            Lc3Config { n_ms, ne }
        }
        Build {
            name: $name,
            quantize: encoder::oracle_door::apply_quantization,
            cost: encoder::oracle_door::calc_bit_budget,
            powi: encoder::oracle_door::powi,
            powi_loop: encoder::oracle_door::powi_loop,
            decoder_coefficient: decoder::oracle_door::coefficient,
            encoder_step: encoder::oracle_step::QUANTIZER_STEPSIZE,
            decoder_step: decoder::oracle_step::QUANTIZER_STEPSIZE,
            decode: |code, bandwidth, filters, orders, indices, lines| {
                let bandwidth = match bandwidth {
                    0 => Bandwidth::NarrowBand,
                    1 => Bandwidth::WideBand,
                    2 => Bandwidth::SemiSuperWideBand,
                    3 => Bandwidth::SuperWideBand,
                    _ => Bandwidth::FullBand,
                };
                decoder::apply_temporal_noise_shaping(
                    duration(code),
                    bandwidth,
                    filters,
                    orders,
                    indices,
                    lines,
                )
            },
            encode: |code, bandwidth, bits, near_nyquist, lines| {
                let e = encoder::TemporalNoiseShaping::new(config(code, lines.len()));
                let result = e.run(lines, bandwidth as usize, bits as usize, near_nyquist);
                Encoded {
                    bits: result.nbits_tns,
                    side: Side {
                        weighting: result.lpc_weighting,
                        filters: result.num_tns_filters,
                        orders: result.rc_order,
                        indices: result.rc_i,
                    },
                    coefficients: result.rc_q,
                }
            },
            lags: |code, bandwidth, filter, lines| {
                let config = config(code, lines.len());
                encoder::oracle_door::lags(config, bandwidth as usize, filter, lines)
            },
            reflection: |code, bandwidth, near_nyquist, weighting, lines| {
                let config = config(code, lines.len());
                let bandwidth = bandwidth as usize;
                encoder::oracle_door::reflection(config, bandwidth, near_nyquist, weighting, lines)
            },
        }
    }};
}

pub fn both() -> [Build; 2] {
    [build!(original_std, "std"), build!(original_libm, "libm")]
}

impl Build {
    /// E's bits of side data.
    pub fn bits(&self, side: &Side) -> usize {
        (self.cost)(side.filters, side.weighting, &side.indices, &side.orders)
    }

    /// One value through E's quantization: its index and what E leaves in its
    /// place, as a bit pattern.
    pub fn quantize_one(&self, x: f32) -> (usize, u32) {
        let mut rc_q = [0.0; 16];
        rc_q[0] = black_box(x);
        let mut rc_i = [0; 16];
        (self.quantize)(1, &mut rc_q, &mut rc_i, &mut [0; 2]);
        (rc_i[0], rc_q[0].to_bits())
    }
}
