//! All calls of the library's nine functions. Each call is made in the default float environment
//! (`float`), so nobody has to know which of them compute with floats. All are inlined except the encoder's
//! and those on blocks: passing nine arguments on would take longer than a decode without a filter, and the
//! calls that save and restart have more arguments.

use crate::exports::{
    tns_block_read, tns_block_rescue, tns_block_write, tns_cost, tns_cost_2048ths, tns_decode,
    tns_decode_restart, tns_decode_save, tns_encode, Answer, BlockAnswer, RescueAnswer,
};
use crate::narration::BlockRefusal;
use crate::{float, Encoded, ExactCost, FilterGain, Refusal, SideData};

impl Answer {
    #[inline]
    fn accepted(self) -> Result<(), Refusal> {
        if self.refusal == 0 {
            Ok(())
        } else {
            Err(self.why())
        }
    }

    /// Not inlined, so that an accepted call costs one comparison.
    #[cold]
    #[inline(never)]
    fn why(self) -> Refusal {
        Refusal::of(self.refusal, self.place, self.found)
    }
}

impl BlockAnswer {
    fn accepted(self) -> Result<usize, BlockRefusal> {
        match self.refusal {
            0 => Ok(self.records.into()),
            number => Err(BlockRefusal::of(number)),
        }
    }
}

impl RescueAnswer {
    fn accepted(self) -> Result<u16, BlockRefusal> {
        match self.refusal {
            0 => Ok(self.number),
            number => Err(BlockRefusal::of(number)),
        }
    }
}

pub fn encode(
    duration: u8,
    bandwidth: u8,
    bits: u64,
    near_nyquist: bool,
    lines: &mut [f32],
) -> Result<Encoded, Refusal> {
    let (mut bytes, mut coefficients) = ([0; 20], [0.0; 16]);
    let (mut gains, mut on) = ([0.0; 4], [0; 2]);
    let (to_bytes, to_coefficients) = (&mut bytes, &mut coefficients);
    let (to_gains, to_on) = (&mut gains, &mut on);
    // Sound: each pointer comes from a borrow, is valid for its length, and no two overlap.
    let answer = float::in_default(move || unsafe {
        tns_encode(
            duration,
            bandwidth,
            bits,
            near_nyquist,
            lines.as_mut_ptr(),
            lines.len(),
            to_bytes,
            to_coefficients,
            to_gains,
            to_on,
        )
    });
    answer.accepted()?;
    let [weighting, filters, first, second, indices @ ..] = bytes;
    let side = SideData {
        weighting,
        filters,
        orders: [first, second],
        indices,
    };
    Ok(Encoded {
        bits: answer.bits,
        side,
        coefficients,
        gains: [
            of_filter(gains[0], gains[1], on[0]),
            of_filter(gains[2], gains[3], on[1]),
        ],
    })
}

fn of_filter(gain: f32, damping: f32, on: u8) -> FilterGain {
    FilterGain {
        gain,
        damping,
        on: on != 0,
    }
}

#[inline]
pub fn decode(
    duration: u8,
    bandwidth: u8,
    filters: u8,
    orders: &[u8],
    indices: &[u8],
    lines: &mut [f32],
) -> Result<(), Refusal> {
    // Sound as above.
    let answer = float::in_default(move || unsafe {
        tns_decode(
            duration,
            bandwidth,
            filters,
            orders.as_ptr(),
            orders.len(),
            indices.as_ptr(),
            indices.len(),
            lines.as_mut_ptr(),
            lines.len(),
        )
    });
    answer.accepted()
}

#[inline]
#[expect(clippy::too_many_arguments, reason = "a frame has six")]
pub fn decode_save(
    duration: u8,
    bandwidth: u8,
    filters: u8,
    orders: &[u8],
    indices: &[u8],
    spectrum: &[f32],
    output: &mut [f32],
    line: usize,
) -> Result<[f32; 8], Refusal> {
    let mut states = [0.0; 8];
    let to_states = &mut states;
    // Sound as above.
    let answer = float::in_default(move || unsafe {
        tns_decode_save(
            duration,
            bandwidth,
            filters,
            orders.as_ptr(),
            orders.len(),
            indices.as_ptr(),
            indices.len(),
            spectrum.as_ptr(),
            spectrum.len(),
            output.as_mut_ptr(),
            output.len(),
            line,
            to_states,
        )
    });
    answer.accepted()?;
    Ok(states)
}

#[inline]
#[expect(clippy::too_many_arguments, reason = "a frame has six")]
pub fn decode_restart(
    duration: u8,
    bandwidth: u8,
    filters: u8,
    orders: &[u8],
    indices: &[u8],
    spectrum: &[f32],
    output: &mut [f32],
    line: usize,
    states: &[f32; 8],
) -> Result<(), Refusal> {
    // Sound as above.
    let answer = float::in_default(move || unsafe {
        tns_decode_restart(
            duration,
            bandwidth,
            filters,
            orders.as_ptr(),
            orders.len(),
            indices.as_ptr(),
            indices.len(),
            spectrum.as_ptr(),
            spectrum.len(),
            output.as_mut_ptr(),
            output.len(),
            line,
            states,
        )
    });
    answer.accepted()
}

#[inline]
pub fn cost(weighting: u8, filters: u8, orders: &[u8], indices: &[u8]) -> Result<u16, Refusal> {
    // Sound as above.
    let answer = float::in_default(move || unsafe {
        tns_cost(
            weighting,
            filters,
            orders.as_ptr(),
            orders.len(),
            indices.as_ptr(),
            indices.len(),
        )
    });
    answer.accepted()?;
    Ok(answer.bits)
}

#[inline]
pub fn cost_exact(
    weighting: u8,
    filters: u8,
    orders: &[u8],
    indices: &[u8],
) -> Result<ExactCost, Refusal> {
    let mut parts = [0; 2];
    let to_parts = &mut parts;
    // Sound as above.
    let answer = float::in_default(move || unsafe {
        tns_cost_2048ths(
            weighting,
            filters,
            orders.as_ptr(),
            orders.len(),
            indices.as_ptr(),
            indices.len(),
            to_parts,
        )
    });
    answer.accepted()?;
    Ok(ExactCost {
        bits: answer.bits,
        parts,
    })
}

pub fn block_write(
    number: u64,
    records: &[u8],
    block: &mut [u8; 512],
) -> Result<usize, BlockRefusal> {
    // Sound as above.
    let answer = float::in_default(move || unsafe {
        tns_block_write(number, records.as_ptr(), records.len(), block)
    });
    answer.accepted()
}

pub fn block_read(
    number: u64,
    block: &[u8],
    records: &mut [u8; 480],
) -> Result<usize, BlockRefusal> {
    // Sound as above.
    let answer = float::in_default(move || unsafe {
        tns_block_read(number, block.as_ptr(), block.len(), records)
    });
    answer.accepted()
}

pub fn block_rescue(number: u64, bytes: &[u8], block: &mut [u8; 512]) -> Result<u16, BlockRefusal> {
    // Sound as above.
    let answer = float::in_default(move || unsafe {
        tns_block_rescue(number, bytes.as_ptr(), bytes.len(), block)
    });
    answer.accepted()
}
