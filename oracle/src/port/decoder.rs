//! The port's decoder.

use crate::document::{Answer, Row, Side};
use crate::port::lent::Lent;

extern "C" {
    fn tns_decode(
        duration: u8,
        bandwidth: u8,
        filters: u8,
        orders: *const u8,
        orders_len: usize,
        indices: *const u8,
        indices_len: usize,
        lines: *mut f32,
        lines_len: usize,
    ) -> Answer;
}

/// A call that the rules accept.
pub fn decode(row: &Row, side: &Side, lent: &mut Lent<f32>) -> Answer {
    let [_, filters, sets @ ..] = side.record();
    let (orders, indices) = sets.split_at(2);
    decode_lines(
        row.duration,
        row.bandwidth,
        filters,
        orders,
        indices,
        lent.lend(),
    )
}

/// Any numbers, on any lines.
pub fn decode_lines(
    duration: u8,
    bandwidth: u8,
    filters: u8,
    orders: &[u8],
    indices: &[u8],
    lines: &mut [f32],
) -> Answer {
    // Sound if the library writes only the lines, which the guards help to see.
    unsafe {
        tns_decode(
            duration,
            bandwidth,
            filters,
            orders.as_ptr(),
            orders.len(),
            indices.as_ptr(),
            indices.len(),
            lines.as_mut_ptr(),
            lines.len(),
        )
    }
}
