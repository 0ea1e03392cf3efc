//! The port's cost of side data, in bits alone and with the cost of each filter in
//! 2048ths of a bit.

use crate::document::Answer;
use crate::port::lent::Lent;

extern "C" {
    fn tns_cost(
        weighting: u8,
        filters: u8,
        orders: *const u8,
        orders_len: usize,
        indices: *const u8,
        indices_len: usize,
    ) -> Answer;

    fn tns_cost_2048ths(
        weighting: u8,
        filters: u8,
        orders: *const u8,
        orders_len: usize,
        indices: *const u8,
        indices_len: usize,
        parts: *mut [u32; 2],
    ) -> Answer;
}

/// What the port says of side data.
pub struct Costs {
    /// The answer of `tns_cost`.
    pub alone: Answer,
    /// The answer of `tns_cost_2048ths`, and what it left of the parts.
    pub with_parts: Answer,
    pub parts: [u32; 2],
    pub guards_stand: bool,
}

/// A call of each with any numbers; the parts before are given.
pub fn costs(weighting: u8, filters: u8, orders: &[u8], indices: &[u8], before: [u32; 2]) -> Costs {
    let mut lent = Lent::new(&before);
    let parts: &mut [u32; 2] = lent.lend().try_into().expect("2 parts");
    let (orders_len, indices_len) = (orders.len(), indices.len());
    let (orders, indices) = (orders.as_ptr(), indices.as_ptr());
    // Sound if the library writes only the parts, which the guards help to see.
    let (alone, with_parts) = unsafe {
        (
            tns_cost(weighting, filters, orders, orders_len, indices, indices_len),
            tns_cost_2048ths(
                weighting,
                filters,
                orders,
                orders_len,
                indices,
                indices_len,
                parts,
            ),
        )
    };
    Costs {
        alone,
        with_parts,
        parts: *parts,
        guards_stand: lent.guards_stand(),
    }
}
