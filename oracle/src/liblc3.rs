//! What calls liblc3: its three functions of the noise shaping. Assumes the shapes
//! below, which no header of liblc3's package states; the word `lc3` probes them
//! first.

use crate::document::{Row, Side};
use std::ffi::c_int;

/// liblc3's side data; `rc` holds indices less 8.
#[repr(C)]
#[derive(Default)]
pub struct Data {
    pub nfilters: c_int,
    pub lpc_weighting: bool,
    pub rc_order: [c_int; 2],
    pub rc: [[c_int; 8]; 2],
}

extern "C" {
    fn lc3_tns_analyze(
        dt: c_int,
        bandwidth: c_int,
        nn_flag: bool,
        nbytes: c_int,
        data: *mut Data,
        x: *mut f32,
    );
    fn lc3_tns_synthesize(dt: c_int, bandwidth: c_int, data: *const Data, x: *mut f32);
    fn lc3_tns_get_nbits(data: *const Data) -> c_int;
}

/// liblc3's duration: 0 is 7.5 ms, 1 is 10 ms.
fn dt(row: &Row) -> c_int {
    1 - c_int::from(row.duration)
}

/// liblc3's encoder: its side data, and the lines filtered in place.
pub fn analyze(row: &Row, near_nyquist: bool, nbytes: usize, lines: &mut [f32]) -> Data {
    let mut data = Data::default();
    assert!(lines.len() >= row.last_stop());
    // Sound if liblc3 stays below the row's last stop.
    unsafe {
        lc3_tns_analyze(
            dt(row),
            c_int::from(row.bandwidth),
            near_nyquist,
            nbytes as c_int,
            &mut data,
            lines.as_mut_ptr(),
        );
    }
    data
}

/// liblc3's decoder, in place.
pub fn synthesize(row: &Row, data: &Data, lines: &mut [f32]) {
    assert!(lines.len() >= row.last_stop());
    // Sound as above.
    unsafe {
        lc3_tns_synthesize(
            dt(row),
            c_int::from(row.bandwidth),
            data,
            lines.as_mut_ptr(),
        );
    }
}

/// liblc3's bits of side data.
pub fn nbits(data: &Data) -> usize {
    // Sound: it only reads, inside its tables for orders up to 8.
    unsafe { lc3_tns_get_nbits(data) as usize }
}

impl Data {
    pub fn of(side: &Side) -> Self {
        let number = |n: usize| side.indices[n] as c_int - 8;
        Data {
            nfilters: side.filters as c_int,
            lpc_weighting: side.weighting == 1,
            rc_order: side.orders.map(|n| n as c_int),
            rc: [
                std::array::from_fn(number),
                std::array::from_fn(|k| number(8 + k)),
            ],
        }
    }

    /// As the port writes it; places beyond the order are not liblc3's to say.
    pub fn side(&self) -> Side {
        let mut side = Side::plain(u8::from(self.lpc_weighting), 0);
        side.filters = self.nfilters as usize;
        for f in 0..side.filters.min(2) {
            let order = (self.rc_order[f] as usize).min(8);
            side.orders[f] = order;
            for k in 0..order {
                side.indices[8 * f + k] = (self.rc[f][k] + 8) as usize;
            }
        }
        side
    }
}
