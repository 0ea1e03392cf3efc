//! Requests to valgrind's callgrind: count from here, stop, hand over what was
//! counted under a label. Assumes x86-64, whose sequence this is (valgrind.h);
//! without valgrind the sequence does nothing.

use std::arch::asm;
use std::ffi::CStr;

/// "CT", callgrind's own requests (callgrind.h).
const BASE: u64 = 0x4354_0000;
const TOGGLE_COLLECT: u64 = BASE + 2;
const DUMP_STATS_AT: u64 = BASE + 3;

#[inline(always)]
fn request(number: u64, argument: u64) {
    let request = [number, argument, 0, 0, 0, 0];
    // Sound: the four turns add up to 128, so rdi is as it was, and the exchange
    // changes nothing; valgrind reads the six words and answers in rdx.
    unsafe {
        asm!(
            "rol rdi, 3",
            "rol rdi, 13",
            "rol rdi, 61",
            "rol rdi, 51",
            "xchg rbx, rbx",
            in("rax") request.as_ptr(),
            inout("rdx") 0u64 => _,
        );
    }
}

/// Starts counting, or stops.
#[inline(always)]
pub fn toggle() {
    request(TOGGLE_COLLECT, 0);
}

/// Writes what was counted to a file of its own, and begins again at 0.
pub fn dump(label: &CStr) {
    request(DUMP_STATS_AT, label.as_ptr() as u64);
}
