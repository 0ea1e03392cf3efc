//! The float environment of a call. libtns.a is proved for f32 arithmetic that rounds to nearest and keeps
//! subnormals. The processor computes so if its control word MXCSR says so, and each thread has its own
//! word. Audio threads often set flush-to-zero and denormals-are-zero, a host may set another rounding mode,
//! and an exception that is not masked would end a call with SIGFPE. So every call of the library goes
//! through this module. If the word differs from the default, the module sets the default for the call and
//! restores the caller's word afterwards. include/tns.h has the same guard for C.
//!
//! The module assumes x86-64, the only processor that the archive is for, and an archive that computes with
//! SSE alone, as it does. It does not touch the control word of the x87. The six status flags of MXCSR
//! record what has happened and change no result, so they are not compared. A call raises some of them, as
//! any float operation does. If the guard changed the word, it restores the flags too.
//!
//! The compiler cannot move a float operation of the call out of the guard. The archive is machine code
//! already. To the compiler, each of its functions and each `asm!` here may read and write any memory, so
//! the two never change places. Nor can it move another operation in: the function that sets the word twice
//! is never inlined and holds nothing but the call. The crate itself does no float arithmetic.

use core::arch::asm;
use core::mem::MaybeUninit;

/// Round to nearest, keep subnormals, mask all six exceptions, no status flag set.
const DEFAULT: u32 = 0x1f80;
/// Flush-to-zero, the rounding mode, the six masks and denormals-are-zero: all but the status flags.
const CONTROL: u32 = 0xffc0;

/// Makes a call of the library in the default float environment. If the caller's is the default already,
/// this only reads and compares the word. Pass a `move` closure: for one that borrows, the compiler would
/// first store the arguments in memory.
#[inline(always)]
pub fn in_default<R>(call: impl FnOnce() -> R) -> R {
    let callers = control_word();
    if callers & CONTROL == DEFAULT {
        call()
    } else {
        in_place_of(callers, call)
    }
}

/// The same for any other environment. Cold, so that the usual call needs no jump.
#[cold]
#[inline(never)]
fn in_place_of<R>(callers: u32, call: impl FnOnce() -> R) -> R {
    // SAFETY: every processor accepts the default.
    unsafe { set_control_word(DEFAULT) };
    // The library never unwinds, so the next step is always reached.
    let answer = call();
    // SAFETY: the processor gave this word, so it accepts it.
    unsafe { set_control_word(callers) };
    answer
}

#[inline(always)]
fn control_word() -> u32 {
    let mut word = MaybeUninit::uninit();
    // SAFETY: the instruction writes these four bytes and nothing else.
    unsafe {
        asm!("stmxcsr [{}]", in(reg) word.as_mut_ptr(), options(nostack, preserves_flags));
        word.assume_init()
    }
}

/// # Safety
/// The word must set no bit that the processor does not know: such a word ends the process.
unsafe fn set_control_word(word: u32) {
    // SAFETY: the instruction reads these four bytes. It writes the status flags as well, which
    // `preserves_flags` would deny.
    unsafe { asm!("ldmxcsr [{}]", in(reg) &word, options(nostack)) };
}
