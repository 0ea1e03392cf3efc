//! The port's index choice, by the library that `bench/index_calls` makes of it.

extern "C" {
    fn index_of_one(x: f32) -> u8;
}

/// The index of a number.
pub fn index(x: f32) -> usize {
    usize::from(unsafe { index_of_one(x) })
}
