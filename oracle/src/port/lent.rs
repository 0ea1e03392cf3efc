//! A list to lend, between guards that nobody may write.

/// An odd number of guards, so that the lent list starts at no round address.
const GUARDS: usize = 17;

/// What can be lent, with the guards' pattern.
pub trait Guarded: Copy {
    const GUARD: Self;
    fn is_guard(&self) -> bool;
}

/// A NaN that no arithmetic makes.
impl Guarded for f32 {
    const GUARD: f32 = f32::from_bits(0x7FA5_5A5A);

    fn is_guard(&self) -> bool {
        self.to_bits() == Self::GUARD.to_bits()
    }
}

impl Guarded for u8 {
    const GUARD: u8 = 0xA5;

    fn is_guard(&self) -> bool {
        *self == Self::GUARD
    }
}

impl Guarded for u32 {
    const GUARD: u32 = 0xA55A_5AA5;

    fn is_guard(&self) -> bool {
        *self == Self::GUARD
    }
}

pub struct Lent<T> {
    cells: Vec<T>,
}

impl<T: Guarded> Lent<T> {
    pub fn new(list: &[T]) -> Self {
        let guards = [T::GUARD; GUARDS];
        Lent {
            cells: [&guards, list, &guards].concat(),
        }
    }

    pub fn list(&self) -> &[T] {
        &self.cells[GUARDS..self.cells.len() - GUARDS]
    }

    pub fn lend(&mut self) -> &mut [T] {
        let end = self.cells.len() - GUARDS;
        &mut self.cells[GUARDS..end]
    }

    pub fn guards_stand(&self) -> bool {
        let (first, rest) = self.cells.split_at(GUARDS);
        let last = &rest[rest.len() - GUARDS..];
        first.iter().chain(last).all(T::is_guard)
    }
}
