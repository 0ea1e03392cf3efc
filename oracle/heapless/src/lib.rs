//! Stand-in for `heapless::Vec`: new, push and iter_mut, as D uses them.
//! A push beyond N gives the item back, as the original's does.
#![no_std]

pub struct Vec<T, const N: usize> {
    items: [Option<T>; N],
    len: usize,
}

impl<T, const N: usize> Vec<T, N> {
    #[allow(clippy::new_without_default)]
    pub fn new() -> Self {
        Self {
            items: [const { None }; N],
            len: 0,
        }
    }

    pub fn push(&mut self, item: T) -> Result<(), T> {
        if self.len == N {
            return Err(item);
        }
        self.items[self.len] = Some(item);
        self.len += 1;
        Ok(())
    }

    pub fn iter_mut(&mut self) -> impl Iterator<Item = &mut T> {
        self.items.iter_mut().flatten()
    }
}
