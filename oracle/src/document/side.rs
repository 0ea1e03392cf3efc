//! A frame's side data.

/// As E takes them.
#[derive(Clone, Debug, PartialEq)]
pub struct Side {
    pub weighting: u8,
    pub filters: usize,
    pub orders: [usize; 2],
    pub indices: [usize; 16],
}

impl Side {
    /// One filter with all indices 8.
    pub fn plain(weighting: u8, order: usize) -> Self {
        Side {
            weighting,
            filters: 1,
            orders: [order, 0],
            indices: [8; 16],
        }
    }

    /// A filter's order and its eight indices, used or not.
    pub fn of(&self, filter: usize) -> (usize, &[usize]) {
        let indices = &self.indices[8 * filter..8 * filter + 8];
        (self.orders[filter], indices)
    }

    /// The 20 bytes that the port and the program have: weighting, filter count,
    /// orders, indices.
    pub fn record(&self) -> [u8; 20] {
        let mut bytes = [self.weighting; 20];
        bytes[1] = self.filters as u8;
        let numbers = self.orders.iter().chain(&self.indices);
        for (byte, n) in bytes[2..].iter_mut().zip(numbers) {
            *byte = *n as u8;
        }
        bytes
    }

    pub fn of_record(bytes: &[u8; 20]) -> Self {
        let wide = |n: usize| bytes[n] as usize;
        Side {
            weighting: bytes[0],
            filters: wide(1),
            orders: [wide(2), wide(3)],
            indices: std::array::from_fn(|n| wide(4 + n)),
        }
    }
}
