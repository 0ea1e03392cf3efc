//! The rules, to be compared with the original. The cost tables are T's own.

use crate::document::side::Side;
use original_std::tables::temporal_noise_shaping_tables as table;

/// A power by repeated squaring, from the exponent's lowest bit on.
pub fn power(base: f32, exponent: usize) -> f32 {
    let mut result = 1.0f32;
    let mut square = base;
    let mut rest = exponent;
    while rest > 0 {
        if rest & 1 == 1 {
            result *= square;
        }
        square *= square;
        rest >>= 1;
    }
    result
}

/// The cost of each filter in 2048ths of a bit: that of its order and those of its
/// indices below the order, and 0 for a filter that is not counted (docs/RULES.md,
/// "Cost before rounding (C-15)"). Assumes side data that the rules accept.
pub fn parts(side: &Side) -> [usize; 2] {
    std::array::from_fn(|filter| {
        let (order, indices) = side.of(filter);
        if filter >= side.filters || order == 0 {
            return 0;
        }
        let used = table::AC_TNS_COEF_BITS.iter().zip(&indices[..order]);
        let of_indices: usize = used.map(|(costs, index)| costs[*index]).sum();
        table::AC_TNS_ORDER_BITS[side.weighting as usize][order - 1] + of_indices
    })
}

/// One bit per counted filter plus its cost in 2048ths, rounded up, in whole
/// numbers (docs/RULES.md, "Cost"). Assumes side data that the rules accept.
pub fn cost(side: &Side) -> usize {
    let counted = parts(side).into_iter().take(side.filters);
    counted.map(|part| 1 + part.div_ceil(2048)).sum()
}

/// 8 plus, or minus for a negative x, the number of thresholds not above |x|.
/// Takes the bit pattern of |x|, below that of 1; patterns of positive floats
/// stand in the order of the floats.
pub fn index(thresholds: &[u32; 8], magnitude: u32, negative: bool) -> usize {
    let count = thresholds.iter().filter(|t| **t <= magnitude).count();
    if negative {
        8 - count
    } else {
        8 + count
    }
}

/// One line through the stages of the encoder's lattice, in any numbers:
/// `plus(a, q, x)` is a + q x.
pub fn lattice<N: Copy, Q: Copy>(
    coefficients: &[Q],
    state: &mut [N; 8],
    line: N,
    plus: impl Fn(N, Q, N) -> N,
) -> N {
    let (mut t, mut b) = (line, line);
    for (state, q) in state.iter_mut().zip(coefficients) {
        let old = *state;
        *state = b;
        b = plus(old, *q, t);
        t = plus(t, *q, old);
    }
    t
}

/// The encoder's filters: for each a band, an order and eight coefficients.
pub struct Filters<'a> {
    pub bands: &'a [(usize, usize)],
    pub orders: [usize; 2],
    pub coefficients: [f32; 16],
}

impl Filters<'_> {
    /// The coefficients of a filter, as many as its order.
    pub fn used(&self, filter: usize) -> &[f32] {
        &self.coefficients[8 * filter..8 * filter + self.orders[filter]]
    }

    /// The encoder's lattice in f32 over whole bands, the state carried between
    /// them.
    pub fn filtered(&self, before: &[f32]) -> Vec<f32> {
        let mut lines = before.to_vec();
        let mut state = [0.0f32; 8];
        for (f, (start, stop)) in self.bands.iter().enumerate() {
            for line in &mut lines[*start..*stop] {
                *line = lattice(self.used(f), &mut state, *line, |a, q, x| a + q * x);
            }
        }
        lines
    }
}
