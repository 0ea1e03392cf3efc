//! Signed whole numbers of 512 bits, for the exact lattice. Two's complement,
//! low limb first.
//! Assumes numbers below 2^511 in size; nothing here watches for more. The
//! exact lattice stays below 2^484: lines up to 2^119, eight stages that each at
//! most double, units of 2^-357.

const LIMBS: usize = 8;

/// 2 to the e as an f64, for a normal result.
pub fn two(e: i32) -> f64 {
    f64::from_bits(((e + 1023) as u64) << 52)
}

#[derive(Clone, Copy)]
pub struct Whole([u64; LIMBS]);

impl Whole {
    pub const ZERO: Whole = Whole([0; LIMBS]);

    /// 2 to the e.
    pub fn two(e: usize) -> Whole {
        let mut limbs = [0; LIMBS];
        limbs[e / 64] = 1 << (e % 64);
        Whole(limbs)
    }

    /// A finite f32 in units of 2^-(149 + more).
    pub fn of_f32(x: f32, more: usize) -> Whole {
        let pattern = x.to_bits();
        let (exponent, fraction) = (pattern >> 23 & 0xFF, pattern & 0x7F_FFFF);
        // A subnormal counts the units itself; each further exponent doubles.
        let (whole, up) = match exponent {
            0 => (fraction, 0),
            _ => (fraction | 0x80_0000, exponent as usize - 1),
        };
        let at = up + more;
        let wide = u128::from(whole) << (at % 64);
        let mut limbs = [0; LIMBS];
        limbs[at / 64] = wide as u64;
        if at / 64 + 1 < LIMBS {
            limbs[at / 64 + 1] = (wide >> 64) as u64;
        }
        if x.is_sign_negative() {
            Whole(limbs).negated()
        } else {
            Whole(limbs)
        }
    }

    /// The sum with another number times a whole number below 2^62 in size.
    pub fn plus_times(&self, other: &Whole, by: i64) -> Whole {
        let mut carry = 0i128;
        Whole(std::array::from_fn(|n| {
            let product = i128::from(other.0[n]) * i128::from(by);
            let wide = i128::from(self.0[n]) + product + carry;
            carry = wide >> 64;
            wide as u64
        }))
    }

    fn negated(&self) -> Whole {
        Whole::ZERO.plus_times(self, -1)
    }

    pub fn is_negative(&self) -> bool {
        self.0[LIMBS - 1] >> 63 == 1
    }

    pub fn size(&self) -> Whole {
        if self.is_negative() {
            self.negated()
        } else {
            *self
        }
    }

    /// Divided by 2^bits, for bits from 1 to 63. It panics if there is a rest:
    /// whoever divides here says that there is none.
    pub fn divided(&self, bits: usize) -> Whole {
        assert_eq!(self.0[0] << (64 - bits), 0, "a division left a rest");
        let sign = if self.is_negative() { u64::MAX } else { 0 };
        Whole(std::array::from_fn(|n| {
            let above = self.0.get(n + 1).copied().unwrap_or(sign);
            self.0[n] >> bits | above << (64 - bits)
        }))
    }

    /// The number divided by 2^e, near enough to be printed. Assumes that it is
    /// not negative.
    pub fn part_of_two(&self, e: usize) -> f64 {
        let limbs = self.0.iter().enumerate();
        limbs.fold(0.0, |sum, (n, limb)| {
            sum + *limb as f64 * two(64 * n as i32 - e as i32)
        })
    }

    /// Hexadecimal, with a minus sign before a negative number.
    pub fn hex(&self) -> String {
        let limbs = self.size().0;
        let digits: String = limbs.iter().rev().map(|n| format!("{n:016x}")).collect();
        let digits = match digits.trim_start_matches('0') {
            "" => "0",
            some => some,
        };
        let sign = if self.is_negative() { "-" } else { "" };
        format!("{sign}{digits}")
    }
}
