//! The decoder under the names of lc3-codec 0.2.0.

/// The decoder's noise shaping under the names of lc3-codec 0.2.0.
pub mod temporal_noise_shaping {
    use crate::{decode, Bandwidth, Duration, Refusal};

    /// A list of `N` numbers as bytes, or `None` if it has another length. A number over 255 becomes 255,
    /// which is refused as well.
    fn bytes<const N: usize>(numbers: &[usize]) -> Option<[u8; N]> {
        let numbers: &[usize; N] = numbers.try_into().ok()?;
        Some(numbers.map(|n| u8::try_from(n).unwrap_or(u8::MAX)))
    }

    /// Decodes a spectrum in place. A number over 255 is refused, and the refusal reports it as 255.
    ///
    /// Index 0 gives other lines than lc3-codec if a filter uses it. There it means coefficient 0; here it
    /// means -0.99573416, the coefficient that the encoder writes it for.
    ///
    /// ```
    /// use gillsextant::decoder::temporal_noise_shaping::apply_temporal_noise_shaping;
    /// use gillsextant::{Bandwidth, Duration, Refusal};
    ///
    /// let mut lines = [1.0; 400];
    /// let bad = apply_temporal_noise_shaping(Duration::TenMs, Bandwidth::FullBand, 1, &[9, 0], &[8; 16], &mut lines);
    /// assert_eq!(bad, Err(Refusal::Order { place: 0, found: 9 }));
    /// assert_eq!(lines, [1.0; 400]);
    /// ```
    pub fn apply_temporal_noise_shaping(
        duration: Duration,
        bandwidth: Bandwidth,
        num_tns_filters: usize,
        reflect_coef_order: &[usize],
        reflect_coef_ints: &[usize],
        spec_lines: &mut [f32],
    ) -> Result<(), Refusal> {
        let filters = u8::try_from(num_tns_filters).unwrap_or(u8::MAX);
        let orders = bytes::<2>(reflect_coef_order);
        let indices = bytes::<16>(reflect_coef_ints);
        // a list of another length is passed on as an empty one, which is refused with the same number
        let orders = orders.as_ref().map_or(&[][..], |list| list);
        let indices = indices.as_ref().map_or(&[][..], |list| list);
        decode(duration, bandwidth, filters, orders, indices, spec_lines)
    }
}
