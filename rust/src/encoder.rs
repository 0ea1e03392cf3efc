//! The encoder under the names of lc3-codec 0.2.0.

/// The encoder's noise shaping under the names of lc3-codec 0.2.0.
pub mod temporal_noise_shaping {
    use crate::{sys, Duration, Refusal};

    /// Encodes frames of one duration.
    #[derive(Clone, Copy, Debug)]
    pub struct TemporalNoiseShaping {
        duration: Duration,
    }

    /// The result of encoding a frame, besides its filtered lines.
    #[derive(Clone, Copy, Debug, PartialEq)]
    pub struct TnsResult {
        /// The bits that the side data cost.
        pub nbits_tns: usize,
        /// 1 if the coefficients are weighted, else 0.
        pub lpc_weighting: u8,
        /// The number of filters, 1 or 2.
        pub num_tns_filters: usize,
        /// Each filter's order, 0 to 8.
        pub rc_order: [usize; 2],
        /// Eight indices for each filter, 0 to 16.
        pub rc_i: [usize; 16],
        /// The quantized reflection coefficients, one for each index.
        pub rc_q: [f32; 16],
    }

    impl TemporalNoiseShaping {
        /// An encoder for frames of this duration.
        pub fn new(duration: Duration) -> Self {
            Self { duration }
        }

        /// Analyses a spectrum and filters it in place.
        ///
        /// ```
        /// use gillsextant::encoder::temporal_noise_shaping::TemporalNoiseShaping;
        /// use gillsextant::{Duration, Refusal};
        ///
        /// let tns = TemporalNoiseShaping::new(Duration::TenMs);
        /// assert_eq!(tns.run(&mut [0.0; 400], 4, 320, false)?.nbits_tns, 2);
        /// assert_eq!(tns.run(&mut [0.0; 400], 5, 320, false), Err(Refusal::Bandwidth));
        /// # Ok::<(), Refusal>(())
        /// ```
        pub fn run(
            &self,
            x_s: &mut [f32],
            p_bw: usize,
            nbits: usize,
            near_nyquist_flag: bool,
        ) -> Result<TnsResult, Refusal> {
            let bandwidth = u8::try_from(p_bw).unwrap_or(u8::MAX);
            let encoded = sys::encode(
                self.duration.code(),
                bandwidth,
                nbits as u64,
                near_nyquist_flag,
                x_s,
            )?;
            let side = encoded.side;
            Ok(TnsResult {
                nbits_tns: usize::from(encoded.bits),
                lpc_weighting: side.weighting,
                num_tns_filters: usize::from(side.filters),
                rc_order: side.orders.map(usize::from),
                rc_i: side.indices.map(usize::from),
                rc_q: encoded.coefficients,
            })
        }
    }
}
