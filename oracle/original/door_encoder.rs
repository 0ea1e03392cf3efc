/// Appended after E: reaches its private functions and changes nothing.
/// Assumes that it stands at the end of E's own text.
pub mod oracle_door {
    use super::*;

    pub fn apply_quantization(
        count: usize,
        rc_q: &mut [Scaler],
        rc_i: &mut [usize],
        rc_order: &mut [usize],
    ) {
        TemporalNoiseShaping::apply_quantization(count, rc_q, rc_i, rc_order)
    }

    pub fn calc_bit_budget(
        count: usize,
        weighting: u8,
        rc_i: &[usize],
        rc_order: &[usize],
    ) -> usize {
        TemporalNoiseShaping::calc_bit_budget(count, weighting, rc_i, rc_order)
    }

    /// The lags that E's analysis of one filter starts from.
    pub fn lags(config: Lc3Config, p_bw: usize, f: usize, x_s: &[Scaler]) -> [Scaler; 9] {
        let tns = TemporalNoiseShaping::new(config).get_tns_params(p_bw);
        TemporalNoiseShaping::compute_normalized_autocorrelation(
            &tns.sub_start[f],
            &tns.sub_stop[f],
            x_s,
        )
    }

    /// E's reflection coefficients of every filter before they are quantized.
    pub fn reflection(
        config: Lc3Config,
        p_bw: usize,
        near_nyquist_flag: bool,
        lpc_weighting: u8,
        x_s: &[Scaler],
    ) -> [Scaler; 16] {
        let filters = TemporalNoiseShaping::new(config)
            .get_tns_params(p_bw)
            .num_tns_filters;
        let mut rc = [0.0; 16];
        for f in 0..filters {
            let r = lags(config, p_bw, f, x_s);
            TemporalNoiseShaping::tns_analysis(&r, f, near_nyquist_flag, lpc_weighting, &mut rc);
        }
        rc
    }

    /// E's expression, by itself.
    #[inline(never)]
    pub fn powi(gamma: Scaler, k: usize) -> Scaler {
        gamma.powi(k as i32)
    }

    /// E's loop around the expression, over nine ones.
    #[inline(never)]
    pub fn powi_loop(gamma: Scaler) -> [Scaler; 9] {
        let mut a = [1.0; 9];
        for (k, a_k) in a.iter_mut().enumerate() {
            *a_k *= gamma.powi(k as i32);
        }
        a
    }
}
