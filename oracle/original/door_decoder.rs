/// Appended after D: D's coefficient of an index, read through D's public
/// function. Order 1 on the lines -1, 0: the second line becomes
/// 0 - q * -1, which is q without any rounding.
/// Assumes that it stands at the end of D's own text.
pub mod oracle_door {
    use super::*;

    pub fn coefficient(index: usize) -> Scaler {
        let mut lines = [0.0; 80];
        lines[12] = -1.0;
        let mut indices = [8; 16];
        indices[0] = index;
        apply_temporal_noise_shaping(
            FrameDuration::TenMs,
            Bandwidth::NarrowBand,
            1,
            &[1, 0],
            &indices,
            &mut lines,
        );
        lines[13]
    }
}
