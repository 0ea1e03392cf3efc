//! The gain of each filter, and why a filter is off.

use crate::Encoded;
use core::fmt;

/// What the analysis of a frame says about a filter. If the frame's bandwidth has no second band, the second
/// filter has gain 0 and damping 1 and is off.
///
/// Two gains that are not a number count as equal, so that equal calls have equal results.
#[derive(Clone, Copy, Debug)]
pub struct FilterGain {
    /// The prediction gain: how much better the filter predicts a line from those below it than no filter
    /// does. It is given whether the filter is on or off.
    pub gain: f32,
    /// The coefficients' damping. It is below 1 only if the filter is on, the weighting is 1 and the gain is
    /// below 2: it falls from 1 at gain 2 to 0.85 just over gain 1.5.
    pub damping: f32,
    /// Whether the filter is on: the gain is over 1.5, and the frame was not encoded as near Nyquist. The
    /// order of a filter that is on can still be 0, if all its coefficients are quantized to 0.
    pub on: bool,
}

impl PartialEq for FilterGain {
    fn eq(&self, other: &Self) -> bool {
        let same = self.gain == other.gain || (self.gain.is_nan() && other.gain.is_nan());
        same && self.damping == other.damping && self.on == other.on
    }
}

/// Why a filter is off. If several reasons hold, the first of them stands, in the order here.
#[derive(Clone, Copy, Debug, PartialEq, Eq, Hash)]
pub enum WhyOff {
    /// The frame's bandwidth has no band for this filter.
    NoBand,
    /// The gain is not a number, for instance because a line of the band is NaN or infinite, or so large
    /// that its square is infinite.
    NotANumber,
    /// The gain is not over 1.5.
    LowGain,
    /// The gain is over 1.5, and the frame was encoded as near Nyquist.
    NearNyquist,
}

impl fmt::Display for WhyOff {
    fn fmt(&self, to: &mut fmt::Formatter<'_>) -> fmt::Result {
        to.write_str(match self {
            WhyOff::NoBand => "no such band",
            WhyOff::NotANumber => "gain is not a number",
            WhyOff::LowGain => "gain is not over 1.5",
            WhyOff::NearNyquist => "near-Nyquist flag",
        })
    }
}

impl Encoded {
    /// Why each filter is off, or `None` if it is on.
    ///
    /// ```
    /// use gillsextant::{encode, Bandwidth, Duration, Refusal, WhyOff};
    ///
    /// let mut lines: Vec<f32> = (0..400).map(|n| 1000.0 * 0.95f32.powi(n)).collect();
    /// let same = lines.clone();
    /// let encoded = encode(Duration::TenMs, Bandwidth::WideBand, 320, false, &mut lines)?;
    /// assert!(encoded.gains[0].gain > 1.5);
    /// assert_eq!(encoded.why_off(), [None, Some(WhyOff::NoBand)]);
    ///
    /// lines = same;
    /// let flagged = encode(Duration::TenMs, Bandwidth::WideBand, 320, true, &mut lines)?;
    /// assert_eq!(flagged.gains[0].gain, encoded.gains[0].gain);
    /// assert_eq!(flagged.why_off()[0].unwrap().to_string(), "near-Nyquist flag");
    /// # Ok::<(), Refusal>(())
    /// ```
    pub fn why_off(&self) -> [Option<WhyOff>; 2] {
        let [first, second] = self.gains;
        [
            first.why_off(self.side.filters > 0),
            second.why_off(self.side.filters > 1),
        ]
    }
}

impl FilterGain {
    /// The last reason is the only one left: a filter with a band and a gain over 1.5 is off by the flag
    /// alone (the law `off-by-flag` of the crate shape_gain).
    fn why_off(self, has_band: bool) -> Option<WhyOff> {
        if self.on {
            None
        } else if !has_band {
            Some(WhyOff::NoBand)
        } else if self.gain.is_nan() {
            Some(WhyOff::NotANumber)
        } else if self.gain <= 1.5 {
            Some(WhyOff::LowGain)
        } else {
            Some(WhyOff::NearNyquist)
        }
    }
}
