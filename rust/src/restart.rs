//! Decoding again from a line on, after a frame's upper lines have changed.

use crate::{sys, Bandwidth, Duration, Refusal};

/// A line and the decoder's eight states before it: [`decode_save`] gives them, and [`decode_restart`]
/// continues from them. They are one value, so that states cannot be used at another line by mistake.
///
/// Two values are equal if their lines are equal and their states are equal as f32s. A NaN is not equal to
/// itself.
#[derive(Clone, Copy, Debug, PartialEq)]
pub struct Saved {
    line: usize,
    states: [f32; 8],
}

impl Saved {
    /// Any line with any eight states, from a file for instance. No state is refused, not even NaN or an
    /// infinity: the decoder continues from whatever it gets.
    pub fn new(line: usize, states: [f32; 8]) -> Self {
        Self { line, states }
    }

    /// The line that the states belong to: they are the states before it.
    pub fn line(&self) -> usize {
        self.line
    }

    /// The states.
    pub fn states(&self) -> [f32; 8] {
        self.states
    }
}

/// Decodes a spectrum into an output of the same length and saves the states before a line. The spectrum
/// is not changed. The output gets what [`decode`](crate::decode) leaves in place.
///
/// The line may be any from the first band's start to the last band's stop, both included. The bands, from
/// start to stop (the line after the last):
///
/// | bandwidth | 10 ms | 7.5 ms |
/// |---|---|---|
/// | narrow | 12-80 | 9-60 |
/// | wide | 12-160 | 9-120 |
/// | semi super wide | 12-240 | 9-180 |
/// | super wide | 12-160 and 160-320 | 9-120 and 120-240 |
/// | full | 12-200 and 200-400 | 9-150 and 150-300 |
///
/// The refusals are those of [`decode`](crate::decode), then [`Refusal::Line`], then
/// [`Refusal::OutputLength`]. [`decode_restart`] has an example.
#[inline]
#[expect(clippy::too_many_arguments, reason = "a frame has six")]
pub fn decode_save(
    duration: Duration,
    bandwidth: Bandwidth,
    filters: u8,
    orders: &[u8],
    indices: &[u8],
    spectrum: &[f32],
    output: &mut [f32],
    line: usize,
) -> Result<Saved, Refusal> {
    let states = sys::decode_save(
        duration.code(),
        bandwidth.code(),
        filters,
        orders,
        indices,
        spectrum,
        output,
        line,
    )?;
    Ok(Saved { line, states })
}

/// Decodes a spectrum from the saved line on. The spectrum is not changed, and neither are the output's
/// lines below that line. Lines outside the bands are copied from the spectrum.
///
/// To mend the upper part of a frame, decode only that part again:
///
/// ```
/// use gillsextant::{decode, decode_restart, decode_save, Bandwidth, Duration, Refusal};
///
/// let (duration, bandwidth) = (Duration::TenMs, Bandwidth::FullBand);
/// let mut spectrum: [f32; 400] = std::array::from_fn(|n| (n % 7) as f32 - 3.0);
/// let (mut orders, mut indices) = ([8, 2], [9; 16]);
/// let mut output = [0.0; 400];
/// // the second band starts at line 200
/// let saved = decode_save(duration, bandwidth, 2, &orders, &indices, &spectrum, &mut output, 200)?;
///
/// // mend the upper half, its lines and its filter
/// spectrum[200..].fill(0.5);
/// orders[1] = 4;
/// indices[8..].fill(7);
/// decode_restart(duration, bandwidth, 2, &orders, &indices, &spectrum, &mut output, &saved)?;
///
/// // the output equals a decode of the whole mended frame
/// let mut anew = spectrum;
/// decode(duration, bandwidth, 2, &orders, &indices, &mut anew)?;
/// assert_eq!(output, anew);
/// # Ok::<(), Refusal>(())
/// ```
///
/// From the line on, the output is the same as in a decode of the whole spectrum if [`decode_save`] saved
/// the states, at the same line, in a frame that agrees with this one on:
///
/// - the spectrum's length, the duration, the bandwidth and the number of filters;
/// - every line below the saved line;
/// - order and indices of each filter that has a line below the saved one in its band.
///
/// Any other states are accepted too, and the filters continue from those. The refusals are those of
/// [`decode_save`].
#[inline]
#[expect(clippy::too_many_arguments, reason = "a frame has six")]
pub fn decode_restart(
    duration: Duration,
    bandwidth: Bandwidth,
    filters: u8,
    orders: &[u8],
    indices: &[u8],
    spectrum: &[f32],
    output: &mut [f32],
    saved: &Saved,
) -> Result<(), Refusal> {
    sys::decode_restart(
        duration.code(),
        bandwidth.code(),
        filters,
        orders,
        indices,
        spectrum,
        output,
        saved.line,
        &saved.states,
    )
}
