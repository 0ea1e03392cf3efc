//! Temporal noise shaping (TNS) of the LC3 audio codec: a safe wrapper around a library in which every
//! function is proved to meet its contract. No call panics, whatever its arguments. A call with bad
//! arguments is refused with an error code, [`Refusal`], and leaves every line as it was.
//!
//! ```
//! use gillsextant::{cost, decode, encode, Bandwidth, Duration, Refusal};
//!
//! // encode a falling spectrum in place, then decode it
//! let mut lines: Vec<f32> = (0..400).map(|n| 1000.0 * 0.95f32.powi(n)).collect();
//! let encoded = encode(Duration::TenMs, Bandwidth::FullBand, 320, false, &mut lines)?;
//! let side = encoded.side;
//! assert_eq!(side.orders, [1, 1]);
//! assert_eq!(cost(side.weighting, side.filters, &side.orders, &side.indices), Ok(encoded.bits));
//! decode(Duration::TenMs, Bandwidth::FullBand, side.filters, &side.orders, &side.indices, &mut lines)?;
//!
//! // order 9, where a filter has room for eight states: lc3-codec 0.2.0 panics here
//! let bad = decode(Duration::TenMs, Bandwidth::FullBand, 1, &[9, 0], &[8; 16], &mut lines);
//! assert_eq!(bad, Err(Refusal::Order { place: 0, found: 9 }));
//! # Ok::<(), Refusal>(())
//! ```
//!
//! To tune a voice, read each filter's gain from [`Encoded::gains`], and why it is off from
//! [`Encoded::why_off`].
//!
//! To plan a rate over many frames, [`cost_exact`] gives what each filter costs before it is rounded.
//!
//! If the upper part of a frame changes, [`decode_restart`] decodes only that part, from the states that
//! [`decode_save`] saved.
//!
//! The module [`narration`] keeps the side data of many frames in a file of blocks. Each block has
//! two checksums that detect a changed byte. The module also rescues the sound blocks of a damaged file.
//!
//! You may call from any thread, whatever its float environment: from an audio thread with flush-to-zero
//! and denormals-are-zero, for instance. Each call sets the default environment and restores the thread's
//! own afterwards.
//!
//! If you come from lc3-codec 0.2.0, [`encoder::temporal_noise_shaping`] and
//! [`decoder::temporal_noise_shaping`] have its names. They return a `Result` where lc3-codec panics. They
//! also decode index 0 differently: as the coefficient that the encoder writes it for, where lc3-codec's
//! decoder takes it as 0.
//!
//! The feature `std`, which is on by default, adds the writer, the reader and the rescue of whole
//! narrations. Everything else is `no_std`.
//!
//! In the repository, `docs/RULES.md` has the rules that the library follows, and `docs/CONTRACTS.md` what
//! is proved.
#![no_std]
#![deny(missing_docs)]

#[cfg(feature = "std")]
extern crate std;

pub mod decoder;
pub mod encoder;
mod exports;
mod float;
mod gains;
pub mod narration;
mod refusal;
mod restart;
mod sys;

pub use gains::{FilterGain, WhyOff};
pub use refusal::Refusal;
pub use restart::{decode_restart, decode_save, Saved};

/// A frame's duration.
#[derive(Clone, Copy, Debug, PartialEq, Eq)]
pub enum Duration {
    /// 10 ms: up to 400 lines.
    TenMs,
    /// 7.5 ms: up to 300 lines.
    SevenPointFiveMs,
}

/// A frame's bandwidth.
#[derive(Clone, Copy, Debug, PartialEq, Eq)]
pub enum Bandwidth {
    /// NB, 4 kHz: one filter.
    NarrowBand,
    /// WB, 8 kHz: one filter.
    WideBand,
    /// SSWB, 12 kHz: one filter.
    SemiSuperWideBand,
    /// SWB, 16 kHz: two filters.
    SuperWideBand,
    /// FB, 20 kHz: two filters.
    FullBand,
}

/// The side data that an encoder sends with the lines.
#[derive(Clone, Copy, Debug, Default, PartialEq, Eq)]
pub struct SideData {
    /// 1 if the coefficients are weighted, else 0.
    pub weighting: u8,
    /// The number of filters, 1 or 2.
    pub filters: u8,
    /// Each filter's order, 0 to 8.
    pub orders: [u8; 2],
    /// Eight indices for each filter, 0 to 16. Index 8 means coefficient 0, index 0 means -0.99573416.
    pub indices: [u8; 16],
}

/// The result of [`encode`], besides the filtered lines.
#[derive(Clone, Copy, Debug, PartialEq)]
pub struct Encoded {
    /// The bits that the side data cost, at most 168.
    pub bits: u16,
    /// The side data to send.
    pub side: SideData,
    /// The quantized reflection coefficients, one for each index.
    pub coefficients: [f32; 16],
    /// Gain, damping and on or off of each filter. [`Encoded::why_off`] says why a filter is off.
    pub gains: [FilterGain; 2],
}

/// The result of [`cost_exact`].
#[derive(Clone, Copy, Debug, Default, PartialEq, Eq)]
pub struct ExactCost {
    /// The bits that the side data cost, as [`cost`] gives them, at most 168.
    pub bits: u16,
    /// What each filter costs before it is rounded, in 2048ths of a bit, without the one bit that every
    /// counted filter takes; at most 83 * 2048. A filter that is not counted has 0, and so has one of
    /// order 0.
    pub parts: [u32; 2],
}

impl Duration {
    fn code(self) -> u8 {
        match self {
            Duration::TenMs => 0,
            Duration::SevenPointFiveMs => 1,
        }
    }
}

impl Bandwidth {
    fn code(self) -> u8 {
        match self {
            Bandwidth::NarrowBand => 0,
            Bandwidth::WideBand => 1,
            Bandwidth::SemiSuperWideBand => 2,
            Bandwidth::SuperWideBand => 3,
            Bandwidth::FullBand => 4,
        }
    }
}

/// From the code in a record of a narration: 0 for 10 ms, 1 for 7.5 ms. Any other code is refused.
impl TryFrom<u8> for Duration {
    type Error = Refusal;

    fn try_from(code: u8) -> Result<Self, Refusal> {
        match code {
            0 => Ok(Duration::TenMs),
            1 => Ok(Duration::SevenPointFiveMs),
            _ => Err(Refusal::Duration),
        }
    }
}

/// From the code in a record of a narration: 0 to 4 for NB to FB. Any other code is refused.
impl TryFrom<u8> for Bandwidth {
    type Error = Refusal;

    fn try_from(code: u8) -> Result<Self, Refusal> {
        match code {
            0 => Ok(Bandwidth::NarrowBand),
            1 => Ok(Bandwidth::WideBand),
            2 => Ok(Bandwidth::SemiSuperWideBand),
            3 => Ok(Bandwidth::SuperWideBand),
            4 => Ok(Bandwidth::FullBand),
            _ => Err(Refusal::Bandwidth),
        }
    }
}

/// Analyses a spectrum and filters it in place. `bits` is the frame's size. `near_nyquist` turns every
/// filter off. The only refusal is [`Refusal::SpectrumLength`].
///
/// If every line is finite and at most 2^m in absolute value, for a whole m from -126 to 119, then each
/// filtered line is within 2^(m-13) of what the same filter gives without rounding.
#[inline]
pub fn encode(
    duration: Duration,
    bandwidth: Bandwidth,
    bits: u64,
    near_nyquist: bool,
    lines: &mut [f32],
) -> Result<Encoded, Refusal> {
    sys::encode(duration.code(), bandwidth.code(), bits, near_nyquist, lines)
}

/// Decodes a spectrum in place. An index means the coefficient that [`encode`] gives for it.
#[inline]
pub fn decode(
    duration: Duration,
    bandwidth: Bandwidth,
    filters: u8,
    orders: &[u8],
    indices: &[u8],
    lines: &mut [f32],
) -> Result<(), Refusal> {
    sys::decode(
        duration.code(),
        bandwidth.code(),
        filters,
        orders,
        indices,
        lines,
    )
}

/// The bits that side data cost, at most 168.
#[inline]
pub fn cost(weighting: u8, filters: u8, orders: &[u8], indices: &[u8]) -> Result<u16, Refusal> {
    sys::cost(weighting, filters, orders, indices)
}

/// The bits that side data cost, and what each filter costs before it is rounded.
///
/// The bits are `1 + part.div_ceil(2048)` for each counted filter, added up: each filter is rounded up on
/// its own. To plan over many frames, add up the parts, round once, and add one bit for each counted filter:
///
/// ```
/// use gillsextant::{cost, cost_exact, Refusal};
///
/// // order 1 and index 9 in both filters, in each of a thousand frames
/// let mut indices = [8; 16];
/// (indices[0], indices[8]) = (9, 9);
/// let (mut rounded, mut parts, mut filters) = (0, 0, 0);
/// for _ in 0..1000 {
///     let exact = cost_exact(0, 2, &[1, 1], &indices)?;
///     assert_eq!((exact.bits, exact.parts), (26, [22871, 22871]));
///     assert_eq!(cost(0, 2, &[1, 1], &indices), Ok(exact.bits));
///     rounded += u64::from(exact.bits);
///     parts += exact.parts.iter().copied().map(u64::from).sum::<u64>();
///     filters += 2;
/// }
/// assert_eq!(rounded, 26_000);
/// assert_eq!(filters + parts.div_ceil(2048), 24_335);
/// # Ok::<(), Refusal>(())
/// ```
#[inline]
pub fn cost_exact(
    weighting: u8,
    filters: u8,
    orders: &[u8],
    indices: &[u8],
) -> Result<ExactCost, Refusal> {
    sys::cost_exact(weighting, filters, orders, indices)
}
