//! Why a call was refused.

use core::fmt;

/// Why a call was refused: the error code (refusal number) and what belongs to it. If several apply, a call
/// gives the lowest, and the lowest of several bad places. The numbers 9 to 12 belong to blocks of a
/// narration: [`BlockRefusal`](crate::narration::BlockRefusal).
#[derive(Clone, Copy, Debug, PartialEq, Eq)]
pub enum Refusal {
    /// 1: the duration is neither 10 ms nor 7.5 ms.
    Duration,
    /// 2: the bandwidth is over 4.
    Bandwidth,
    /// 3: the spectrum ends before the last band does, or is longer than 400 lines (10 ms) or 300 (7.5 ms).
    SpectrumLength,
    /// 4: there are not two orders, or not sixteen indices.
    ListLength,
    /// 5: there are more than two filters.
    FilterCount,
    /// 6: an order is over 8.
    Order {
        /// Which of the orders, from 0.
        place: u16,
        /// The order at that place.
        found: u16,
    },
    /// 7: an index is over 16.
    Index {
        /// Which of the indices, from 0.
        place: u16,
        /// The index at that place.
        found: u16,
    },
    /// 8: the weighting is over 1.
    Weighting,
    /// 16: the line is below the first band's start or over the last band's stop.
    Line,
    /// 17: the output and the spectrum differ in length.
    OutputLength,
}

impl Refusal {
    /// The refusal's number.
    pub fn number(self) -> u16 {
        match self {
            Refusal::Duration => 1,
            Refusal::Bandwidth => 2,
            Refusal::SpectrumLength => 3,
            Refusal::ListLength => 4,
            Refusal::FilterCount => 5,
            Refusal::Order { .. } => 6,
            Refusal::Index { .. } => 7,
            Refusal::Weighting => 8,
            Refusal::Line => 16,
            Refusal::OutputLength => 17,
        }
    }

    /// From the library's number for a refused call: 1 to 8, 16 and 17. Its functions on spectra and side
    /// data give no other; this would take another as 8.
    pub(crate) fn of(number: u16, place: u16, found: u16) -> Self {
        match number {
            1 => Refusal::Duration,
            2 => Refusal::Bandwidth,
            3 => Refusal::SpectrumLength,
            4 => Refusal::ListLength,
            5 => Refusal::FilterCount,
            6 => Refusal::Order { place, found },
            7 => Refusal::Index { place, found },
            16 => Refusal::Line,
            17 => Refusal::OutputLength,
            _ => Refusal::Weighting,
        }
    }
}

impl fmt::Display for Refusal {
    fn fmt(&self, f: &mut fmt::Formatter<'_>) -> fmt::Result {
        match self {
            Refusal::Duration => f.write_str("the duration is neither 10 ms nor 7.5 ms"),
            Refusal::Bandwidth => f.write_str("the bandwidth is over 4"),
            Refusal::SpectrumLength => f.write_str("the spectrum is too short or too long"),
            Refusal::ListLength => f.write_str("there are not two orders and sixteen indices"),
            Refusal::FilterCount => f.write_str("there are more than two filters"),
            Refusal::Order { place, found } => {
                write!(f, "order {found} at place {place} is over 8")
            }
            Refusal::Index { place, found } => {
                write!(f, "index {found} at place {place} is over 16")
            }
            Refusal::Weighting => f.write_str("the weighting is over 1"),
            Refusal::Line => f.write_str("the line is below the first start or over the last stop"),
            Refusal::OutputLength => f.write_str("the output has another length than the spectrum"),
        }
    }
}

impl core::error::Error for Refusal {}
