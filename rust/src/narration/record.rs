//! A record of a narration: the side data of one frame.

use super::RECORD_SIZE;
use crate::{cost, Bandwidth, Duration, Refusal, SideData};

/// The side data of one frame, with its duration, its bandwidth and the bits that they cost.
///
/// The fields are as in the file and may have any value. Writing or reading a block checks whether they are
/// sound. A record from [`Record::new`] is sound.
#[derive(Clone, Copy, Debug, Default, PartialEq, Eq, Hash)]
pub struct Record {
    /// 0 for 10 ms, 1 for 7.5 ms; convert it with `Duration::try_from`.
    pub duration: u8,
    /// 0 to 4 for NB to FB; convert it with `Bandwidth::try_from`.
    pub bandwidth: u8,
    /// The number of filters, 0 to 2.
    pub filters: u8,
    /// 1 if the coefficients are weighted, else 0.
    pub weighting: u8,
    /// Each filter's order, 0 to 8.
    pub orders: [u8; 2],
    /// Eight indices for each filter, 0 to 16.
    pub indices: [u8; 16],
    /// The bits that the side data cost, at most 168.
    pub bits: u16,
}

impl Record {
    /// A record from side data, such as [`encode`](crate::encode) gives. [`cost`] computes the bits and may
    /// refuse the side data. If it accepts them, the record is sound.
    ///
    /// ```
    /// use gillsextant::narration::Record;
    /// use gillsextant::{Bandwidth, Duration, Refusal, SideData};
    ///
    /// let mut side = SideData { weighting: 1, filters: 1, orders: [1, 0], indices: [10; 16] };
    /// let record = Record::new(Duration::TenMs, Bandwidth::FullBand, side)?;
    /// assert_eq!((record.bits, record.side()), (11, side));
    ///
    /// side.orders[1] = 9;
    /// let bad = Record::new(Duration::TenMs, Bandwidth::FullBand, side);
    /// assert_eq!(bad, Err(Refusal::Order { place: 1, found: 9 }));
    /// # Ok::<(), Refusal>(())
    /// ```
    pub fn new(duration: Duration, bandwidth: Bandwidth, side: SideData) -> Result<Self, Refusal> {
        let bits = cost(side.weighting, side.filters, &side.orders, &side.indices)?;
        Ok(Self {
            duration: duration.code(),
            bandwidth: bandwidth.code(),
            filters: side.filters,
            weighting: side.weighting,
            orders: side.orders,
            indices: side.indices,
            bits,
        })
    }

    /// The record's side data.
    pub fn side(&self) -> SideData {
        SideData {
            weighting: self.weighting,
            filters: self.filters,
            orders: self.orders,
            indices: self.indices,
        }
    }

    /// The record in these 24 bytes, which may be any.
    pub fn from_bytes(bytes: &[u8; RECORD_SIZE]) -> Self {
        let [duration, bandwidth, filters, weighting, first, second, indices @ .., low, high] =
            *bytes;
        Self {
            duration,
            bandwidth,
            filters,
            weighting,
            orders: [first, second],
            indices,
            bits: u16::from_le_bytes([low, high]),
        }
    }

    /// The 24 bytes of the record.
    pub fn to_bytes(&self) -> [u8; RECORD_SIZE] {
        let mut bytes = [0; RECORD_SIZE];
        bytes[0] = self.duration;
        bytes[1] = self.bandwidth;
        bytes[2] = self.filters;
        bytes[3] = self.weighting;
        bytes[4..6].copy_from_slice(&self.orders);
        bytes[6..22].copy_from_slice(&self.indices);
        bytes[22..].copy_from_slice(&self.bits.to_le_bytes());
        bytes
    }
}
