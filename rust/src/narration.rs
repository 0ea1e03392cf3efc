//! Narrations: files with the side data of many frames, in blocks that have a checksum.
//!
//! A [`Record`] is the side data of one frame with its duration, bandwidth and bits. A file holds records
//! in blocks of 512 bytes, up to 20 in each. `Writer` and `Reader` write and read a whole file, through
//! `std::io`, and `rescue` makes a sound file from a damaged one. These need the feature `std`, which is on
//! by default. [`write_block`], [`read_block`] and [`rescue_block`] work on one block. Either way the
//! memory in use does not grow with the file.
//!
//! ```
//! use gillsextant::narration::{read_block, write_block, BlockRefusal, Record};
//! use gillsextant::{Bandwidth, Duration, SideData};
//!
//! let side = SideData { weighting: 0, filters: 1, orders: [1, 0], indices: [9; 16] };
//! let record = Record::new(Duration::TenMs, Bandwidth::NarrowBand, side).unwrap();
//! assert_eq!(record.bits, 13);
//!
//! let (mut block, mut records) = ([0; 512], [0; 480]);
//! assert_eq!(write_block(0, &record.to_bytes(), &mut block), Ok(1));
//! assert_eq!(read_block(0, &block, &mut records), Ok(1));
//! assert_eq!(records[..24], record.to_bytes());
//!
//! block[14] += 1;
//! assert_eq!(read_block(0, &block, &mut records), Err(BlockRefusal::Sums));
//! ```
//!
//! # The layout
//!
//! `docs/FORMAT.md` in the repository describes the file byte by byte. A number of two bytes has its low
//! byte first. A record, in memory as in the file:
//!
//! | bytes | |
//! |---|---|
//! | 0 | duration, 0 or 1 |
//! | 1 | bandwidth, 0 to 4 |
//! | 2 | number of filters, 0 to 2 |
//! | 3 | weighting, 0 or 1 |
//! | 4 and 5 | two orders, 0 to 8 |
//! | 6 to 21 | sixteen indices, 0 to 16 |
//! | 22 and 23 | the bits that these cost |
//!
//! A record is sound if each number is in its range, used or not, and the bits are the cost. A block:
//!
//! | bytes | |
//! |---|---|
//! | 0 and 1 | its number, from 0 |
//! | 2 | how many records it has, 1 to 20 |
//! | 3 | the format's version (edition), 1 |
//! | 4 to 7 | zeros |
//! | 8 to 507 | the records, then padding (fill): zeros |
//! | 508 and 509 | checksum: the sum of bytes 0 to 507, modulo 65521 |
//! | 510 and 511 | checksum: the sum of (508 - place) times byte over the same bytes, modulo 65521 |
//!
//! A file has at most 65,536 blocks. A file without records has no bytes. A writer fills every block but
//! the last; a reader accepts 1 to 20 records in any block. A refused block gives none of its records. The
//! records of the blocks before it remain valid.
//!
//! # Rescue
//!
//! A rescue also saves the sound blocks after the first refused one. It goes through all whole blocks of
//! a damaged file and keeps each block whose checksum, header, padding and records are right, whatever its
//! number. The kept blocks stay in their old order. They get new numbers from 0 on and a new checksum; their
//! records do not change. If there are more than 65,536 blocks to keep, the rescue is refused with 9
//! before it writes anything.

mod block;
#[cfg(feature = "std")]
mod file;
mod record;
#[cfg(feature = "std")]
mod rescue;

pub use block::{read_block, rescue_block, write_block, BlockRefusal};
#[cfg(feature = "std")]
pub use file::{Error, Reader, Writer};
pub use record::Record;
#[cfg(feature = "std")]
pub use rescue::{rescue, rescue_with, RescueEntry, RescueError};

/// The bytes of a record.
pub const RECORD_SIZE: usize = 24;
/// The bytes of a block.
pub const BLOCK_SIZE: usize = 512;
/// The most records in a block.
pub const BLOCK_CAPACITY: usize = 20;
/// The bytes of the records of a full block.
pub const RECORDS_SIZE: usize = RECORD_SIZE * BLOCK_CAPACITY;
