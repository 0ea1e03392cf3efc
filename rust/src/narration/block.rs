//! Writing, reading and rescuing one block of a narration.

use super::{BLOCK_SIZE, RECORDS_SIZE};
use crate::sys;
use core::fmt;

/// Why a block was refused: the error code (refusal number). If several apply, a call gives the lowest.
/// [`rescue_block`] has one exception: it checks the number of the call last.
#[derive(Clone, Copy, Debug, PartialEq, Eq, Hash)]
pub enum BlockRefusal {
    /// 9: the block is cut short, or the number of the call is over 65,535.
    Length,
    /// 10: the checksum (the two sums) does not match the bytes.
    Sums,
    /// 11: the header is wrong, the padding (fill) is not zero, or the block has another number. A rescue
    /// accepts any number in a block.
    Layout,
    /// 12: a record is out of range or cut short, or its bits are not its cost.
    Record,
}

impl BlockRefusal {
    /// The refusal's number.
    pub fn number(self) -> u16 {
        match self {
            BlockRefusal::Length => 9,
            BlockRefusal::Sums => 10,
            BlockRefusal::Layout => 11,
            BlockRefusal::Record => 12,
        }
    }

    /// From the library's number for a refused block. Its calls on blocks give no other; this would take
    /// another as 12.
    pub(crate) fn of(number: u16) -> Self {
        match number {
            9 => BlockRefusal::Length,
            10 => BlockRefusal::Sums,
            11 => BlockRefusal::Layout,
            _ => BlockRefusal::Record,
        }
    }
}

impl fmt::Display for BlockRefusal {
    fn fmt(&self, f: &mut fmt::Formatter<'_>) -> fmt::Result {
        f.write_str(match self {
            BlockRefusal::Length => "the block is cut short or its number is over 65535",
            BlockRefusal::Sums => "the sums are not those of the bytes",
            BlockRefusal::Layout => "the header, the number or the fill is wrong",
            BlockRefusal::Record => "a record breaks a limit or its bits are not its cost",
        })
    }
}

impl core::error::Error for BlockRefusal {}

/// Writes the block of this number from the first 20 records of a list of bytes, or from all if there are
/// fewer, and gives how many records it took. An empty list makes no block: the call gives `Ok(0)`, whatever
/// the number, and writes nothing.
///
/// Refused with [`BlockRefusal::Length`] if the number is over 65,535, and with [`BlockRefusal::Record`] if
/// one of these records is not sound or the last is cut short. A refused call leaves the block as it was.
///
/// The list may be longer. To write all of it, go on by 480 bytes for each block:
///
/// ```
/// use gillsextant::narration::{write_block, BlockRefusal, Record, BLOCK_SIZE, RECORDS_SIZE};
///
/// let records = [Record::default().to_bytes(); 41].concat();
/// let (mut file, mut block) = (Vec::new(), [0; BLOCK_SIZE]);
/// for (number, list) in records.chunks(RECORDS_SIZE).enumerate() {
///     write_block(number as u64, list, &mut block)?;
///     file.extend(block);
/// }
/// assert_eq!(file.len(), 3 * BLOCK_SIZE);
/// # Ok::<(), BlockRefusal>(())
/// ```
pub fn write_block(
    number: u64,
    records: &[u8],
    block: &mut [u8; BLOCK_SIZE],
) -> Result<usize, BlockRefusal> {
    sys::block_write(number, records, block)
}

/// Checks the first 512 bytes as the block of this number, writes its records to the start of a list and
/// gives how many there are. The rest of the list does not change. An empty slice is the end of a file: the
/// call gives `Ok(0)`, whatever the number, and writes nothing.
///
/// Refused with [`BlockRefusal::Length`] if there are fewer than 512 bytes or the number is over 65,535,
/// then with the other three in their order. A refused call leaves the list as it was.
///
/// To read a file that is in memory, to its end or to the first refused block:
///
/// ```
/// use gillsextant::narration::{read_block, write_block, BlockRefusal, Record};
/// use gillsextant::narration::{BLOCK_SIZE, RECORDS_SIZE};
///
/// # let mut file = [0; BLOCK_SIZE];
/// # write_block(0, &Record::default().to_bytes(), &mut file)?;
/// let mut records = [0; RECORDS_SIZE];
/// for (number, bytes) in file.chunks(BLOCK_SIZE).enumerate() {
///     let count = read_block(number as u64, bytes, &mut records)?;
///     println!("block {number}: {count} records");
/// }
/// # Ok::<(), BlockRefusal>(())
/// ```
pub fn read_block(
    number: u64,
    block: &[u8],
    records: &mut [u8; RECORDS_SIZE],
) -> Result<usize, BlockRefusal> {
    sys::block_read(number, block, records)
}

/// Rescues a block of a damaged narration: checks the first 512 bytes as [`read_block`] does, except that
/// they may have any block number, and writes them as the block of this number. Bytes 2 to 507 do not
/// change, and the checksum is new. Gives the old number.
///
/// The order of its refusals:
///
/// 1. [`BlockRefusal::Length`] if there are fewer than 512 bytes, also for an empty slice;
/// 2. the other three in their order;
/// 3. [`BlockRefusal::Length`] if nothing is wrong with the bytes and the number is over 65,535.
///
/// A refused call leaves the block as it was.
///
/// The example finds the blocks to keep of a damaged narration in memory. If [`BlockRefusal::Length`]
/// refuses a whole block there, the narration has more blocks to keep than a file can have.
///
/// ```
/// use gillsextant::narration::{rescue_block, write_block, BlockRefusal, Record, BLOCK_SIZE};
///
/// # let mut damaged = [[0; BLOCK_SIZE]; 4];
/// # for (number, block) in damaged.iter_mut().enumerate() {
/// #     write_block(number as u64, &Record::default().to_bytes(), block)?;
/// # }
/// # let mut damaged = damaged.concat();
/// // four blocks; a byte of the second changes, and the last loses its last byte
/// damaged[600] += 1;
/// damaged.truncate(4 * BLOCK_SIZE - 1);
///
/// let (mut mended, mut block) = (Vec::new(), [0; BLOCK_SIZE]);
/// let answers: Vec<_> = damaged
///     .chunks(BLOCK_SIZE)
///     .map(|bytes| {
///         let number = mended.len() / BLOCK_SIZE;
///         let stood = rescue_block(number as u64, bytes, &mut block)?;
///         mended.extend(block);
///         Ok(stood)
///     })
///     .collect();
/// assert_eq!(answers, [Ok(0), Err(BlockRefusal::Sums), Ok(2), Err(BlockRefusal::Length)]);
/// assert_eq!((mended.len(), mended[512]), (2 * BLOCK_SIZE, 1));
/// # Ok::<(), BlockRefusal>(())
/// ```
pub fn rescue_block(
    number: u64,
    bytes: &[u8],
    block: &mut [u8; BLOCK_SIZE],
) -> Result<u16, BlockRefusal> {
    sys::block_rescue(number, bytes, block)
}
