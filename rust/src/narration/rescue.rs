//! Rescuing whole damaged narrations through `std::io`.

use super::file::read_up_to;
use super::{rescue_block, BlockRefusal, BLOCK_SIZE};
use core::fmt;
use std::io::{self, Read, Seek, SeekFrom, Write};
use std::vec::Vec;

/// One entry of a rescue's report. For a sound narration the report is empty. Displayed, an entry is the
/// line that `./tns rescue` prints:
///
/// ```
/// use gillsextant::narration::{BlockRefusal, RescueEntry};
///
/// let report = [
///     RescueEntry::Dropped { place: 3, why: BlockRefusal::Sums },
///     RescueEntry::Renumbered { place: 4, from: 4, to: 3 },
///     RescueEntry::Stray { bytes: 17 },
/// ];
/// let words = report.map(|entry| entry.to_string());
/// assert_eq!(words, ["block 3 dropped 10", "block 4 renumbered 4 to 3", "17 stray bytes"]);
/// ```
///
/// Places count from 0 over all whole blocks of the damaged narration.
#[derive(Clone, Copy, Debug, PartialEq, Eq, Hash)]
pub enum RescueEntry {
    /// A block was dropped.
    Dropped {
        /// The block's place.
        place: u64,
        /// Its first fault: [`BlockRefusal::Sums`], [`BlockRefusal::Layout`] or [`BlockRefusal::Record`].
        why: BlockRefusal,
    },
    /// A block was kept and got a new number.
    Renumbered {
        /// The block's place.
        place: u64,
        /// Its old number, which may be any.
        from: u16,
        /// Its new number.
        to: u16,
    },
    /// Bytes at the end that are not a whole block were dropped.
    Stray {
        /// How many bytes, 1 to 511.
        bytes: usize,
    },
}

impl fmt::Display for RescueEntry {
    fn fmt(&self, f: &mut fmt::Formatter<'_>) -> fmt::Result {
        match self {
            RescueEntry::Dropped { place, why } => {
                write!(f, "block {place} dropped {}", why.number())
            }
            RescueEntry::Renumbered { place, from, to } => {
                write!(f, "block {place} renumbered {from} to {to}")
            }
            RescueEntry::Stray { bytes } => write!(f, "{bytes} stray bytes"),
        }
    }
}

/// Why a narration was not rescued, or not to its end. An error of the system says which side failed,
/// because a damaged narration is often on a failing disk.
///
/// ```
/// use gillsextant::narration::{rescue, RescueError};
/// use std::io::Cursor;
///
/// // there is no room for the mended narration
/// # use gillsextant::narration::{Record, Writer};
/// # let mut writer = Writer::new(Vec::new());
/// # writer.push(&Record::default())?;
/// # let file = writer.finish()?;
/// let error = rescue(Cursor::new(file), &mut [0; 511][..]).unwrap_err();
/// assert!(matches!(error, RescueError::Write(_)));
/// # Ok::<(), gillsextant::narration::Error>(())
/// ```
#[derive(Debug)]
pub enum RescueError {
    /// 9: there are more than 65,536 blocks to keep. Nothing was written or reported.
    TooMany,
    /// The narration changed: the second reading found another number of blocks, of blocks to keep or of
    /// stray bytes than the first.
    Changed,
    /// The damaged narration could not be read, or not a second time.
    Read(io::Error),
    /// The mended narration could not be written.
    Write(io::Error),
    /// The caller's report function failed with this error.
    Report(io::Error),
}

impl fmt::Display for RescueError {
    fn fmt(&self, f: &mut fmt::Formatter<'_>) -> fmt::Result {
        match self {
            RescueError::TooMany => f.write_str("refused 9: more than 65536 blocks are to be kept"),
            RescueError::Changed => f.write_str("the damaged narration changed while it was read"),
            RescueError::Read(error) => write!(f, "reading the damaged narration: {error}"),
            RescueError::Write(error) => write!(f, "writing the mended narration: {error}"),
            RescueError::Report(error) => write!(f, "reporting: {error}"),
        }
    }
}

// The message already includes the inner error, so there is no source.
impl std::error::Error for RescueError {}

/// Rescues a damaged narration: writes a sound narration from all blocks that can be kept, and gives a
/// report in the order of the damaged narration. A sound narration, also one that was rescued before, comes
/// out unchanged with an empty report.
///
/// ```
/// use gillsextant::narration::{rescue, Reader, Record, RescueError, Writer};
/// use std::io::Cursor;
///
/// // 61 records in four blocks; a byte of the second changes, and the last loses its end
/// # let mut writer = Writer::new(Vec::new());
/// # for _ in 0..61 {
/// #     writer.push(&Record::default()).unwrap();
/// # }
/// # let mut file = writer.finish().unwrap();
/// file[600] += 1;
/// file.truncate(3 * 512 + 17);
///
/// let mut mended = Vec::new();
/// let report = rescue(Cursor::new(&file), &mut mended)?;
/// let lines: Vec<String> = report.iter().map(|entry| entry.to_string()).collect();
/// assert_eq!(lines, ["block 1 dropped 10", "block 2 renumbered 2 to 1", "17 stray bytes"]);
///
/// // the records of all sound blocks, also after the bad one
/// assert_eq!(Reader::new(&file[..]).take_while(Result::is_ok).count(), 20);
/// assert_eq!(Reader::new(&mended[..]).filter(Result::is_ok).count(), 40);
/// # Ok::<(), RescueError>(())
/// ```
///
/// The report is in memory and may have an entry for every block. [`rescue_with`] passes the entries on one
/// by one instead; everything else in its description applies here too.
pub fn rescue<R: Read + Seek, W: Write>(
    damaged: R,
    mended: W,
) -> Result<Vec<RescueEntry>, RescueError> {
    let mut report = Vec::new();
    rescue_with(damaged, mended, |entry| {
        report.push(entry);
        Ok(())
    })?;
    Ok(report)
}

/// Rescues a damaged narration as [`rescue`] does, but passes each entry of the report to a function at
/// once. So the memory in use does not grow with the narration.
///
/// ```
/// use gillsextant::narration::{rescue_with, Record, RescueError, Writer};
/// use std::io::{Cursor, Write};
///
/// # let mut writer = Writer::new(Vec::new());
/// # for _ in 0..41 {
/// #     writer.push(&Record::default()).unwrap();
/// # }
/// # let mut file = writer.finish().unwrap();
/// file[..512].fill(0); // the first of three blocks is all zeros
///
/// let (mut mended, mut report) = (Vec::new(), Vec::new());
/// rescue_with(Cursor::new(file), &mut mended, |entry| writeln!(report, "{entry}"))?;
/// assert_eq!(
///     String::from_utf8(report).unwrap(),
///     "block 0 dropped 11\nblock 1 renumbered 1 to 0\nblock 2 renumbered 2 to 1\n"
/// );
/// # Ok::<(), RescueError>(())
/// ```
///
/// This reads the damaged narration twice, from its current position to its end. The first reading counts
/// the blocks to keep, so that too many are refused before anything is written or reported. At the end the
/// mended narration is flushed. To keep using either of them afterwards, pass references:
/// `rescue(&mut file, &mut mended)`.
///
/// An error in the second reading leaves what was written and reported before it. The blocks written so far
/// are a sound narration that does not show that others are missing. So write to a temporary name, and
/// rename the file when the rescue has succeeded.
///
/// Each block is read by itself and written with one `write_all`; a `BufReader` and a `BufWriter` in between
/// save system calls. An interrupted read is tried again, and a short read is continued.
pub fn rescue_with<R: Read + Seek, W: Write>(
    mut damaged: R,
    mut mended: W,
    mut report: impl FnMut(RescueEntry) -> io::Result<()>,
) -> Result<(), RescueError> {
    let start = damaged.stream_position().map_err(RescueError::Read)?;
    let counted = go_through(&mut damaged, |_| Ok(()), |_| Ok(()))?;
    let start = SeekFrom::Start(start);
    damaged.seek(start).map_err(RescueError::Read)?;
    let written = go_through(
        &mut damaged,
        |block| mended.write_all(block).map_err(RescueError::Write),
        |entry| report(entry).map_err(RescueError::Report),
    );
    match written {
        Ok(totals) if totals == counted => mended.flush().map_err(RescueError::Write),
        // The first reading did not find too many.
        Ok(_) | Err(RescueError::TooMany) => Err(RescueError::Changed),
        Err(error) => Err(error),
    }
}

/// The totals of one reading.
#[derive(Default, PartialEq, Eq)]
struct Totals {
    blocks: u64,
    kept: u64,
    stray: usize,
}

/// Reads a damaged narration to its end. Passes on each kept block in its mended form, and each entry of the
/// report.
fn go_through(
    damaged: &mut impl Read,
    mut keep: impl FnMut(&[u8; BLOCK_SIZE]) -> Result<(), RescueError>,
    mut report: impl FnMut(RescueEntry) -> Result<(), RescueError>,
) -> Result<Totals, RescueError> {
    let (mut bytes, mut block) = ([0; BLOCK_SIZE], [0; BLOCK_SIZE]);
    let mut totals = Totals::default();
    loop {
        let length = read_up_to(damaged, &mut bytes).map_err(RescueError::Read)?;
        if length < BLOCK_SIZE {
            totals.stray = length;
            break;
        }
        let place = totals.blocks;
        totals.blocks += 1;
        match rescue_block(totals.kept, &bytes, &mut block) {
            Ok(from) => {
                totals.kept += 1;
                keep(&block)?;
                let to = u16::from_le_bytes([block[0], block[1]]);
                if from != to {
                    report(RescueEntry::Renumbered { place, from, to })?;
                }
            }
            // The bytes are a whole block, so the number of the call is too large.
            Err(BlockRefusal::Length) => return Err(RescueError::TooMany),
            Err(why) => report(RescueEntry::Dropped { place, why })?,
        }
    }
    if totals.stray > 0 {
        report(RescueEntry::Stray {
            bytes: totals.stray,
        })?;
    }
    Ok(totals)
}
