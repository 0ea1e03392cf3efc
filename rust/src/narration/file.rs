//! Writing and reading whole narrations through `std::io`.

use super::{read_block, write_block, BlockRefusal, Record};
use super::{BLOCK_CAPACITY, BLOCK_SIZE, RECORDS_SIZE, RECORD_SIZE};
use core::fmt;
use core::iter::FusedIterator;
use std::io::{self, Read, Write};

/// Why writing or reading a narration ended early.
#[derive(Debug)]
pub enum Error {
    /// A block was refused. The blocks before it remain valid; nothing of this one is written or given.
    Refused {
        /// The block's number, from 0.
        block: u64,
        /// The reason.
        why: BlockRefusal,
    },
    /// The bytes could not be written or read. That says nothing about the narration itself.
    Io(io::Error),
}

impl fmt::Display for Error {
    fn fmt(&self, f: &mut fmt::Formatter<'_>) -> fmt::Result {
        match self {
            Error::Refused { block, why } => {
                write!(f, "refused {} at block {block}: {why}", why.number())
            }
            Error::Io(error) => error.fmt(f),
        }
    }
}

// The message already includes the inner error, so there is no source.
impl std::error::Error for Error {}

/// Writes a narration: 20 records in every block but the last. [`Writer::finish`] writes the last one.
///
/// ```
/// use gillsextant::narration::{Reader, Record, Writer};
/// use gillsextant::{Bandwidth, Duration, SideData};
///
/// let mut writer = Writer::new(Vec::new());
/// for index in 0..=16 {
///     let side = SideData { weighting: 1, filters: 1, orders: [1, 0], indices: [index; 16] };
///     writer.push(&Record::new(Duration::TenMs, Bandwidth::WideBand, side)?)?;
/// }
/// let file = writer.finish()?;
///
/// let records = Reader::new(&file[..]).collect::<Result<Vec<Record>, _>>()?;
/// assert_eq!(records.len(), 17);
/// assert_eq!((records[9].indices[0], records[9].bits), (9, 10));
/// # Ok::<(), Box<dyn std::error::Error>>(())
/// ```
///
/// Each block is written with one `write_all`; a `BufWriter` in between saves system calls.
///
/// Always call [`Writer::finish`]. A writer that is dropped without it loses the records of the block that
/// is not full yet, up to 19 of them. The file does not show the loss, because the blocks before are a sound
/// narration.
#[derive(Debug)]
#[must_use = "the last records are written by `finish` alone"]
pub struct Writer<W: Write> {
    inner: W,
    /// The number of the next block to write.
    block: u64,
    /// The records so far of that block, and how many there are. There is always room for one more.
    records: [u8; RECORDS_SIZE],
    held: usize,
    /// The error that ended the writing.
    over: Option<Over>,
}

/// The error that ended the writing, in a form that can be returned again.
#[derive(Clone, Copy, Debug)]
enum Over {
    Refused { block: u64, why: BlockRefusal },
    Io(io::ErrorKind),
}

impl From<Over> for Error {
    fn from(over: Over) -> Self {
        match over {
            Over::Refused { block, why } => Error::Refused { block, why },
            Over::Io(kind) => Error::Io(io::Error::new(kind, "an earlier block was not written")),
        }
    }
}

impl<W: Write> Writer<W> {
    /// Begins a narration; nothing is written yet. To keep the inner writer after an error too, pass a
    /// reference: `Writer::new(&mut file)`.
    pub fn new(inner: W) -> Self {
        Self {
            inner,
            block: 0,
            records: [0; RECORDS_SIZE],
            held: 0,
            over: None,
        }
    }

    /// Adds a record, and writes its block if that is full now.
    ///
    /// A refusal comes only with a whole block: at its 20th record or from [`Writer::finish`]. It is
    /// [`BlockRefusal::Record`] if one of the block's records is not sound, and [`BlockRefusal::Length`] if
    /// the file has 65,536 blocks already. Nothing of a refused block is written.
    ///
    /// An error ends the narration. Every later call fails with the same error and writes nothing. After a
    /// refusal, all blocks before the refused one have been written but not flushed; flush your buffer if
    /// you passed a reference to one. After a failed write, a part of that block may have been written.
    pub fn push(&mut self, record: &Record) -> Result<(), Error> {
        self.goes_on()?;
        let place = RECORD_SIZE * self.held;
        self.records[place..place + RECORD_SIZE].copy_from_slice(&record.to_bytes());
        self.held += 1;
        if self.held == BLOCK_CAPACITY {
            self.write_held()
        } else {
            Ok(())
        }
    }

    /// Writes the last block, flushes, and gives back the inner writer. Without any records it writes no
    /// bytes. After an error it fails as [`Writer::push`] does.
    pub fn finish(mut self) -> Result<W, Error> {
        self.goes_on()?;
        self.write_held()?;
        self.inner.flush().map_err(Error::Io)?;
        Ok(self.inner)
    }

    fn goes_on(&self) -> Result<(), Error> {
        match self.over {
            None => Ok(()),
            Some(over) => Err(over.into()),
        }
    }

    /// Writes the records so far as a block, or nothing if there are no records.
    fn write_held(&mut self) -> Result<(), Error> {
        let mut bytes = [0; BLOCK_SIZE];
        let (block, records) = (self.block, &self.records[..RECORD_SIZE * self.held]);
        match write_block(block, records, &mut bytes) {
            Ok(0) => return Ok(()),
            Ok(_) => {}
            Err(why) => {
                let over = Over::Refused { block, why };
                self.over = Some(over);
                return Err(over.into());
            }
        }
        // Ended until the block is written, so that the writing stays ended if the inner writer panics.
        self.over = Some(Over::Io(io::ErrorKind::Other));
        if let Err(error) = self.inner.write_all(&bytes) {
            self.over = Some(Over::Io(error.kind()));
            return Err(Error::Io(error));
        }
        self.over = None;
        self.block += 1;
        self.held = 0;
        Ok(())
    }
}

/// Reads a narration: an iterator over its records. If a block is refused or the bytes cannot be read, the
/// iterator gives that error once, after all records of the blocks before it, and then ends. If it ends
/// without an error, the bytes are a sound narration.
///
/// ```
/// use gillsextant::narration::{BlockRefusal, Error, Reader, Record, Writer};
///
/// let mut writer = Writer::new(Vec::new());
/// for _ in 0..41 {
///     writer.push(&Record::default())?;
/// }
/// let mut file = writer.finish()?;
/// assert_eq!(Reader::new(&file[..]).count(), 41);
///
/// // a byte of the second block changes: the 20 records of the first remain
/// file[600] += 1;
/// let mut reader = Reader::new(&file[..]);
/// assert_eq!(reader.by_ref().take_while(Result::is_ok).count(), 20);
/// let error = Reader::new(&file[..]).find_map(Result::err).unwrap();
/// assert!(matches!(error, Error::Refused { block: 1, why: BlockRefusal::Sums }));
/// assert_eq!(reader.count(), 0);
/// # Ok::<(), Error>(())
/// ```
///
/// Each block is read by itself; a `BufReader` in between saves system calls. An interrupted read is tried
/// again, and a short read is continued.
#[derive(Debug)]
pub struct Reader<R: Read> {
    inner: R,
    /// The number of the next block.
    block: u64,
    /// The records of the block before it, how many there are, and how many have been given.
    records: [u8; RECORDS_SIZE],
    held: usize,
    given: usize,
    /// Whether the end has been reached, or an error.
    over: bool,
}

impl<R: Read> Reader<R> {
    /// Begins to read a narration; nothing is read yet.
    pub fn new(inner: R) -> Self {
        Self {
            inner,
            block: 0,
            records: [0; RECORDS_SIZE],
            held: 0,
            given: 0,
            over: false,
        }
    }

    /// Reads the next block. Gives how many records it has, or 0 at the end of the bytes.
    fn read_next(&mut self) -> Result<usize, Error> {
        let mut bytes = [0; BLOCK_SIZE];
        let length = read_up_to(&mut self.inner, &mut bytes).map_err(Error::Io)?;
        let block = self.block;
        let count = read_block(block, &bytes[..length], &mut self.records)
            .map_err(|why| Error::Refused { block, why })?;
        self.block += 1;
        Ok(count)
    }
}

impl<R: Read> Iterator for Reader<R> {
    type Item = Result<Record, Error>;

    fn next(&mut self) -> Option<Self::Item> {
        if self.given == self.held && !self.over {
            // Ended until a block has given records, so that it stays ended if the inner reader panics.
            self.over = true;
            (self.given, self.held) = (0, 0);
            match self.read_next() {
                Ok(count) => self.held = count,
                Err(error) => return Some(Err(error)),
            }
            self.over = self.held == 0;
        }
        let left = &self.records[RECORD_SIZE * self.given..RECORD_SIZE * self.held];
        let record = Record::from_bytes(left.first_chunk()?);
        self.given += 1;
        Some(Ok(record))
    }
}

impl<R: Read> FusedIterator for Reader<R> {}

/// Fills a buffer as far as there are bytes. Gives how many there were. Tries an interrupted read again.
pub(super) fn read_up_to(inner: &mut impl Read, buffer: &mut [u8]) -> io::Result<usize> {
    let mut filled = 0;
    while filled < buffer.len() {
        let rest = &mut buffer[filled..];
        let room = rest.len();
        match inner.read(rest) {
            Ok(0) => break,
            // A reader that claims more bytes than there is room for is wrong, but no reason to panic.
            Ok(length) => filled += length.min(room),
            Err(error) if error.kind() == io::ErrorKind::Interrupted => {}
            Err(error) => return Err(error),
        }
    }
    Ok(filled)
}
