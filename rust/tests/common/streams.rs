//! A difficult stream for readers and writers: its bytes come or go in pieces, with interruptions. It can also
//! fail, give other bytes at a second reading, or count what is done with it.

use std::io::{self, ErrorKind, Read, Seek, SeekFrom, Write};

/// Bytes that come in pieces of a length, are interrupted before each piece, or fail from a place on. It is
/// not sought past their end.
#[derive(Clone)]
pub struct Pieces {
    pub bytes: Vec<u8>,
    pub at: usize,
    pub length: usize,
    pub interrupts: bool,
    pub interrupted: bool,
    pub fails_at: usize,
    /// How many seeks succeed before one fails. Asking for the position is one.
    pub seeks: usize,
    /// What it becomes when it is sought back.
    pub again: Option<Box<Pieces>>,
    /// How many bytes it is offered in each write, and how many it has at each flush.
    pub offered: Vec<usize>,
    pub flushed: Vec<usize>,
}

impl Pieces {
    pub fn of(bytes: &[u8], length: usize) -> Self {
        Pieces {
            bytes: bytes.to_vec(),
            at: 0,
            length,
            interrupts: false,
            interrupted: false,
            fails_at: usize::MAX,
            seeks: usize::MAX,
            again: None,
            offered: Vec::new(),
            flushed: Vec::new(),
        }
    }

    /// How many bytes may go through now.
    fn allowed(&mut self, asked: usize) -> io::Result<usize> {
        self.interrupted = self.interrupts && !self.interrupted;
        if self.interrupted {
            return Err(ErrorKind::Interrupted.into());
        }
        let left = self.fails_at - self.at;
        if left == 0 && asked > 0 {
            return Err(no_more());
        }
        Ok(asked.min(self.length).min(left))
    }
}

fn no_more() -> io::Error {
    io::Error::new(ErrorKind::PermissionDenied, "no more")
}

impl Read for Pieces {
    fn read(&mut self, buffer: &mut [u8]) -> io::Result<usize> {
        let length = self.allowed(buffer.len())?;
        let length = length.min(self.bytes.len() - self.at);
        buffer[..length].copy_from_slice(&self.bytes[self.at..][..length]);
        self.at += length;
        Ok(length)
    }
}

impl Write for Pieces {
    fn write(&mut self, bytes: &[u8]) -> io::Result<usize> {
        self.offered.push(bytes.len());
        let length = self.allowed(bytes.len())?;
        self.bytes.extend(&bytes[..length]);
        self.at += length;
        Ok(length)
    }
    fn flush(&mut self) -> io::Result<()> {
        self.flushed.push(self.bytes.len());
        Ok(())
    }
}

impl Seek for Pieces {
    fn seek(&mut self, to: SeekFrom) -> io::Result<u64> {
        self.seeks = self.seeks.checked_sub(1).ok_or_else(no_more)?;
        let (from, by) = match to {
            SeekFrom::Start(place) => (0, place as i64),
            SeekFrom::Current(by) => (self.at, by),
            SeekFrom::End(by) => (self.bytes.len(), by),
        };
        let place = (from as i64 + by).try_into().unwrap();
        if place < self.at {
            if let Some(again) = self.again.take() {
                *self = *again;
            }
        }
        self.at = place;
        Ok(place as u64)
    }
}
