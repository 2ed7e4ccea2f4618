//! Where an image is kept: bytes at places, a length, and a flush.

use std::fs::File;
use std::io::{self, ErrorKind};
use std::ops::Range;
use std::os::unix::fs::FileExt;

/// Two threads may load at once.
pub trait Disk: Sync {
    fn length(&self) -> io::Result<u64>;

    /// Fills `bytes` with what is stored from `at` on.
    fn load(&self, at: u64, bytes: &mut [u8]) -> io::Result<()>;

    /// The first range at or after `at` that may hold other bytes than zeros.
    fn data(&self, at: u64) -> io::Result<Option<Range<u64>>> {
        let end = self.length()?;
        Ok((at < end).then_some(at..end))
    }

    fn store(&mut self, at: u64, bytes: &[u8]) -> io::Result<()>;

    /// Makes it so long by zeros, which count as stored; it is never made shorter.
    fn lengthen(&mut self, length: u64) -> io::Result<()>;

    /// Returns when everything stored before is safe from a power cut.
    fn flush(&mut self) -> io::Result<()>;
}

impl Disk for File {
    fn length(&self) -> io::Result<u64> {
        Ok(self.metadata()?.len())
    }

    fn load(&self, at: u64, bytes: &mut [u8]) -> io::Result<()> {
        let mut done = 0;
        while done < bytes.len() {
            let place = at + done as u64;
            match self.read_at(&mut bytes[done..], place) {
                Ok(0) => return Err(shorter()),
                Ok(len) => done += len,
                Err(error) if error.kind() == ErrorKind::Interrupted => {}
                Err(error) => return Err(placed("reading", place, &error)),
            }
        }
        Ok(())
    }

    /// All is data where the file system cannot tell.
    fn data(&self, at: u64) -> io::Result<Option<Range<u64>>> {
        match qstore_sys::data_from(self, at) {
            Ok(None) => Ok(None),
            Ok(Some(start)) => {
                let end = qstore_sys::hole_from(self, start).or_else(|_| self.length())?;
                Ok((start < end).then_some(start..end))
            }
            Err(_) => {
                let end = self.length()?;
                Ok((at < end).then_some(at..end))
            }
        }
    }

    fn store(&mut self, at: u64, bytes: &[u8]) -> io::Result<()> {
        self.write_all_at(bytes, at).map_err(|error| placed("storing", at, &error))
    }

    fn lengthen(&mut self, length: u64) -> io::Result<()> {
        if length < self.metadata()?.len() {
            return Err(io::Error::other("it would be made shorter"));
        }
        let failed = |error: io::Error| {
            io::Error::new(error.kind(), format!("making it {length} bytes long: {error}"))
        };
        self.set_len(length).map_err(failed)
    }

    /// With the length, which is needed to find the data again.
    fn flush(&mut self) -> io::Result<()> {
        self.sync_data()
    }
}

/// A lent disk is one.
impl<D: Disk> Disk for &mut D {
    fn length(&self) -> io::Result<u64> {
        (**self).length()
    }

    fn load(&self, at: u64, bytes: &mut [u8]) -> io::Result<()> {
        (**self).load(at, bytes)
    }

    fn data(&self, at: u64) -> io::Result<Option<Range<u64>>> {
        (**self).data(at)
    }

    fn store(&mut self, at: u64, bytes: &[u8]) -> io::Result<()> {
        (**self).store(at, bytes)
    }

    fn lengthen(&mut self, length: u64) -> io::Result<()> {
        (**self).lengthen(length)
    }

    fn flush(&mut self) -> io::Result<()> {
        (**self).flush()
    }
}

/// The error for a disk that ends before its length.
pub fn shorter() -> io::Error {
    io::Error::new(ErrorKind::UnexpectedEof, "it became shorter while being read")
}

fn placed(doing: &str, at: u64, error: &io::Error) -> io::Error {
    io::Error::new(error.kind(), format!("{doing} at offset {at}: {error}"))
}

/// What a failed flush leaves, in words.
pub fn unflushed(error: &io::Error) -> String {
    format!(
        "flushing failed: {error}. What reached the drive is not known.\n  The system's cache may \
         show what the drive does not have, so no command can judge the image now. See to the \
         drive; then go on from a copy, or after the machine was restarted."
    )
}
