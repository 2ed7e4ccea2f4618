//! Where a file has data. Both move the file's own offset, so they are for
//! files that are read and written at given places alone.

use std::ffi::c_int;
use std::fs::File;
use std::io;
use std::os::fd::AsRawFd;

use crate::answered;

const SEEK_DATA: c_int = 3;
const SEEK_HOLE: c_int = 4;
const ENXIO: i32 = 6;

extern "C" {
    fn lseek(fd: c_int, offset: i64, whence: c_int) -> i64;
}

/// The first place at or after `at` that may hold something; None if only a
/// hole is left, or if the file ends before.
pub fn data_from(file: &File, at: u64) -> io::Result<Option<u64>> {
    match seek(file, at, SEEK_DATA) {
        Err(error) if error.raw_os_error() == Some(ENXIO) => Ok(None),
        found => found.map(Some),
    }
}

/// The first place at or after `at` that is in a hole; the file's end is one.
pub fn hole_from(file: &File, at: u64) -> io::Result<u64> {
    seek(file, at, SEEK_HOLE)
}

fn seek(file: &File, at: u64, whence: c_int) -> io::Result<u64> {
    let at = i64::try_from(at).map_err(|_| io::ErrorKind::InvalidInput)?;
    // SAFETY: the descriptor is open while `file` is borrowed; takes plain numbers.
    let result = unsafe { lseek(file.as_raw_fd(), at, whence) };
    answered(result).map(|found| found as u64)
}
