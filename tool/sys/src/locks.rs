//! Locks that belong to an open file, not to the process (F_OFD_SETLK), on one
//! byte each. They end when the file is closed.

use std::ffi::{c_int, c_short};
use std::fs::File;
use std::io;
use std::os::fd::AsRawFd;

use crate::answered;

const F_RDLCK: c_short = 0;
const F_WRLCK: c_short = 1;
const F_UNLCK: c_short = 2;
const F_SETLK: c_int = 6;
const F_OFD_GETLK: c_int = 36;
const F_OFD_SETLK: c_int = 37;
const SEEK_SET: c_short = 0;

/// `struct flock`.
#[repr(C)]
struct Flock {
    kind: c_short,
    whence: c_short,
    start: i64,
    len: i64,
    /// 0, as these commands ask.
    pid: c_int,
}

extern "C" {
    fn fcntl(fd: c_int, command: c_int, ...) -> c_int;
}

/// Takes a shared lock on the byte, without waiting.
pub fn share(file: &File, byte: u32) -> io::Result<()> {
    call(file, F_OFD_SETLK, F_RDLCK, byte).map(|_| ())
}

/// The same as a lock of the process, of the older kind: for tests. It ends when
/// the process closes any file that is the same.
pub fn share_as_process(file: &File, byte: u32) -> io::Result<()> {
    call(file, F_SETLK, F_RDLCK, byte).map(|_| ())
}

/// Who has a lock on a byte.
#[derive(Clone, Copy, Debug, PartialEq)]
pub enum Holder {
    /// An open file, as here.
    File,
    /// A process, by its number: the older kind of locks.
    Process(i32),
}

/// Has anybody else a lock on the byte? Takes none.
pub fn holder(file: &File, byte: u32) -> io::Result<Option<Holder>> {
    let found = call(file, F_OFD_GETLK, F_WRLCK, byte)?;
    Ok(match found {
        Flock { kind: F_UNLCK, .. } => None,
        Flock { pid: -1, .. } => Some(Holder::File),
        Flock { pid, .. } => Some(Holder::Process(pid)),
    })
}

fn call(file: &File, command: c_int, kind: c_short, byte: u32) -> io::Result<Flock> {
    let mut flock = Flock { kind, whence: SEEK_SET, start: byte.into(), len: 1, pid: 0 };
    // SAFETY: the descriptor is open while `file` is borrowed, and both commands
    // take a pointer to one `struct flock`, which lives through the call.
    let result = unsafe { fcntl(file.as_raw_fd(), command, &mut flock as *mut Flock) };
    answered(result.into()).map(|_| flock)
}
