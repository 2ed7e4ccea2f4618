//! Memory: zeroed bytes if there is room, a hint on the size of pages, and how
//! much was in use.

use std::alloc::{alloc_zeroed, Layout};
use std::ffi::{c_int, c_long, c_void};
use std::io;

use crate::answered;

const PAGE: usize = 4096;
const MADV_HUGEPAGE: c_int = 14;
const RUSAGE_CHILDREN: c_int = -1;

/// `struct rusage`: two times of two numbers each, then the peak in KiB, then
/// what is not looked at.
#[repr(C)]
struct Usage {
    times: [c_long; 4],
    peak: c_long,
    rest: [c_long; 13],
}

extern "C" {
    fn madvise(at: *mut c_void, length: usize, advice: c_int) -> c_int;
    fn getrusage(who: c_int, usage: *mut Usage) -> c_int;
}

/// So many zeros, or None where there is not enough memory. The system zeroes a
/// page when it is first used, so a page that stays blank takes none.
pub fn zeroed(length: usize) -> Option<Vec<u8>> {
    if length == 0 {
        return Some(Vec::new());
    }
    let layout = Layout::array::<u8>(length).ok()?;
    // SAFETY: the layout's size is not 0.
    let at = unsafe { alloc_zeroed(layout) };
    if at.is_null() {
        return None;
    }
    // SAFETY: the global allocator gave `at` for `length` bytes, all of them set.
    Some(unsafe { Vec::from_raw_parts(at, length, length) })
}

/// Asks for large pages in the memory of these bytes, which makes it quicker to
/// fill, or to read where it is still blank. A hint: whether it is heeded, nobody
/// needs to know.
pub fn advise_large_pages(bytes: &[u8]) {
    let before = bytes.as_ptr().align_offset(PAGE);
    let Some(whole) = bytes.get(before..) else { return };
    let length = whole.len() / PAGE * PAGE;
    // SAFETY: the range lies inside `bytes`, which is borrowed, and the advice
    // changes no byte of it.
    _ = unsafe { madvise(whole.as_ptr().cast_mut().cast(), length, MADV_HUGEPAGE) };
}

/// The most bytes that any child that has ended held in memory.
pub fn peak_of_children() -> io::Result<u64> {
    let mut usage = Usage { times: [0; 4], peak: 0, rest: [0; 13] };
    // SAFETY: `usage` has the structure's layout and lives through the call.
    answered(unsafe { getrusage(RUSAGE_CHILDREN, &mut usage) }.into())?;
    Ok(usage.peak as u64 * 1024)
}
