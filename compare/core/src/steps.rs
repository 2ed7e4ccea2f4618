//! The steps of a call, listed before it is made: which bytes it changes, and
//! where a flush has to stand between them.
//!
//! Each call fills `rows` with the steps, four numbers each (see
//! [`Step::of_rows`](answers::Step::of_rows)), as many as there is room for, and
//! says how many; or it gives the number that the call itself would be refused
//! with, and leaves the rows. The image and its backing file's bytes have to be as
//! the call will be handed them.

use crate::{ffi, lend, lend_mut, listed};

/// Of a write of `len` bytes at `offset`, whatever they are: 7 steps at most.
pub fn write_steps(
    image: &[u8],
    backing: &[u8],
    offset: u64,
    len: u64,
    rows: &mut [u64],
) -> Result<usize, u32> {
    let ((image, n), (backing, b)) = (lend(image), lend(backing));
    // SAFETY: see the head of lib.rs.
    listed(rows, |rows, m, count| unsafe {
        ffi::qcow2_backed_write_steps(image, n, backing, b, offset, len, rows, m, count)
    })
}

/// Of a discard of this guest cluster: 3 steps at most.
pub fn discard_steps(
    image: &[u8],
    backing: &[u8],
    cluster: u64,
    rows: &mut [u64],
) -> Result<usize, u32> {
    let ((image, n), (backing, b)) = (lend(image), lend(backing));
    // SAFETY: see the head of lib.rs.
    listed(rows, |rows, m, count| unsafe {
        ffi::qcow2_backed_discard_steps(image, n, backing, b, cluster, rows, m, count)
    })
}

/// Of a repair, with `scratch` as the repair needs and leaves it: a step for each
/// count that is set, and one more where the autoclear field is cleared.
pub fn repair_steps(
    image: &[u8],
    backing: &[u8],
    scratch: &mut [u8],
    rows: &mut [u64],
) -> Result<usize, u32> {
    let mut pad = 0;
    let ((image, n), (backing, b)) = (lend(image), lend(backing));
    let (scratch, s) = lend_mut(scratch, &mut pad);
    // SAFETY: see the head of lib.rs.
    listed(rows, |rows, m, count| unsafe {
        ffi::qcow2_backed_repair_steps(image, n, backing, b, scratch, s, rows, m, count)
    })
}
