//! What one more call adds to a batch, and in which phase. Image and backing file's
//! bytes have to be as the call will be handed them.

use answers::Planned;

use crate::{ffi, lend, lend_mut};

/// A write of `len` bytes at `offset`, whatever they are: 7 rows at most.
pub fn batch_write(
    image: &[u8],
    backing: &[u8],
    offset: u64,
    len: u64,
    rows: &mut [u64],
    held: usize,
) -> Planned {
    let ((image, n), (backing, b)) = (lend(image), lend(backing));
    // SAFETY: see the head of lib.rs.
    planned(rows, |rows, m, count| unsafe {
        ffi::qcow2_backed_batch_write(image, n, backing, b, offset, len, rows, m, held as u64, count)
    })
}

/// A discard of this guest cluster: 3 rows at most.
pub fn batch_discard(
    image: &[u8],
    backing: &[u8],
    cluster: u64,
    rows: &mut [u64],
    held: usize,
) -> Planned {
    let ((image, n), (backing, b)) = (lend(image), lend(backing));
    // SAFETY: see the head of lib.rs.
    planned(rows, |rows, m, count| unsafe {
        ffi::qcow2_backed_batch_discard(image, n, backing, b, cluster, rows, m, held as u64, count)
    })
}

/// A repair, with `scratch` as it needs and leaves it: a row for each count that is
/// set, and one more where the autoclear field is cleared.
pub fn batch_repair(
    image: &[u8],
    backing: &[u8],
    scratch: &mut [u8],
    rows: &mut [u64],
    held: usize,
) -> Planned {
    let mut pad = 0;
    let ((image, n), (backing, b)) = (lend(image), lend(backing));
    let (scratch, s) = lend_mut(scratch, &mut pad);
    // SAFETY: see the head of lib.rs.
    planned(rows, |rows, m, count| unsafe {
        ffi::qcow2_backed_batch_repair(image, n, backing, b, scratch, s, rows, m, held as u64, count)
    })
}

/// Lends the rows and a number for how many are held afterwards.
fn planned(rows: &mut [u64], call: impl FnOnce(*mut u64, usize, &mut u64) -> u32) -> Planned {
    let (mut pad, mut count) = (0, 0);
    let (rows, m) = lend_mut(rows, &mut pad);
    match call(rows, m, &mut count) {
        0 => Planned::Rows(count as usize),
        ffi::BATCH_ENDS => Planned::Ends,
        number => Planned::Refused(number),
    }
}
