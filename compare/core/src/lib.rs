//! Safe calls to the proved core: slices in, enums out. The only crate of this
//! workspace with `unsafe`.
//!
//! `backing` is the bytes of the image's backing file, whole, and the same for
//! every call on that image; `&[]` where it has none. An image with a backing file
//! is refused with 19 where none are lent, one without does not look at them.
//!
//! What every `unsafe` block below relies on: a slice is lent as its pointer
//! and its length for the time of one call, shared slices are only read, and
//! the out values are locals.

mod batches;
mod ffi;
mod portions;
mod steps;
#[cfg(test)]
mod stored;
#[cfg(test)]
mod stored_batches;
#[cfg(test)]
mod stored_portions;

pub use answers::{
    CheckBytes, Found, Geometry, Outcome, Planned, Portion, Run, Step, Verdict, CHECK_STATE,
    PHASES, STEP,
};
pub use batches::{batch_discard, batch_repair, batch_write};
pub use portions::check_portion;
pub use steps::{discard_steps, repair_steps, write_steps};

/// The proved core as an implementation of [`answers::Calls`].
pub struct Core;

answers::calls!(functions Core "core");
answers::batches!(Core);

/// Cluster size, disk size and number of clusters, as the header has them.
pub fn geometry(image: &[u8], backing: &[u8]) -> Result<Geometry, u32> {
    let (mut bits, mut size, mut clusters) = (0, 0, 0);
    let ((image, n), (backing, b)) = (lend(image), lend(backing));
    // SAFETY: see the head of this file.
    let code = unsafe {
        ffi::qcow2_backed_geometry(image, n, backing, b, &mut bits, &mut size, &mut clusters)
    };
    let geometry = Geometry { cluster_bits: bits as u32, size, clusters: clusters as usize };
    done(code).map(|()| geometry)
}

/// The name of the image's backing file, which is any bytes; empty where there is
/// none. It comes from whoever made the image.
pub fn backing_name(image: &[u8]) -> Result<&[u8], u32> {
    let (mut at, mut len) = (0, 0);
    let (lent, n) = lend(image);
    // SAFETY: see the head of this file.
    let code = unsafe { ffi::qcow2_backing_name(lent, n, &mut at, &mut len) };
    done(code).map(|()| &image[at as usize..][..len as usize])
}

/// What stands behind `offset`.
pub fn translate(image: &[u8], backing: &[u8], offset: u64) -> Found {
    let mut host = 0;
    let ((image, n), (backing, b)) = (lend(image), lend(backing));
    // SAFETY: see the head of this file.
    match unsafe { ffi::qcow2_backed_translate(image, n, backing, b, offset, &mut host) } {
        0 => Found::Host(host),
        answers::ZEROS => Found::Zeros,
        answers::ABSENT => Found::Absent,
        number => Found::Refused(number),
    }
}

/// Fills `out` with the guest bytes from `offset` on, or refuses and leaves it.
pub fn read(image: &[u8], backing: &[u8], offset: u64, out: &mut [u8]) -> Result<(), u32> {
    let mut pad = 0;
    let ((image, n), (backing, b)) = (lend(image), lend(backing));
    let (out, len) = lend_mut(out, &mut pad);
    // SAFETY: see the head of this file.
    done(unsafe { ffi::qcow2_backed_read(image, n, backing, b, offset, out, len) })
}

/// The same of the disk that a snapshot has kept, as far as its L1 table reaches.
pub fn read_snapshot(
    image: &[u8],
    backing: &[u8],
    snapshot: u64,
    offset: u64,
    out: &mut [u8],
) -> Result<(), u32> {
    let mut pad = 0;
    let ((image, n), (backing, b)) = (lend(image), lend(backing));
    let (out, len) = lend_mut(out, &mut pad);
    // SAFETY: see the head of this file.
    done(unsafe {
        ffi::qcow2_backed_read_snapshot(image, n, backing, b, snapshot, offset, out, len)
    })
}

/// The guest bytes from `offset` to the end of its cluster or of the disk, as
/// a part of the image; empty where translation gives no host offset.
pub fn lookup<'a>(image: &'a [u8], backing: &[u8], offset: u64) -> &'a [u8] {
    let ((lent, n), (under, b)) = (lend(image), lend(backing));
    // SAFETY: see the head of this file.
    let len = unsafe { ffi::qcow2_backed_lookup(lent, n, under, b, offset) };
    if len == 0 {
        return &[];
    }
    match translate(image, backing, offset) {
        Found::Host(host) => &image[host as usize..][..len],
        other => panic!("lookup answered {len} bytes where translation answered {other:?}"),
    }
}

/// Fills `rows` with the runs of the `len` guest bytes from `offset` on, three
/// numbers each (see [`Run::of_row`]), as far as they have room; how many.
pub fn runs(
    image: &[u8],
    backing: &[u8],
    offset: u64,
    len: u64,
    rows: &mut [u64],
) -> Result<usize, u32> {
    let ((image, n), (backing, b)) = (lend(image), lend(backing));
    // SAFETY: see the head of this file.
    listed(rows, |rows, m, count| unsafe {
        ffi::qcow2_backed_runs(image, n, backing, b, offset, len, rows, m, count)
    })
}

/// Writes `data` at `offset`, cut after `allowance` units.
pub fn write(
    image: &mut [u8],
    backing: &[u8],
    offset: u64,
    data: &[u8],
    allowance: u64,
) -> Outcome {
    let ((backing, b), (data, len)) = (lend(backing), lend(data));
    // SAFETY: see the head of this file.
    changed(image, |image, n, units| unsafe {
        ffi::qcow2_backed_write(image, n, backing, b, offset, data, len, allowance, units)
    })
}

/// Discards one guest cluster, cut after `allowance` units.
pub fn discard(image: &mut [u8], backing: &[u8], cluster: u64, allowance: u64) -> Outcome {
    let (backing, b) = lend(backing);
    // SAFETY: see the head of this file.
    changed(image, |image, n, units| unsafe {
        ffi::qcow2_backed_discard(image, n, backing, b, cluster, allowance, units)
    })
}

/// Sets the counts of a leaking image to its references, cut after `allowance`
/// units; `scratch` ends as the check leaves it.
pub fn repair(image: &mut [u8], backing: &[u8], scratch: &mut [u8], allowance: u64) -> Outcome {
    let mut pad = 0;
    let ((backing, b), (scratch, m)) = (lend(backing), lend_mut(scratch, &mut pad));
    // SAFETY: see the head of this file.
    changed(image, |image, n, units| unsafe {
        ffi::qcow2_backed_repair(image, n, backing, b, scratch, m, allowance, units)
    })
}

/// Takes in what was appended to an image that had `old` bytes, cut after
/// `allowance` units. No bytes of a backing file are needed.
pub fn extend(image: &mut [u8], old: u64, allowance: u64) -> Outcome {
    // SAFETY: see the head of this file.
    changed(image, |image, n, units| unsafe { ffi::qcow2_extend(image, n, old, allowance, units) })
}

/// Counts the references into `scratch` and judges the stored counts by them.
pub fn check(image: &[u8], backing: &[u8], scratch: &mut [u8]) -> Verdict {
    let mut pad = 0;
    let ((image, n), (backing, b)) = (lend(image), lend(backing));
    let (scratch, m) = lend_mut(scratch, &mut pad);
    // SAFETY: see the head of this file.
    judged(|first, second, third| unsafe {
        ffi::qcow2_backed_check(image, n, backing, b, scratch, m, first, second, third)
    })
}

/// Lends the three numbers of a check; what it says by them and by its code.
fn judged(call: impl FnOnce(&mut u64, &mut u64, &mut u64) -> u32) -> Verdict {
    let [mut first, mut second, mut third] = [0; 3];
    match call(&mut first, &mut second, &mut third) {
        0 => Verdict::Sound,
        ffi::LEAKS => Verdict::Leaks(first),
        ffi::BAD_L1 => Verdict::BadL1(first),
        ffi::BAD_L2 => Verdict::BadL2(first, second),
        ffi::SNAPSHOT_BAD_L1 => Verdict::SnapshotBadL1(first, third),
        ffi::SNAPSHOT_BAD_L2 => Verdict::SnapshotBadL2(first, second, third),
        ffi::SHARED => Verdict::Shared(first),
        ffi::SHORT => Verdict::Short(first),
        ffi::MARK_L1 => Verdict::MarkL1(first),
        ffi::MARK_L2 => Verdict::MarkL2(first, second),
        number => Verdict::Refused(number),
    }
}

/// A cluster's stored count less the scratch's figure, with its sign.
pub fn difference(stored: u64, figure: u16) -> i32 {
    // SAFETY: takes and gives plain numbers.
    unsafe { ffi::qcow2_difference(stored, figure) }
}

/// Lends the image and a number for the units that a call spends.
fn changed(image: &mut [u8], call: impl FnOnce(*mut u8, usize, &mut u64) -> u32) -> Outcome {
    let (mut pad, mut units) = (0, 0);
    let (image, n) = lend_mut(image, &mut pad);
    match call(image, n, &mut units) {
        0 => Outcome::Finished(units),
        ffi::STOPPED => Outcome::Stopped(units),
        number => Outcome::Refused(number),
    }
}

/// Lends the rows and a number for how many a call fills.
fn listed(
    rows: &mut [u64],
    call: impl FnOnce(*mut u64, usize, &mut u64) -> u32,
) -> Result<usize, u32> {
    let (mut pad, mut count) = (0, 0);
    let (rows, m) = lend_mut(rows, &mut pad);
    done(call(rows, m, &mut count)).map(|()| count as usize)
}

/// Of a call that is done or refused.
fn done(code: u32) -> Result<(), u32> {
    match code {
        0 => Ok(()),
        number => Err(number),
    }
}

/// A pointer to the slice, and its length; for an empty one to a real byte, never
/// null.
fn lend(slice: &[u8]) -> (*const u8, usize) {
    static PAD: u8 = 0;
    match slice {
        [] => (&PAD, 0),
        _ => (slice.as_ptr(), slice.len()),
    }
}

fn lend_mut<'a, T>(slice: &'a mut [T], pad: &'a mut T) -> (*mut T, usize) {
    match slice {
        [] => (pad, 0),
        _ => (slice.as_mut_ptr(), slice.len()),
    }
}
