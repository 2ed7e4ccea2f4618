//! What the commands that change an image have in common.

use std::io;
use std::path::{Path, PathBuf};

use qcow2_core::Outcome;

use super::check::{check, Checked};
use crate::autoclear;
use crate::backing::Backing;
use crate::call::Call;
use crate::disk::{unflushed, Disk};
use crate::findings;
use crate::image_file::ImageFile;
use crate::ordered::{Fault, Ordered};
use crate::progress::Progress;
use crate::report::{Failure, Report};
use crate::sentences::{Request, Subject};

/// For writes and discards: only sound and leaking images, since the promise
/// about power cuts is for them.
pub fn open_usable<D: Disk>(image: ImageFile<D>) -> Result<(PathBuf, Ordered<D>), Failure> {
    is_usable(&check(&image)?, &image.bytes)?;
    let ImageFile { path, file, bytes, backing, .. } = image;
    Ok((path, ordered(file, bytes, backing)?))
}

/// Is the checked image sound or leaking, or what is the damage?
pub fn is_usable(checked: &Checked, image: &[u8]) -> Result<(), Failure> {
    if checked.verdict.is_usable() {
        return Ok(());
    }
    let (what, json) = checked.words(image);
    let advice = findings::advice(&checked.layout, image, checked.verdict);
    Err(Failure::Damaged { what, json, advice: advice.into() })
}

/// An image that a check has accepted.
pub fn ordered<D: Disk>(file: D, bytes: Vec<u8>, backing: Backing) -> Result<Ordered<D>, Failure> {
    Ordered::new(file, bytes, backing).map_err(|number| unexpected(0, number.into()))
}

/// The failure for a number that the core gave.
pub fn refused<D: Disk>(
    path: &Path,
    ordered: &Ordered<D>,
    number: u32,
    request: Request,
) -> Failure {
    Subject::of(path, ordered.image(), ordered.backing()).refused(number, request)
}

/// The report, with a word on the autoclear bits if the change cleared them.
pub fn noting(mut report: Report, bits: u64, after: &[u8]) -> Report {
    if autoclear::bits(after) != bits {
        report.text += &format!("  {}\n", autoclear::cleared(bits));
        report.json.push(("autoclear_cleared", bits.into()));
    }
    report
}

/// Tries the calls in memory: the units of all, or the first refusal with the
/// index of its call. Where all will be made and none is stopped, that is clear before.
pub fn trial<'a, D: Disk>(
    ordered: &mut Ordered<D>,
    allowance: u64,
    calls: impl Iterator<Item = Call<'a>> + Clone,
) -> Result<Result<u64, (usize, u32)>, Failure> {
    let unbounded = allowance == u64::MAX;
    if let Some(units) = unbounded.then(|| ordered.foreseen(calls.clone())).flatten() {
        return Ok(Ok(units));
    }
    let mut progress = Progress::new("trying in memory", calls.clone().count() as u64);
    ordered.trial(calls, |done| progress.at(done)).map_err(|fault| match fault {
        Fault::Load(error) => Failure::Other(format!("not changed: {error}")),
        fault => broken_off(0, fault),
    })
}

/// Runs the calls in batches until the allowance is spent: the units, and whether
/// all are finished.
pub fn run<'a, D: Disk>(
    ordered: &mut Ordered<D>,
    label: &'static str,
    total: u64,
    allowance: u64,
    calls: impl Iterator<Item = Call<'a>>,
) -> Result<(u64, bool), Failure> {
    let mut progress = Progress::new(label, total);
    let mut spent = 0;
    let outcome = ordered.calls(calls, allowance, |done| {
        spent = done;
        progress.at(done);
    });
    let (units, finished) = match outcome {
        Ok(Outcome::Finished(units)) => (units, true),
        Ok(Outcome::Stopped(units)) => (units, false),
        Ok(Outcome::Refused(number)) => return Err(unexpected(spent, number.into())),
        Err(fault) => return Err(broken_off(spent, fault)),
    };
    in_step(ordered.is_in_step(), units)?;
    Ok((units, finished))
}

/// The last look at memory and file: whether both hold the same.
pub fn in_step(same: io::Result<bool>, spent: u64) -> Result<(), Failure> {
    match same {
        Ok(true) => Ok(()),
        Ok(false) => Err(unexpected(spent, 0)),
        Err(error) => Err(Failure::Other(format!(
            "all {spent} units are stored and flushed, but the file could not be read again to \
             compare it: {error}. Check it."
        ))),
    }
}

/// For a disk that failed after these units, or in the batch that follows them.
pub fn broken_off(spent: u64, fault: Fault) -> Failure {
    match fault {
        Fault::Unexpected(units) => unexpected(spent, units),
        Fault::Flush(error) => {
            Failure::Other(format!("broken off after {spent} units or more: {}", unflushed(&error)))
        }
        Fault::Load(error) | Fault::Store(error) => Failure::Other(format!(
            "broken off after {spent} units or more: {error}. The file holds what a power cut \
             would leave: check it, and repair it if it leaks."
        )),
    }
}

pub fn unexpected(spent: u64, number: u64) -> Failure {
    Failure::Other(format!(
        "broken off after {spent} units: the core answered what no rule allows ({number}). Check \
         the image, and report this."
    ))
}
