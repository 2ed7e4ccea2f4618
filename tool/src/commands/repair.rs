//! Leaked clusters given back.

use qcow2_core::{Outcome, Verdict};

use super::change;
use super::check::check;
use crate::autoclear;
use crate::disk::Disk;
use crate::image_file::ImageFile;
use crate::progress::Progress;
use crate::report::{self, Failure, Report, DONE, FAILED};
use crate::sentences::Request;

pub fn run<D: Disk>(image: ImageFile<D>, allowance: u64, force: bool) -> Result<Report, Failure> {
    let checked = check(&image)?;
    let bits = autoclear::bits(&image.bytes);
    // What looks leaked may be in use by a feature that the core does not know.
    if matches!(checked.verdict, Verdict::Leaks(_)) && bits != 0 && !force {
        return Err(Failure::Other(autoclear::guard(bits)));
    }
    // Damage is left to the core, which has a number for it.
    let ImageFile { path, file, bytes, backing, .. } = image;
    let mut ordered = change::ordered(file, bytes, backing)?;
    let mut progress = Progress::new("repair", 0);
    let mut spent = 0;
    let outcome = ordered.repair(allowance, |done, total| {
        spent = done;
        progress.of(done, total);
    });
    drop(progress);
    let (units, finished) = match outcome {
        Ok(Outcome::Finished(units)) => (units, true),
        Ok(Outcome::Stopped(units)) => (units, false),
        Ok(Outcome::Refused(number)) => {
            return Err(change::refused(&path, &ordered, number, Request::Look));
        }
        Err(fault) => return Err(change::broken_off(spent, fault)),
    };
    change::in_step(ordered.is_in_step(), units)?;
    let text = match (finished, units) {
        (true, 0) => "sound, nothing to repair\n".into(),
        (true, _) => {
            let counts = units - u64::from(bits != 0);
            format!("repaired: {counts} counts set, the image is sound\n")
        }
        (false, _) => format!("stopped after {}\n", report::units(units)),
    };
    let json = vec![("units", units.into()), ("finished", finished.into())];
    let report = Report { text, json, exit: if finished { DONE } else { FAILED } };
    Ok(change::noting(report, bits, ordered.image()))
}
