//! A longer file, and the new clusters taken in.

use std::path::Path;

use qcow2_core::{Outcome, Verdict};

use super::change;
use super::check::Checked;
use crate::autoclear;
use crate::backing::Backing;
use crate::bring::Fault;
use crate::disk::{unflushed, Disk};
use crate::fields::{Fields, MAX_IMAGE};
use crate::image_file::ImageFile;
use crate::json::Json;
use crate::layout::Layout;
use crate::longer::{counted, Longer};
use crate::progress::Progress;
use crate::report::{self, Failure, Report, DONE, FAILED};
use crate::sentences::{refusal, Request, Subject};

/// To `bytes` bytes. The image is at hand as if it were so long.
pub fn run<D: Disk>(
    mut image: ImageFile<D>,
    bytes: u64,
    allowance: u64,
) -> Result<Report, Failure> {
    judged(&mut image, bytes)?;
    let ImageFile { path, file, bytes: work, backing, own, .. } = image;
    let bits = autoclear::bits(&work);
    earlier(&path, &work, own.length, &backing)?;
    let mut longer = Longer::new(file, work);
    let verdict = match longer.trial(&backing.bytes) {
        Ok(verdict) if verdict.is_usable() => verdict,
        Ok(_) => return Err(change::unexpected(0, 0)),
        Err(fault) => return Err(broken_off(0, fault)),
    };
    longer.lengthen().map_err(not_longer)?;
    let (units, finished) = taken_in(&mut longer, allowance)?;
    change::in_step(longer.is_in_step(), units)?;
    let grown = Grown { from: own.length, to: bytes, blocks: longer.blocks(units), units };
    let report = match finished {
        true => grown.finished(verdict),
        false => grown.stopped(longer.units()),
    };
    Ok(change::noting(report, bits, longer.image()))
}

/// Refuses what the core would refuse, and lengths that are none.
fn judged<D>(image: &mut ImageFile<D>, bytes: u64) -> Result<(), Failure> {
    let (length, old) = (image.own.length, counted(&image.bytes));
    let number = match qcow2_core::extend(&mut image.bytes, old, 0) {
        // The zeros after it make it no header.
        _ if length < 512 => 1,
        Outcome::Refused(number) => number,
        _ => 0,
    };
    let file = &image.bytes[..length as usize];
    let subject = Subject::of(&image.path, file, &image.backing);
    let cluster = Fields::read(file).and_then(|fields| fields.cluster());
    match (number, cluster) {
        (1..=4, _) | (_, None) => Err(subject.refused(number, Request::Look)),
        (_, Some(cluster)) if bytes > MAX_IMAGE || !bytes.is_multiple_of(cluster) => {
            Err(subject.refused(5, Request::Extend { bytes }))
        }
        _ if bytes < length => Err(Failure::Other(format!(
            "not changed: the file has {length} bytes, more than {bytes}.\n  No command makes it \
             shorter."
        ))),
        (0, _) => Ok(()),
        _ => Err(subject.refused(number, Request::Extend { bytes })),
    }
}

/// What the image was before has to be sound or to leak, since the promise is for
/// that: the file as it is, or as much of it as its refcount blocks count.
fn earlier(path: &Path, image: &[u8], length: u64, backing: &Backing) -> Result<(), Failure> {
    let cluster = Layout::of(image).map_or(512, |layout| layout.cluster() as u64);
    let length = counted(image).min(length.next_multiple_of(cluster));
    let image = &image[..length as usize];
    let mut scratch = vec![0; image.len() / 256];
    let verdict = qcow2_core::check(image, &backing.bytes, &mut scratch);
    let subject = Subject::of(path, image, backing);
    match (verdict, Layout::of(image)) {
        (Verdict::Refused(number), _) => {
            let mut refusal = refusal(number, &subject, Request::Look);
            if number != 19 {
                refusal.what = format!(
                    "the first {length} bytes, which its refcount blocks count, are no image by \
                     themselves: {}",
                    refusal.what
                );
            }
            Err(Failure::Refused(refusal))
        }
        (_, Some(layout)) => change::is_usable(&Checked { layout, verdict, scratch }, image),
        (_, None) => Err(subject.refused(1, Request::Look)),
    }
}

/// Runs the work until the allowance is spent: the units, and whether all is done.
fn taken_in<D: Disk>(longer: &mut Longer<D>, allowance: u64) -> Result<(u64, bool), Failure> {
    let mut progress = Progress::new("extend", longer.units());
    let mut spent = 0;
    let outcome = longer.run(allowance, |done| {
        spent = done;
        progress.at(done);
    });
    match outcome {
        Ok(Outcome::Finished(units)) => Ok((units, true)),
        Ok(Outcome::Stopped(units)) => Ok((units, false)),
        Ok(Outcome::Refused(number)) => Err(change::unexpected(spent, number.into())),
        Err(fault) => Err(broken_off(spent, fault)),
    }
}

/// For a disk that could not be made longer.
fn not_longer(fault: Fault) -> Failure {
    match fault {
        Fault::Load(error) | Fault::Store(error) => Failure::Other(format!("not changed: {error}")),
        fault => broken_off(0, fault),
    }
}

/// For a disk that failed after these units, or in the epoch that follows them.
fn broken_off(spent: u64, fault: Fault) -> Failure {
    let broken = format!("broken off after {spent} units or more");
    match fault {
        Fault::Unexpected(number) => change::unexpected(spent, number),
        Fault::Flush(error) => Failure::Other(format!(
            "{broken}: {} The same command then finishes the work.",
            unflushed(&error)
        )),
        Fault::Load(error) | Fault::Store(error) => Failure::Other(format!(
            "{broken}: {error}.\n  The same command finishes the work; until then the image may be \
             refused (10)."
        )),
    }
}

/// What was done.
struct Grown {
    from: u64,
    to: u64,
    blocks: usize,
    units: u64,
}

impl Grown {
    fn finished(self, verdict: Verdict) -> Report {
        let Grown { from, to, blocks, units } = self;
        let mut text = match (from == to, blocks) {
            (true, 0) => format!("nothing to do: all {to} bytes are counted already\n"),
            (true, _) => format!("took {to} bytes in"),
            (false, _) => format!("extended from {from} to {to} bytes"),
        };
        if (from, blocks) != (to, 0) {
            text += &format!(": {blocks} new refcount blocks, {}\n", report::units(units));
        }
        let leaks = match verdict {
            Verdict::Leaks(leaks) => leaks,
            _ => 0,
        };
        if leaks > 0 {
            text += &format!("  The image leaks {leaks}: 'qstore check' says more.\n");
        }
        let mut json = self.members(true);
        json.push(("leaks", leaks.into()));
        Report { text, json, exit: DONE }
    }

    fn stopped(self, total: u64) -> Report {
        let text = format!(
            "stopped after {} of {}\n  The same command finishes the work; until then the image is \
             refused (10).\n",
            self.units,
            report::units(total)
        );
        Report { text, json: self.members(false), exit: FAILED }
    }

    fn members(&self, finished: bool) -> Vec<(&'static str, Json)> {
        vec![
            ("old_length", self.from.into()),
            ("length", self.to.into()),
            ("blocks", self.blocks.into()),
            ("units", self.units.into()),
            ("finished", finished.into()),
        ]
    }
}
