//! Brings what the core does in memory to the file.
//!
//! Calls are stored in batches. Each call is planned first: the core lists the bytes
//! that it is going to change, by phase. Phase 0 clears the autoclear bits, phase 1
//! makes ready what nothing leads to yet, or writes data in place, phase 2 has the
//! entries that link, show or hide, and phase 3 the counts that fall. Then the call is
//! made in memory, and the next is planned. Where one may not be stored together with
//! those before it the batch ends: the bytes of all its calls go to the file phase by
//! phase, as memory has them, with a flush after each that stored anything.
//!
//! So a power cut leaves the phases before and, of the one at work, any sectors
//! whatever: a drive keeps no order between two flushes. That the image is then
//! sound or leaks, its snapshots are whole and each guest byte is old or new, of
//! a call that allots or frees all old or all new, is proved
//! (crates/qcow2_batches/specs/Series.antt, `BatchDemand3` and what follows it). A call
//! that an allowance stops is stored by itself, in the epochs of its steps
//! (crates/qcow2_spec/specs/Series.antt, `LooseDemand3`). What remains here is to store
//! what the steps say and nothing else.
//!
//! Memory has the image once: the bytes as they were are loaded from the file where they
//! are needed. The backing file's bytes stand beside it, the same for every call.

use std::io;

use qcow2_core::{Geometry, Outcome, Planned, Step, STEP};

use crate::backing::Backing;
use crate::batch::Batch;
pub use crate::bring::Fault;
use crate::bring::{bring, is_told, Change};
use crate::call::Call;
use crate::disk::Disk;
use crate::extents;
use crate::foreseen::foreseen;
use crate::planner::batch_repair;
use crate::steps::{units, within};
use crate::touched::Touched;

pub struct Ordered<D> {
    disk: D,
    pub geometry: Geometry,
    /// What the core works on; between calls it is what the file holds.
    work: Vec<u8>,
    /// What every call is lent beside it.
    backing: Backing,
}

impl<D: Disk> Ordered<D> {
    /// An image whose bytes the disk holds, or the number of its header. For
    /// [`Ordered::call`] it has to be sound or leak.
    pub fn new(disk: D, image: Vec<u8>, backing: Backing) -> Result<Ordered<D>, u32> {
        let geometry = qcow2_core::geometry(&image, &backing.bytes)?;
        Ok(Ordered { disk, geometry, work: image, backing })
    }

    pub fn image(&self) -> &[u8] {
        &self.work
    }

    pub fn backing(&self) -> &Backing {
        &self.backing
    }

    pub fn into_disk(self) -> D {
        self.disk
    }

    /// The units of all calls, if it is clear without a trial that none will be
    /// refused. Each has a guest cluster of its own.
    pub fn foreseen<'a>(&self, calls: impl Iterator<Item = Call<'a>>) -> Option<u64> {
        foreseen(&self.work, &self.backing.bytes, calls)
    }

    /// Runs all calls in memory alone: the units of all, or the first refusal
    /// with the index of its call.
    pub fn trial<'a>(
        &mut self,
        calls: impl Iterator<Item = Call<'a>>,
        mut done: impl FnMut(u64),
    ) -> Result<Result<u64, (usize, u32)>, Fault> {
        let (mut total, mut refused) = (0, None);
        let mut touched = Touched::none(&self.geometry);
        for (index, call) in calls.enumerate() {
            let (outcome, changes) = self.run(&call, u64::MAX)?;
            match outcome {
                Outcome::Finished(units) | Outcome::Stopped(units) => total += units,
                Outcome::Refused(number) => {
                    refused = Some((index, number));
                    break;
                }
            }
            changes.iter().for_each(|change| touched.add(&change.step));
            done(index as u64 + 1);
        }
        for range in touched.runs() {
            extents::read_again(&self.disk, &mut self.work, range).map_err(Fault::Load)?;
        }
        Ok(refused.map_or(Ok(total), Err))
    }

    /// Calls in batches, until the allowance is spent or one is refused; all that came
    /// before it is in the file then. `done` hears of the units that are flushed.
    pub fn calls<'a>(
        &mut self,
        calls: impl Iterator<Item = Call<'a>>,
        allowance: u64,
        mut done: impl FnMut(u64),
    ) -> Result<Outcome, Fault> {
        let (mut batch, mut spent) = (Batch::default(), 0);
        for call in calls {
            let mut planned = batch.plan(&call, &self.work, &self.backing.bytes);
            if planned == Planned::Ends || batch.is_long() {
                spent += self.store(&mut batch)?;
                done(spent);
                planned = batch.plan(&call, &self.work, &self.backing.bytes);
            }
            let left = allowance - spent - batch.units;
            match planned {
                Planned::Rows(count) if units(&batch.new_steps(count)) <= left => {
                    let outcome = call.run(&mut self.work, &self.backing.bytes, u64::MAX);
                    is_told(outcome, &batch.new_steps(count))?;
                    batch.hold(&call, count);
                }
                // By itself: an allowance may stop it anywhere.
                Planned::Rows(_) | Planned::Refused(_) => {
                    spent += self.store(&mut batch)?;
                    done(spent);
                    return match self.call(&call, left)? {
                        Outcome::Finished(units) => Err(Fault::Unexpected(units)),
                        Outcome::Stopped(units) => Ok(Outcome::Stopped(spent + units)),
                        refused => Ok(refused),
                    };
                }
                Planned::Ends => return Err(Fault::Unexpected(0)),
            }
        }
        spent += self.store(&mut batch)?;
        done(spent);
        Ok(Outcome::Finished(spent))
    }

    /// Brings a batch to the file: its units.
    fn store(&mut self, batch: &mut Batch) -> Result<u64, Fault> {
        let units = batch.units;
        bring(&mut self.disk, &self.work, &batch.take(), |_| ())?;
        Ok(units)
    }

    /// One call, with its changes in the file. A refusal changes nothing.
    pub fn call(&mut self, call: &Call, allowance: u64) -> Result<Outcome, Fault> {
        let (outcome, changes) = self.run(call, allowance)?;
        bring(&mut self.disk, &self.work, &changes, |_| ())?;
        Ok(outcome)
    }

    /// Repairs the image, with its changes in the file; `done` hears of the units
    /// that are flushed, and of all.
    pub fn repair(
        &mut self,
        allowance: u64,
        mut done: impl FnMut(u64, u64),
    ) -> Result<Outcome, Fault> {
        let mut scratch = vec![0; self.geometry.scratch()];
        let backing = &self.backing.bytes;
        // A row for each count, and one for the autoclear bits. Those that are not filled
        // take no memory.
        let mut rows = vec![0; STEP * (self.geometry.clusters + 1)];
        let steps: Vec<Step> = match batch_repair(&self.work, backing, &mut scratch, &mut rows, 0) {
            Planned::Rows(count) => Step::of_rows(&rows[..STEP * count]).collect(),
            Planned::Refused(number) => return Ok(Outcome::Refused(number)),
            Planned::Ends => return Err(Fault::Unexpected(0)),
        };
        let total = units(&steps);
        let steps = within(steps, allowance);
        let outcome = qcow2_core::repair(&mut self.work, backing, &mut scratch, allowance);
        is_told(outcome, &steps)?;
        let changes = Change::all(&steps, true);
        bring(&mut self.disk, &self.work, &changes, |units| done(units, total))?;
        Ok(outcome)
    }

    /// Has anything been stored in memory that did not go to the file? Compares
    /// the whole image, to be asked once at the end.
    pub fn is_in_step(&self) -> io::Result<bool> {
        extents::holds(&self.disk, &self.work)
    }

    /// Makes a call in memory: how it ended, and what it changed.
    fn run(&mut self, call: &Call, allowance: u64) -> Result<(Outcome, Vec<Change>), Fault> {
        let backing = &self.backing.bytes;
        let steps = match call.steps(&self.work, backing) {
            Ok(steps) => steps,
            Err(number) => return Ok((Outcome::Refused(number), Vec::new())),
        };
        let (sure, steps) = (call.is_sure(&steps), within(steps, allowance));
        let outcome = call.run(&mut self.work, backing, allowance);
        is_told(outcome, &steps)?;
        Ok((outcome, Change::all(&steps, sure)))
    }
}
