//! Brings clusters that are appended to a file into the image.
//!
//! The file is made longer by zeros, and its length is flushed. Then the core takes
//! the new clusters in, in memory, and what it has stored goes to the file: the unit
//! that clears the autoclear bits, and for each new refcount block the block and its
//! table entry, with a flush after each of these. The core has no call that lists
//! them, so where they stand is known here: a block goes into the first cluster that
//! it counts.
//!
//! So a power cut leaves the first of these, and of the block at work any sectors. In
//! that state every other call is refused with 10, and the same command finishes the
//! work: that it leaves what it would have left without the cut, and every guest and
//! snapshot byte as it was, is proved (crates/qcow2_longer/specs/Longer.antt,
//! `Extending`). How long the file once was need not be known: whatever the old
//! length, what is left to do is the same if it needs as many blocks as are named
//! (`SamePlan`).

use std::io;
use std::iter::once;

use qcow2_core::{Outcome, Step, Verdict};

use crate::bring::{bring, is_told, Change, Fault};
use crate::disk::Disk;
use crate::extents;
use crate::fields::AUTOCLEAR;
use crate::layout::Layout;
use crate::steps::{units, within};

/// The old length that the core is told: what the blocks count that the refcount
/// table names from its first entry on, as far as the image goes; 0 for none.
pub fn counted(image: &[u8]) -> u64 {
    let Some(layout) = Layout::of(image) else { return 0 };
    let named = layout.table(image).take_while(|&entry| entry != 0).count();
    named.saturating_mul(layout.span()).min(image.len()) as u64
}

/// What the core stores in an image that it does not refuse to take in.
fn steps(image: &[u8]) -> Vec<Step> {
    let Some(layout) = Layout::of(image) else { return Vec::new() };
    let missing: Vec<usize> = layout.missing_blocks(image).collect();
    let clears = layout.version == 3 && image[AUTOCLEAR] != [0; 8] && !missing.is_empty();
    let clearing = Step { at: AUTOCLEAR.start, len: AUTOCLEAR.len(), units: 1, epoch: 0 };
    let new = missing.into_iter().zip((1..).step_by(2)).flat_map(|(index, epoch)| {
        let (at, len) = (layout.new_block(index).start, layout.cluster());
        let entry = layout.table_entry_at(index);
        [
            Step { at, len, units: len as u64, epoch },
            Step { at: entry, len: 8, units: 1, epoch: epoch + 1 },
        ]
    });
    once(clearing).filter(|_| clears).chain(new).collect()
}

pub struct Longer<D> {
    disk: D,
    /// The disk's bytes with zeros after them, on which the core works.
    work: Vec<u8>,
    old: u64,
    steps: Vec<Step>,
}

impl<D: Disk> Longer<D> {
    /// An image whose first bytes the disk holds, and which the core does not refuse
    /// to take in.
    pub fn new(disk: D, image: Vec<u8>) -> Longer<D> {
        let (old, steps) = (counted(&image), steps(&image));
        Longer { disk, work: image, old, steps }
    }

    pub fn image(&self) -> &[u8] {
        &self.work
    }

    pub fn into_disk(self) -> D {
        self.disk
    }

    /// Units of the whole work.
    pub fn units(&self) -> u64 {
        units(&self.steps)
    }

    /// The blocks that so many units name.
    pub fn blocks(&self, units: u64) -> usize {
        // Each is named by a step of its own, of an even epoch.
        let made = within(self.steps.clone(), units);
        made.iter().filter(|step| step.epoch > 0 && step.epoch % 2 == 0).count()
    }

    /// Takes all in, in memory alone: what a check says of that. Nothing of it stays.
    pub fn trial(&mut self, backing: &[u8]) -> Result<Verdict, Fault> {
        let range = |step: &Step| self.work[step.range()].to_vec();
        let before: Vec<Vec<u8>> = self.steps.iter().map(range).collect();
        let outcome = qcow2_core::extend(&mut self.work, self.old, u64::MAX);
        is_told(outcome, &self.steps)?;
        // Two bytes a cluster: enough for any cluster size.
        let mut scratch = vec![0; self.work.len() / 256];
        let verdict = qcow2_core::check(&self.work, backing, &mut scratch);
        for (step, bytes) in self.steps.iter().zip(before).rev() {
            self.work[step.range()].copy_from_slice(&bytes);
        }
        Ok(verdict)
    }

    /// Makes the disk as long as the image, if it is not, and flushes that.
    pub fn lengthen(&mut self) -> Result<(), Fault> {
        let length = self.work.len() as u64;
        if self.disk.length().map_err(Fault::Load)? == length {
            return Ok(());
        }
        self.disk.lengthen(length).map_err(Fault::Store)?;
        self.disk.flush().map_err(Fault::Flush)
    }

    /// Takes the clusters in, with the changes in the file, which is long enough;
    /// `done` hears of the units that are flushed.
    pub fn run(&mut self, allowance: u64, done: impl FnMut(u64)) -> Result<Outcome, Fault> {
        let steps = within(self.steps.clone(), allowance);
        let outcome = qcow2_core::extend(&mut self.work, self.old, allowance);
        is_told(outcome, &steps)?;
        // Of a run that a power cut broke off the file may have them.
        bring(&mut self.disk, &self.work, &Change::all(&steps, false), done)?;
        Ok(outcome)
    }

    /// Have memory and file the same bytes? To be asked once at the end.
    pub fn is_in_step(&self) -> io::Result<bool> {
        extents::holds(&self.disk, &self.work)
    }
}
