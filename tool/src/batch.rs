//! Calls that are planned one after another in memory, and then stored together.

use qcow2_core::{Planned, Step, STEP};

use crate::bring::Change;
use crate::call::Call;

/// Rows that a batch holds: each call is looked up among them.
const ROWS: usize = 1024;
/// A batch that stores so many bytes is long enough: a bound of what one flush waits for.
const BYTES: usize = 16 << 20;

pub struct Batch {
    rows: Vec<u64>,
    held: usize,
    /// Whether each row that is held is sure.
    sure: Vec<bool>,
    /// Units of the rows that are held, and their bytes.
    pub units: u64,
    bytes: usize,
}

impl Default for Batch {
    fn default() -> Batch {
        Batch { rows: vec![0; STEP * ROWS], held: 0, sure: Vec::new(), units: 0, bytes: 0 }
    }
}

impl Batch {
    /// What one more call adds. It counts once it is held, when it was made in memory.
    pub fn plan(&mut self, call: &Call, image: &[u8], backing: &[u8]) -> Planned {
        call.plan(image, backing, &mut self.rows, self.held)
    }

    /// The steps from those that are held up to this many.
    pub fn new_steps(&self, count: usize) -> Vec<Step> {
        Step::of_rows(&self.rows[STEP * self.held..STEP * count]).collect()
    }

    pub fn hold(&mut self, call: &Call, count: usize) {
        let steps = self.new_steps(count);
        for step in &steps {
            self.units += step.units;
            self.bytes += step.len;
        }
        self.sure.resize(count, call.is_sure(&steps));
        self.held = count;
    }

    pub fn is_long(&self) -> bool {
        self.bytes >= BYTES
    }

    /// All changes, phase by phase, and none are held any more.
    pub fn take(&mut self) -> Vec<Change> {
        let steps = Step::of_rows(&self.rows[..STEP * self.held]);
        let changes = steps.zip(self.sure.drain(..)).map(|(step, sure)| Change { step, sure });
        let mut changes: Vec<Change> = changes.collect();
        changes.sort_by_key(|change| change.step.epoch);
        (self.held, self.units, self.bytes) = (0, 0, 0);
        changes
    }
}
