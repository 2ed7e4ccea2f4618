//! Who plans calls into batches: the rows that a call adds, by phase.

pub use qcow2_core::{batch_discard, batch_repair, batch_write};
