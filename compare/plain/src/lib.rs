//! A plain implementation of the qcow2 image core: the same calls and answers
//! as the proved one, written independently of it.
#![forbid(unsafe_code)]

mod batches;
mod cell;
mod check;
mod compare;
mod counts;
mod entries;
mod extend;
mod header;
mod list;
mod marks;
mod narrow;
mod owners;
pub mod plain_disk;
mod portions;
mod reading;
mod references;
mod snapshots;
mod state_bytes;
mod steps;
mod storing;
mod wide;
mod width;
mod words;

pub use answers::{
    CheckBytes, Found, Geometry, Outcome, Over, Planned, Portion, Run, Step, Verdict,
};
pub use batches::{batch_discard, batch_repair, batch_write};
pub use check::{check, difference, repair};
pub use extend::extend;
pub use portions::{check_portion, CheckState};
pub use reading::{lookup, read, read_snapshot, runs, translate};
pub use steps::{backing_name, discard_steps, geometry, repair_steps, write_steps};
pub use storing::{discard, write};

/// This crate as an implementation of [`answers::Calls`].
pub struct Plain;

answers::calls!(functions Plain "plain");
answers::batches!(Plain);

/// The same with no bytes of a backing file lent.
pub const ALONE: Over = Over::none(&Plain);
