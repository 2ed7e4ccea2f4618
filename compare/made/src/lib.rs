//! Made and real images, damage, requests, and the drivers that feed them to
//! one implementation or to two.
#![forbid(unsafe_code)]

pub mod backing;
pub mod backing_drive;
pub mod backing_edges;
pub mod batch_rows;
pub mod batches;
pub mod bench_suite;
pub mod breaks;
pub mod clearing;
pub mod damage;
pub mod drive;
pub mod edges;
pub mod extend_drive;
pub mod fault;
pub mod full;
pub mod guard;
pub mod hostile;
pub mod image;
pub mod longer;
pub mod longer_damage;
pub mod longest;
pub mod pair;
pub mod plan;
mod portion_cases;
pub mod portion_drive;
pub mod portion_suite;
pub mod portions;
pub mod qemu;
pub mod qemu_suite;
pub mod real;
pub mod real_suite;
pub mod report;
pub mod requests;
pub mod rng;
pub mod snapshot_drive;
pub mod snapshot_edges;
pub mod snapshots;
pub mod steps;
pub mod widths;
pub mod windows;
