//! Images made to cost time: every entry of every L1 table names one L2 table.

use crate::image::{Made, USED};
use crate::plan::{Plan, ORDER_16};
use crate::rng::Rng;
use crate::snapshots::{Snapshot, FIXED};

/// L1 tables of `l1_size` entries, those of the snapshots on top of the active
/// one; the L2 table names itself, the L1 table and a spare cluster in turn.
pub fn one_table(cluster_bits: u32, l1_size: usize, snapshots: usize) -> Made {
    let table_clusters = (FIXED * snapshots).div_ceil(1 << cluster_bits);
    let plan = Plan {
        version: 3,
        cluster_bits,
        order: ORDER_16,
        size: Plan::reach(cluster_bits, l1_size),
        l1_size,
        spare: table_clusters + 2,
        longer_table: 0,
        autoclear: 0,
    };
    let mut made = plan.build_in_order(&mut Rng::new(5));
    let (at, last) = (made.take_run(table_clusters).expect("room"), made.clusters() - 1);
    let table = made.add_table(0).expect("room");
    for index in 0..l1_size {
        made.put64(made.l1_entry(index), USED | table as u64);
    }
    for index in 0..made.per_table() {
        let place = [table, made.l1_at, last << cluster_bits][index % 3];
        made.put64(table + 8 * index, USED | place as u64);
    }
    made.bytes[at..at + FIXED * snapshots].fill(0);
    for entry in (at..).step_by(FIXED).take(snapshots) {
        made.put64(entry, made.l1_at as u64);
        made.put32(entry + 8, l1_size as u32);
        made.snapshots.push(Snapshot { entry, l1_at: made.l1_at, l1_size, tables: Vec::new() });
    }
    made.snapshots_at = at;
    made.put32(60, snapshots as u32);
    made.put64(64, at as u64);
    made
}
