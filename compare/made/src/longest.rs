//! Images of the greatest length. All but their tables is zeros that were never
//! stored, which take no memory.

use crate::image::Made;
use crate::plan::{per_block, Plan, MAX_IMAGE, MAX_L1};

/// Only the last two clusters have the count 0, though nothing refers to most
/// of the others: a leaking image. The L1 table is the longest, and the disk
/// the longest that it reaches.
pub fn last_two_free(cluster_bits: u32, order: u32) -> Made {
    let (cluster, clusters) = (1 << cluster_bits, MAX_IMAGE >> cluster_bits);
    let blocks = clusters.div_ceil(per_block(cluster_bits, order));
    let fixed = 1 + (8 * MAX_L1).div_ceil(cluster) + blocks + (8 * blocks).div_ceil(cluster);
    let plan = Plan {
        version: 3,
        cluster_bits,
        order,
        size: Plan::reach(cluster_bits, MAX_L1),
        l1_size: MAX_L1,
        spare: clusters - fixed,
        longer_table: 0,
        autoclear: 0,
    };
    let mut made = plan.build_sparse();
    assert_eq!(made.clusters(), clusters);
    for cluster in fixed..clusters - 2 {
        made.set_count(cluster, 1);
    }
    made
}

/// One cluster more, which is too long; with no copy of the others.
pub fn lengthen(made: &mut Made) {
    let length = made.bytes.len() + made.cluster();
    made.bytes.reserve_exact(made.cluster());
    made.bytes.resize(length, 0);
}
