//! Who reaches a cluster.

use std::ops::Range;

use crate::fields::{Fields, PLACE};
use crate::layout::Layout;
use crate::snapshots::{Snapshot, Table};
use crate::walk::{self, Met, Seen};

/// What a cluster is reached as. Of an L2 table and of data it counts from which
/// L1 table.
#[derive(Clone, Copy, PartialEq)]
enum Role {
    Fixed,
    Table(usize),
    Data(usize),
}

#[derive(Clone, Copy)]
enum Reached {
    Never,
    /// How it was reached last.
    As(Role),
    Shared,
}

impl Reached {
    /// A disk and its snapshots may have L2 tables and data in common.
    fn by(self, role: Role) -> Reached {
        let common = match (self, role) {
            (Reached::Never, _) => true,
            (Reached::As(Role::Table(last)), Role::Table(now)) => last != now,
            (Reached::As(Role::Data(last)), Role::Data(now)) => last != now,
            _ => false,
        };
        if common {
            Reached::As(role)
        } else {
            Reached::Shared
        }
    }
}

/// Which clusters of an accepted image are shared: reached in two roles, twice
/// as header, refcount table, block, L1 or snapshot table, or twice from one L1
/// table.
pub fn shared(layout: &Layout, image: &[u8]) -> Vec<bool> {
    let trees = layout.with_snapshots(image);
    let mut reached = vec![Reached::Never; layout.clusters];
    let mut reach = |cluster: usize, role| {
        if let Some(reached) = reached.get_mut(cluster) {
            *reached = reached.by(role);
        }
    };
    reach(0, Role::Fixed);
    let tables = trees.iter().map(Layout::l1_clusters);
    let fixed = tables.chain([layout.table_clusters(), snapshot_table(layout, image)]).flatten();
    fixed.chain(layout.blocks(image)).for_each(|cluster| reach(cluster, Role::Fixed));
    for (number, tree) in trees.iter().enumerate() {
        below(tree, image, |cluster, is_table| {
            reach(cluster, if is_table { Role::Table(number) } else { Role::Data(number) });
        });
    }
    reached.iter().map(|reached| matches!(reached, Reached::Shared)).collect()
}

/// The clusters of the snapshot table.
fn snapshot_table(layout: &Layout, image: &[u8]) -> Range<usize> {
    let Some(fields) = Fields::read(image).filter(|fields| fields.snapshots != 0) else {
        return 0..0;
    };
    let end = Table::of(image, &fields).end;
    (fields.snapshots_at >> layout.bits) as usize..(end as usize).div_ceil(layout.cluster())
}

/// Each cluster that good entries name, and whether it is named as an L2 table.
fn below(tree: &Layout, image: &[u8], mut reach: impl FnMut(usize, bool)) {
    // What is below a table that was met twice is shared: more would not tell.
    let (mut once, mut twice) = (Seen::none(tree), Seen::none(tree));
    let enters = |cluster| once.is_first(cluster) || twice.is_first(cluster);
    walk::entries(tree, image, enters, |met| {
        if let Some(cluster) = met.cluster(tree, image) {
            reach(cluster, met.l2_index.is_none());
        }
    });
}

/// The snapshots that hold a place: an L2 table, or data.
pub fn holders(layout: &Layout, image: &[u8], place: u64) -> Vec<Snapshot> {
    let Some(fields) = Fields::read(image) else { return Vec::new() };
    let names = |met: Met| met.fault.is_none() && met.entry & PLACE == place;
    let holds = |snapshot: &Snapshot| {
        let Some(tree) = layout.of_snapshot(image, snapshot) else { return false };
        let (mut seen, mut found) = (Seen::none(&tree), false);
        walk::entries(&tree, image, |cluster| seen.is_first(cluster), |met| found |= names(met));
        found
    };
    Table::of(image, &fields).snapshots.into_iter().filter(holds).collect()
}
