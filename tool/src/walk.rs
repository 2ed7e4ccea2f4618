//! The entries of an L1 table and of the L2 tables below it.

use crate::fields::be64;
use crate::findings::{l1_fault, l2_fault, Fault};
use crate::layout::Layout;

/// An entry that is not 0.
#[derive(Clone, Copy, Debug, PartialEq)]
pub struct Met {
    /// The number of the snapshot whose L1 table leads to it.
    pub snapshot: Option<u64>,
    pub l1_index: u64,
    /// None for an L1 entry.
    pub l2_index: Option<u64>,
    pub entry: u64,
    pub fault: Option<Fault>,
}

impl Met {
    /// The cluster that a good entry names, if it has a place.
    pub fn cluster(&self, layout: &Layout, image: &[u8]) -> Option<usize> {
        let named = self.fault.is_none().then(|| layout.named(image, self.entry)).flatten()?;
        Some(named.start >> layout.bits)
    }
}

/// Gives every entry that is not 0, L1 entry by L1 entry, each before those of
/// its L2 table. `enters` says whether the L2 table in a cluster is looked into.
/// The image may be refused.
pub fn entries(
    layout: &Layout,
    image: &[u8],
    mut enters: impl FnMut(usize) -> bool,
    mut meet: impl FnMut(Met),
) {
    let snapshot = layout.snapshot;
    for l1_index in 0..layout.l1_size as u64 {
        let Some(entry) = be64(image, layout.l1_entry_at(l1_index)) else { break };
        if entry == 0 {
            continue;
        }
        let fault = l1_fault(layout, image, entry);
        meet(Met { snapshot, l1_index, l2_index: None, entry, fault });
        let table = fault.is_none().then(|| layout.named(image, entry)).flatten();
        let Some(table) = table.filter(|table| enters(table.start >> layout.bits)) else {
            continue;
        };
        for (l2_index, entry) in (0..).zip(image[table].as_chunks().0) {
            let entry = u64::from_be_bytes(*entry);
            if entry != 0 {
                let fault = l2_fault(layout, image, entry);
                meet(Met { snapshot, l1_index, l2_index: Some(l2_index), entry, fault });
            }
        }
    }
}

/// Clusters that were looked into.
pub struct Seen {
    clusters: Vec<bool>,
}

impl Seen {
    pub fn none(layout: &Layout) -> Seen {
        Seen { clusters: vec![false; layout.clusters] }
    }

    /// Is it the first time for this one?
    pub fn is_first(&mut self, cluster: usize) -> bool {
        let seen = self.clusters.get_mut(cluster);
        seen.is_none_or(|seen| !std::mem::replace(seen, true))
    }
}
