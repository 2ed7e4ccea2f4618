//! A made image: its bytes, the places of its structures, and setters. Places
//! are kept here beside the bytes, so that damage can still be aimed when the
//! bytes no longer tell.

use std::ops::Range;

use crate::plan::{per_block, LONG_BITS};
use crate::rng::Rng;
use crate::snapshots::Snapshot;

pub const USED: u64 = 1 << 63;
/// The place of autoclear_features.
pub const AUTOCLEAR: usize = 88;

#[derive(Clone)]
pub struct Made {
    pub bytes: Vec<u8>,
    pub version: u32,
    pub cluster_bits: u32,
    /// A stored count has 2^order bits.
    pub order: u32,
    pub size: u64,
    pub l1_size: usize,
    pub l1_at: usize,
    pub table_at: usize,
    pub table_clusters: usize,
    /// Places of the refcount blocks.
    pub blocks: Vec<usize>,
    /// Clusters with no reference.
    pub spare: Vec<usize>,
    /// L1 index and place of each L2 table.
    pub tables: Vec<(usize, usize)>,
    /// Places of L2 entries that are not 0.
    pub entries: Vec<usize>,
    /// The place of the snapshot table, if there are snapshots.
    pub snapshots_at: usize,
    pub snapshots: Vec<Snapshot>,
    /// The bytes of a backing file that calls are lent, also where there is none.
    pub backing: Vec<u8>,
}

/// What an L2 entry is made to say.
#[derive(Clone, Copy, Debug, PartialEq, Eq)]
pub enum Kind {
    Data,
    ZerosWithPlace,
    ZerosWithoutPlace,
}

impl Made {
    pub fn cluster(&self) -> usize {
        1 << self.cluster_bits
    }

    /// Clusters of the image.
    pub fn clusters(&self) -> usize {
        self.bytes.len() >> self.cluster_bits
    }

    /// Bytes of the scratch that a check needs.
    pub fn scratch(&self) -> usize {
        2 * self.clusters()
    }

    /// Entries of an L2 table.
    pub fn per_table(&self) -> usize {
        self.cluster() / 8
    }

    /// Guest clusters that begin below the disk's end.
    pub fn guest_clusters(&self) -> u64 {
        self.size.div_ceil(self.cluster() as u64)
    }

    pub fn put16(&mut self, at: usize, value: u16) {
        self.bytes[at..at + 2].copy_from_slice(&value.to_be_bytes());
    }

    pub fn put32(&mut self, at: usize, value: u32) {
        self.bytes[at..at + 4].copy_from_slice(&value.to_be_bytes());
    }

    pub fn put64(&mut self, at: usize, value: u64) {
        self.bytes[at..at + 8].copy_from_slice(&value.to_be_bytes());
    }

    pub fn get64(&self, at: usize) -> u64 {
        u64::from_be_bytes(self.bytes[at..at + 8].try_into().unwrap())
    }

    /// Units in front of a list that is not empty: 1 where the autoclear field
    /// is to be cleared.
    pub fn clearing(&self) -> u64 {
        u64::from(self.version == 3 && self.get64(AUTOCLEAR) != 0)
    }

    /// Counts in a refcount block.
    pub fn per_block(&self) -> usize {
        per_block(self.cluster_bits, self.order)
    }

    /// The greatest count that can be stored.
    pub fn most(&self) -> u64 {
        u64::MAX >> (64 - (1 << self.order))
    }

    /// The bytes that a count is in: its own, or the one that it shares.
    pub fn count_at(&self, cluster: usize) -> Range<usize> {
        let bit = (cluster % self.per_block()) << self.order;
        let at = self.blocks[cluster / self.per_block()] + bit / 8;
        at..at + (1 << self.order.saturating_sub(3))
    }

    /// How far up in its byte a count stands; 0 from eight bits on.
    fn shift(&self, cluster: usize) -> u32 {
        (cluster << self.order) as u32 % 8
    }

    pub fn count(&self, cluster: usize) -> u64 {
        let bytes = &self.bytes[self.count_at(cluster)];
        let number = bytes.iter().fold(0, |number, &byte| number << 8 | u64::from(byte));
        number >> self.shift(cluster) & self.most()
    }

    /// Stores a count that is not above the greatest.
    pub fn set_count(&mut self, cluster: usize, value: u64) {
        assert!(value <= self.most(), "{value} in 2^{} bits", self.order);
        let (at, shift) = (self.count_at(cluster), self.shift(cluster));
        if self.order < 3 {
            let old = self.count(cluster);
            self.bytes[at.start] ^= ((old ^ value) << shift) as u8;
        } else {
            let len = at.len();
            self.bytes[at].copy_from_slice(&value.to_be_bytes()[8 - len..]);
        }
    }

    /// The place of an L1 entry.
    pub fn l1_entry(&self, index: usize) -> usize {
        self.l1_at + 8 * index
    }

    /// Takes a spare cluster, with count 1; its place.
    pub(crate) fn take(&mut self) -> Option<usize> {
        let cluster = self.spare.pop()?;
        self.set_count(cluster, 1);
        Some(cluster << self.cluster_bits)
    }

    /// Takes the lowest spare clusters that stand in a row, with count 1; the
    /// first one's place.
    pub(crate) fn take_run(&mut self, length: usize) -> Option<usize> {
        let mut sorted = self.spare.clone();
        sorted.sort_unstable();
        let first = match length {
            0 => *sorted.first()?,
            _ => sorted.windows(length).find(|run| run[length - 1] - run[0] == length - 1)?[0],
        };
        let run = first..first + length;
        self.spare.retain(|cluster| !run.contains(cluster));
        run.for_each(|cluster| self.set_count(cluster, 1));
        Some(first << self.cluster_bits)
    }

    /// Adds an L2 table of zeros below an L1 entry that has none.
    pub fn add_table(&mut self, l1_index: usize) -> Option<usize> {
        if self.tables.iter().any(|&(index, _)| index == l1_index) {
            return None;
        }
        let place = self.take()?;
        let cluster = self.cluster();
        self.bytes[place..place + cluster].fill(0);
        self.put64(self.l1_entry(l1_index), USED | place as u64);
        self.tables.push((l1_index, place));
        Some(place)
    }

    /// Sets an L2 entry that is 0; false if there is no room or it is taken.
    pub fn add_entry(&mut self, table: usize, l2_index: usize, kind: Kind, rng: &mut Rng) -> bool {
        let at = table + 8 * l2_index;
        if self.get64(at) != 0 {
            return false;
        }
        let entry = match (kind, self.version) {
            (Kind::ZerosWithoutPlace, 3) => 1,
            _ => {
                let Some(place) = self.take() else {
                    return false;
                };
                let cluster = self.cluster();
                rng.fill(&mut self.bytes[place..place + cluster]);
                let mark = u64::from(kind == Kind::ZerosWithPlace && self.version == 3);
                USED | place as u64 | mark
            }
        };
        self.put64(at, entry);
        self.entries.push(at);
        true
    }

    /// Fills L2 tables and entries at random and at the edges, also beyond the
    /// disk's end.
    pub fn populate(&mut self, rng: &mut Rng) {
        if self.l1_size == 0 {
            return;
        }
        let last = self.guest_clusters().saturating_sub(1) as usize;
        let reached = last / self.per_table();
        for _ in 0..rng.below(6) {
            let random = rng.index(self.l1_size);
            let inside = rng.index(reached + 1);
            let edges = [0, reached, inside, inside, random, self.l1_size - 1];
            self.add_table(rng.pick(&edges));
        }
        if self.tables.is_empty() {
            return;
        }
        let kinds = [Kind::Data, Kind::Data, Kind::ZerosWithPlace, Kind::ZerosWithoutPlace];
        let most = if self.cluster_bits < LONG_BITS { 40 } else { 8 };
        for _ in 0..rng.below(most) {
            let (l1_index, table) = rng.pick(&self.tables);
            let random = rng.index(self.per_table());
            let inside = match l1_index == reached {
                true => rng.index(last % self.per_table() + 1),
                false => random,
            };
            let edges = [0, 1, last % self.per_table(), self.per_table() - 1];
            let edge = rng.pick(&edges);
            let l2_index = rng.pick(&[inside, inside, inside, random, edge]);
            let kind = rng.pick(&kinds);
            self.add_entry(table, l2_index, kind, rng);
        }
    }

    /// Guest clusters with an L2 entry that was set, also beyond the disk's end.
    pub fn mapped(&self) -> Vec<u64> {
        let index = |at: usize, (l1_index, table): (usize, usize)| {
            let inside = (table..table + self.cluster()).contains(&at);
            inside.then(|| (l1_index * self.per_table() + (at - table) / 8) as u64)
        };
        let of_entry = |&at: &usize| self.tables.iter().find_map(|&table| index(at, table));
        self.entries.iter().filter_map(of_entry).collect()
    }
}
