//! Images that were made longer: an earlier one with clusters appended, whose
//! blocks the refcount table does not name yet.

use std::ops::Range;

use crate::drive::usable_over;
use crate::image::{Made, AUTOCLEAR};
use crate::plan::{per_block, Plan};
use crate::rng::Rng;

/// An image that had `old` bytes before clusters were appended.
#[derive(Clone)]
pub struct Longer {
    pub made: Made,
    pub old: usize,
}

/// What most images have at most appended.
const LONG: usize = 1 << 20;

/// A plan whose blocks span few bytes, with each width of counts.
pub fn plan(rng: &mut Rng) -> Plan {
    let few = [(9, 6), (9, 6), (9, 5), (9, 5), (9, 4), (9, 3), (10, 6), (10, 5), (11, 6)];
    let many = [(9, 2), (9, 1), (9, 0), (10, 4), (10, 3), (12, 6), (12, 4), (16, 5)];
    let (cluster_bits, order) = if rng.once_in(4) { rng.pick(&many) } else { rng.pick(&few) };
    let plan = Plan::random_with(cluster_bits, rng);
    match plan.version {
        2 => plan,
        _ => Plan { order, ..plan },
    }
}

/// Longer than a sound or leaking image, at times with snapshots or over a backing
/// file.
pub fn usable(rng: &mut Rng) -> Longer {
    let plan = plan(rng);
    lengthened(usable_over(plan, rng), rng)
}

/// Appends clusters to an image: none, some that the last block counts already, up
/// to its end, or more.
pub fn lengthened(made: Made, rng: &mut Rng) -> Longer {
    let (cluster, per_block) = (made.cluster(), made.per_block());
    let room = (made.blocks.len() * per_block).saturating_sub(made.clusters());
    let all = (made.table_clusters * cluster / 8 * per_block).saturating_sub(made.clusters());
    let (within, one) = (rng.index(room + 1), 1 + rng.index(per_block));
    let many = 1 + rng.index(8 * per_block);
    let most = (2 * per_block * cluster).clamp(LONG, 4 * LONG) / cluster;
    let more = match rng.below(10) {
        0 => 0,
        1 => within,
        2 => room,
        3 => room + 1,
        4..=6 => room + one,
        7 if all <= 4 * most => return appended(made, all + rng.index(2), rng),
        _ => room + many,
    };
    appended(made, more.min(most), rng)
}

/// So many clusters more: zeros, random bytes, or both.
pub fn appended(mut made: Made, clusters: usize, rng: &mut Rng) -> Longer {
    let old = made.bytes.len();
    made.bytes.resize(old + (clusters << made.cluster_bits), 0);
    let noise = rng.below(3);
    let cluster = made.cluster();
    for part in made.bytes[old..].chunks_mut(cluster) {
        if noise == 0 || noise == 1 && rng.once_in(2) {
            rng.fill(part);
        }
    }
    Longer { made, old }
}

/// An image of a few clusters, with a refcount table for this length.
pub fn empty(cluster_bits: u32, order: u32, length: usize) -> Made {
    let span = per_block(cluster_bits, order) << cluster_bits;
    let plan = Plan {
        version: 3,
        cluster_bits,
        order,
        size: 0,
        l1_size: 1,
        spare: 8,
        longer_table: (8 * length.div_ceil(span)) >> cluster_bits,
        autoclear: 0,
    };
    plan.build_sparse()
}

/// So long by zeros that were never stored, and take no memory.
pub fn with_zeros(mut made: Made, length: usize) -> Longer {
    let old = made.bytes.len();
    let mut bytes = vec![0; length];
    bytes[..old].copy_from_slice(&made.bytes);
    made.bytes = bytes;
    Longer { made, old }
}

impl Longer {
    /// Bytes whose clusters one block counts.
    pub fn span(&self) -> usize {
        self.made.per_block() << self.made.cluster_bits
    }

    /// The blocks that are new.
    pub fn new_blocks(&self) -> Range<usize> {
        self.old.div_ceil(self.span())..self.made.bytes.len().div_ceil(self.span())
    }

    /// Where a new block goes.
    pub fn place(&self, index: usize) -> usize {
        index * self.span()
    }

    /// The place of a refcount table's entry.
    pub fn entry_at(&self, index: usize) -> usize {
        self.made.table_at + 8 * index
    }

    /// What taking all in leaves, where no new block is named yet and none lies on
    /// anything.
    pub fn taken_in(&self) -> Vec<u8> {
        let mut after = self.made.clone();
        let cluster = self.made.cluster();
        for index in self.new_blocks() {
            let (place, first) = (self.place(index), index * self.made.per_block());
            after.blocks.push(place);
            after.bytes[place..place + cluster].fill(0);
            after.set_count(first, 1);
            after.put64(self.entry_at(index), place as u64);
        }
        if self.made.version == 3 && !self.new_blocks().is_empty() {
            after.put64(AUTOCLEAR, 0);
        }
        after.bytes
    }

    /// Appends clusters once more to what was taken in.
    pub fn longer_still(&self, image: Vec<u8>, rng: &mut Rng) -> Longer {
        let mut made = Made { bytes: image, ..self.made.clone() };
        made.blocks.extend(self.new_blocks().map(|index| self.place(index)));
        lengthened(made, rng)
    }

    /// An old length for a call: the true one, the ends of blocks and clusters, and
    /// all edges.
    pub fn old_length(&self, rng: &mut Rng) -> u64 {
        let (n, cluster) = (self.made.bytes.len() as u64, self.made.cluster() as u64);
        let (old, span) = (self.old as u64, self.span() as u64);
        let block = span * rng.below(n / span + 2);
        let inside = cluster * rng.below(n / cluster + 2);
        let base = rng.pick(&[0, 512, cluster, old, n, block, inside]);
        match rng.below(16) {
            0..=7 => old,
            8 => block,
            9 => inside,
            10 => rng.pick(&[0, 1, 511, 512, 513, 1 << 32, 1 << 63, u64::MAX]),
            11 => u64::MAX - rng.below(2 * cluster),
            12 => base.wrapping_sub(cluster),
            13 => base.wrapping_add(cluster),
            14 => base + 1 + rng.below(cluster),
            _ => self.alike(rng),
        }
    }

    /// An old length that needs as many blocks as the true one.
    pub fn alike(&self, rng: &mut Rng) -> u64 {
        self.needing(self.new_blocks().start, rng)
    }

    /// The same of as many blocks as the table of this image names from its start on.
    pub fn alike_named(&self, image: &[u8], rng: &mut Rng) -> u64 {
        let table = &image[self.made.table_at..][..8 * self.new_blocks().end];
        let named = table.as_chunks::<8>().0.iter().position(|&entry| entry == [0; 8]);
        self.needing(named.unwrap_or(self.new_blocks().end), rng)
    }

    /// A length in the image that needs so many blocks, if it has one: the least, the
    /// greatest or any.
    fn needing(&self, blocks: usize, rng: &mut Rng) -> u64 {
        let most = (blocks * self.span()).min(self.made.bytes.len()) >> self.made.cluster_bits;
        let least = blocks.saturating_sub(1) * self.made.per_block() + 1;
        let any = least + rng.index(most.saturating_sub(least) + 1);
        (rng.pick(&[least, any, most]) as u64) << self.made.cluster_bits
    }
}
