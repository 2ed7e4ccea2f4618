//! The stored counts in the refcount blocks, for each cluster 2^order bits.

use crate::cell::Cell;
use crate::header::{be64, Header};
use crate::width::{for_width, ForWidth, Width};

impl Header<'_> {
    /// Counts in one refcount block.
    pub fn per_block(&self) -> usize {
        1 << self.per_block_bits()
    }

    fn per_block_bits(&self) -> u32 {
        self.cluster_bits + 3 - self.order
    }

    /// The place of refcount block `index`.
    pub fn block_at(&self, image: &[u8], index: usize) -> usize {
        be64(image, self.table_at + 8 * index) as usize
    }

    /// The place of a cluster's stored count.
    pub fn cell(&self, image: &[u8], cluster: usize) -> Cell {
        let block = self.block_at(image, cluster >> self.per_block_bits());
        Cell::of(self.order, block, cluster & (self.per_block() - 1))
    }

    /// The lowest cluster from `start` on with stored count 0.
    pub fn next_free(&self, image: &[u8], start: usize) -> Option<usize> {
        for_width(self.order, NextFree { header: self, image, start })
    }
}

struct NextFree<'a> {
    header: &'a Header<'a>,
    image: &'a [u8],
    start: usize,
}

impl ForWidth for NextFree<'_> {
    type Answer = Option<usize>;

    /// Each block is looked up once.
    fn with<W: Width>(self) -> Option<usize> {
        let NextFree { header, image, start } = self;
        let per_block = header.per_block();
        let table = image[header.table_at..][..8 * header.blocks].as_chunks().0;
        let first = start >> header.per_block_bits();
        let mut base = first * per_block;
        let mut skip = start - base;
        for &entry in table.get(first..)? {
            let block = &image[u64::from_be_bytes(entry) as usize..][..header.cluster()];
            let counts = per_block.min(header.clusters - base);
            if let Some(found) = W::first_zero(block, skip, counts) {
                return Some(base + found);
            }
            (base, skip) = (base + per_block, 0);
        }
        None
    }
}
