//! Where things stand in an image that the core has accepted. Entries may
//! still be bad: what they name is looked up with care.

use std::ops::Range;

use crate::fields::{be64, Fields, MAX_L1, PLACE};
use crate::snapshots::{Snapshot, Table};
use crate::width::Width;

/// With one of the L1 tables: the active one, or that of a snapshot.
#[derive(Clone, Copy)]
pub struct Layout {
    pub version: u32,
    pub bits: u32,
    /// Of the stored counts.
    pub width: Width,
    /// The number of the snapshot whose L1 table this is.
    pub snapshot: Option<u64>,
    /// The disk's size; of a snapshot what its L1 table reaches.
    pub size: u64,
    pub l1_size: usize,
    l1_at: usize,
    table_at: usize,
    table_clusters: usize,
    /// Clusters of the image.
    pub clusters: usize,
}

impl Layout {
    /// None only for bytes that the core would have refused.
    pub fn of(image: &[u8]) -> Option<Layout> {
        let fields = Fields::read(image)?;
        let cluster = fields.cluster()?;
        Some(Layout {
            version: fields.version,
            bits: fields.cluster_bits,
            width: fields.width()?,
            snapshot: None,
            size: fields.size,
            l1_size: fields.l1_size as usize,
            l1_at: usize::try_from(fields.l1_at).ok()?,
            table_at: usize::try_from(fields.table_at).ok()?,
            table_clusters: fields.table_clusters as usize,
            clusters: image.len() / cluster as usize,
        })
    }

    /// The same with the L1 table of a snapshot, if that is accepted.
    pub fn of_snapshot(&self, image: &[u8], snapshot: &Snapshot) -> Option<Layout> {
        let l1_at = usize::try_from(snapshot.l1_at).ok()?;
        let l1_size = snapshot.l1_size as usize;
        let inside = l1_at.checked_add(8 * l1_size).is_some_and(|end| end <= image.len());
        let good = inside && l1_size <= MAX_L1 as usize && l1_at.is_multiple_of(self.cluster());
        let (number, size) = (Some(snapshot.number), snapshot.reach);
        good.then_some(Layout { snapshot: number, size, l1_size, l1_at, ..*self })
    }

    /// This one, and then one for each snapshot.
    pub fn with_snapshots(&self, image: &[u8]) -> Vec<Layout> {
        let table = Fields::read(image).map(|fields| Table::of(image, &fields));
        let snapshots = table.unwrap_or_default().snapshots;
        let others = snapshots.iter().filter_map(|snapshot| self.of_snapshot(image, snapshot));
        [*self].into_iter().chain(others).collect()
    }

    pub fn cluster(&self) -> usize {
        1 << self.bits
    }

    /// Bytes of the scratch that a check needs.
    pub fn scratch(&self) -> usize {
        2 * self.clusters
    }

    /// Guest clusters that begin below the disk's end.
    pub fn guest_clusters(&self) -> u64 {
        self.size.div_ceil(1 << self.bits)
    }

    /// Guest clusters below one L1 entry.
    pub fn per_table(&self) -> u64 {
        1 << (self.bits - 3)
    }

    pub fn l1_entry_at(&self, l1_index: u64) -> usize {
        self.l1_at.saturating_add(8 * l1_index as usize)
    }

    /// The clusters of the L1 table.
    pub fn l1_clusters(&self) -> Range<usize> {
        let first = self.l1_at >> self.bits;
        first..first + (8 * self.l1_size).div_ceil(self.cluster())
    }

    /// The clusters of the refcount table.
    pub fn table_clusters(&self) -> Range<usize> {
        let first = self.table_at >> self.bits;
        first..first + self.table_clusters
    }

    /// The place of an entry of the refcount table.
    pub fn table_entry_at(&self, index: usize) -> usize {
        self.table_at.saturating_add(8 * index)
    }

    /// Entries of the refcount table.
    pub fn table_entries(&self) -> usize {
        self.table_clusters * (self.cluster() / 8)
    }

    /// The entries of the refcount table, as far as the image has them.
    pub fn table<'a>(&'a self, image: &'a [u8]) -> impl Iterator<Item = u64> + 'a {
        let entries = 0..self.table_entries();
        entries.map_while(|index| be64(image, self.table_entry_at(index)))
    }

    /// The refcount blocks that the image needs and that its table does not name.
    pub fn missing_blocks<'a>(&'a self, image: &'a [u8]) -> impl Iterator<Item = usize> + 'a {
        let entries = self.table(image).take(image.len().div_ceil(self.span()));
        entries.enumerate().filter(|&(_, entry)| entry == 0).map(|(index, _)| index)
    }

    /// Where a new refcount block goes: into the first cluster that it counts.
    pub fn new_block(&self, index: usize) -> Range<usize> {
        let at = index * self.span();
        at..at + self.cluster()
    }

    /// The clusters of the refcount blocks.
    pub fn blocks<'a>(&'a self, image: &'a [u8]) -> impl Iterator<Item = usize> + 'a {
        let firsts = (0..self.clusters).step_by(self.per_block());
        firsts.filter_map(|first| Some(self.block_of(image, first)?.0 >> self.bits))
    }

    /// The place of the L2 entry of a guest cluster, if its L1 entry names a
    /// table.
    pub fn l2_entry_at(&self, image: &[u8], guest: u64) -> Option<usize> {
        let l1_entry = be64(image, self.l1_entry_at(guest / self.per_table()))?;
        let table = (l1_entry & PLACE) as usize;
        (table != 0).then_some(table + 8 * (guest % self.per_table()) as usize)
    }

    /// The cluster that an L1 or L2 entry names, as a range inside the image.
    pub fn named(&self, image: &[u8], entry: u64) -> Option<Range<usize>> {
        let at = (entry & PLACE) as usize;
        (at != 0 && at + self.cluster() <= image.len()).then(|| at..at + self.cluster())
    }

    /// Counts in a refcount block.
    pub fn per_block(&self) -> usize {
        self.width.counts_in(self.cluster())
    }

    /// Bytes of the clusters that one refcount block counts.
    pub fn span(&self) -> usize {
        self.per_block() << self.bits
    }

    /// The place of the refcount block with a cluster's count, and the count's
    /// index in it.
    fn block_of(&self, image: &[u8], cluster: usize) -> Option<(usize, usize)> {
        let per_block = self.per_block();
        let block = be64(image, self.table_at + 8 * (cluster / per_block))?;
        Some((block as usize, cluster % per_block))
    }

    pub fn count(&self, image: &[u8], cluster: usize) -> Option<u64> {
        let (block, index) = self.block_of(image, cluster)?;
        self.width.count(image.get(block..)?, index)
    }

    /// Clusters with stored count 0.
    pub fn free(&self, image: &[u8]) -> usize {
        (0..self.clusters).filter(|&cluster| self.count(image, cluster) == Some(0)).count()
    }

    /// Clusters that the refcount blocks have counts for.
    pub fn covered(&self) -> usize {
        self.clusters.next_multiple_of(self.per_block())
    }
}
