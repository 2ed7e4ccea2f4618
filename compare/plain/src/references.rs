//! The counting of references, from every L1 table.

use answers::Verdict;

use crate::entries::{Rules, USED};
use crate::header::{be64, zero, Disk, Header};
use crate::owners::{Owner, Owners};
use crate::width::Figure;

pub(crate) struct Count<'a, O> {
    header: &'a Header<'a>,
    image: &'a [u8],
    figures: &'a mut [Figure],
    pub owners: O,
    /// The first bad entry.
    pub bad: Option<Verdict>,
    /// Has an entry with a place bit 63 clear?
    pub unmarked: bool,
}

impl<'a, O: Owners> Count<'a, O> {
    /// Adds to the figures.
    pub fn new(
        header: &'a Header<'a>,
        image: &'a [u8],
        figures: &'a mut [Figure],
        owners: O,
    ) -> Count<'a, O> {
        Count { header, image, figures, owners, bad: None, unmarked: false }
    }

    pub fn all(&mut self) {
        self.fixed_structures();
        let header = self.header;
        header.disks().enumerate().for_each(|(number, disk)| self.tables(number, disk));
    }

    fn refer(&mut self, place: usize, owner: Owner) {
        let cluster = place >> self.header.cluster_bits;
        let before = refer(&mut self.figures[cluster]);
        self.owners.note(cluster, before, owner);
    }

    /// Each cluster of a structure.
    fn structure(&mut self, at: usize, len: usize) {
        for place in (at..at + len).step_by(self.header.cluster()) {
            self.refer(place, Owner::Fixed);
        }
    }

    /// Header cluster, refcount table and blocks, L1 tables, snapshot table.
    pub fn fixed_structures(&mut self) {
        let header = self.header;
        self.refer(0, Owner::Fixed);
        self.structure(header.table_at, header.table_clusters << header.cluster_bits);
        for index in 0..header.blocks {
            self.refer(header.block_at(self.image, index), Owner::Fixed);
        }
        self.structure(header.disk.l1_at, 8 * header.disk.l1_size);
        for disk in &header.snapshots.disks {
            self.structure(disk.l1_at, 8 * disk.l1_size);
        }
        self.structure(header.snapshots.table.start, header.snapshots.table.len());
    }

    fn tables(&mut self, number: usize, disk: Disk) {
        let rules = Rules::of(self.header);
        for l1_index in 0..disk.l1_size {
            self.entry(&rules, number, disk, l1_index);
        }
    }

    /// An L1 entry and the L2 entries below it. Disk 0 is the active one, the next is
    /// that of snapshot 0.
    #[inline]
    pub fn entry(&mut self, rules: &Rules, number: usize, disk: Disk, l1_index: usize) {
        let entry = be64(self.image, disk.l1_at + 8 * l1_index);
        match rules.l1(entry) {
            Some(0) => {}
            Some(table) => {
                self.unmarked |= entry & USED == 0;
                self.refer(table, Owner::Table { disk: number });
                self.table(rules, (number, l1_index), table);
            }
            None => _ = self.bad.get_or_insert(bad_l1(number, l1_index)),
        }
    }

    /// The entries of an L2 table, 64 at a time; most groups of zeros need no
    /// more than a look. One compare tells a good entry with a place: the
    /// index of its cluster's figure is in bounds.
    fn table(&mut self, rules: &Rules, (number, l1_index): (usize, usize), table: usize) {
        let others = &mut self.figures[1..];
        let mut marked = USED;
        let groups = self.image[table..][..self.header.cluster()].as_chunks::<512>().0;
        for (index, group) in groups.iter().enumerate() {
            if zero(group) {
                continue;
            }
            for (l2_index, entry) in group.as_chunks().0.iter().enumerate() {
                let entry = rules.unmarked(u64::from_be_bytes(*entry));
                let other = rules.other(entry);
                if let Some(figure) = others.get_mut(other) {
                    let before = refer(figure);
                    self.owners.note(other + 1, before, Owner::Data { disk: number });
                    marked &= entry;
                } else if entry != 0 {
                    let l2_index = 64 * index + l2_index;
                    self.bad.get_or_insert(bad_l2(number, l1_index, l2_index));
                }
            }
        }
        self.unmarked |= marked == 0;
    }
}

/// One reference more, up to the greatest figure; the figure before.
#[inline]
fn refer(figure: &mut Figure) -> u16 {
    let before = u16::from_be_bytes(*figure);
    *figure = before.saturating_add(1).to_be_bytes();
    before
}

fn bad_l1(disk: usize, l1_index: usize) -> Verdict {
    let l1 = l1_index as u64;
    match disk.checked_sub(1) {
        None => Verdict::BadL1(l1),
        Some(snapshot) => Verdict::SnapshotBadL1(l1, snapshot as u64),
    }
}

fn bad_l2(disk: usize, l1_index: usize, l2_index: usize) -> Verdict {
    let (l1, l2) = (l1_index as u64, l2_index as u64);
    match disk.checked_sub(1) {
        None => Verdict::BadL2(l1, l2),
        Some(snapshot) => Verdict::SnapshotBadL2(l1, l2, snapshot as u64),
    }
}
