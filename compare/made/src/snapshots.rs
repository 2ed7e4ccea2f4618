//! Snapshots of made images: their L1 tables share L2 tables and data with the
//! active one and with each other, as copy on write leaves them.

use std::ops::Range;

use crate::image::{Made, USED};
use crate::plan::MAX_L1;
use crate::rng::Rng;

pub const MAX_SNAPSHOTS: usize = 64;
/// Bytes of an entry before its extra data.
pub const FIXED: usize = 40;

/// A snapshot of a made image.
#[derive(Clone)]
pub struct Snapshot {
    /// The place of its entry in the snapshot table.
    pub entry: usize,
    pub l1_at: usize,
    pub l1_size: usize,
    /// L1 index and place of each L2 table.
    pub tables: Vec<(usize, usize)>,
}

impl Snapshot {
    /// The place of an L1 entry.
    pub fn l1_entry(&self, index: usize) -> usize {
        self.l1_at + 8 * index
    }
}

/// Adds snapshots to an image that has none, as many of `count` as there is room
/// for; between them the active disk changes. The image stays sound.
pub fn add(made: &mut Made, count: usize, rng: &mut Rng) {
    let entries: Vec<[usize; 3]> = (0..count).map(|_| random_lengths(rng)).collect();
    let length: usize = entries.iter().map(entry_length).sum();
    let mut trees = Trees::of(made);
    let Some(place) = trees.made.take_run(length.div_ceil(trees.made.cluster())) else {
        return;
    };
    trees.made.snapshots_at = place;
    let mut at = place;
    for lengths in &entries {
        let Some(snapshot) = trees.snapshot(at, rng) else {
            break;
        };
        write_entry(trees.made, &snapshot, lengths, rng);
        trees.made.snapshots.push(snapshot);
        trees.change(rng);
        at += entry_length(lengths);
    }
    trees.settle(place..at, rng);
    made.put32(60, made.snapshots.len() as u32);
    made.put64(64, place as u64);
}

/// Lengths of extra data, id and name.
fn random_lengths(rng: &mut Rng) -> [usize; 3] {
    let some = [rng.index(40), rng.index(12), rng.index(30)];
    [rng.pick(&[0, 16, 24, some[0]]), rng.pick(&[0, 1, some[1]]), rng.pick(&[0, 5, some[2]])]
}

fn entry_length(lengths: &[usize; 3]) -> usize {
    (FIXED + lengths.iter().sum::<usize>()).next_multiple_of(8)
}

/// An entry of the snapshot table: random bytes wherever nothing looks.
fn write_entry(made: &mut Made, snapshot: &Snapshot, lengths: &[usize; 3], rng: &mut Rng) {
    let (at, [extra, id, name]) = (snapshot.entry, *lengths);
    rng.fill(&mut made.bytes[at..at + entry_length(lengths)]);
    made.put64(at, snapshot.l1_at as u64);
    made.put32(at + 8, snapshot.l1_size as u32);
    made.put16(at + 12, id as u16);
    made.put16(at + 14, name as u16);
    made.put32(at + 36, extra as u32);
}

/// The L1 tables with what is below them, and the references so far.
struct Trees<'m> {
    made: &'m mut Made,
    references: Vec<u64>,
}

impl Trees<'_> {
    /// An image without snapshots: its counts are the references.
    fn of(made: &mut Made) -> Trees<'_> {
        let references = (0..made.clusters()).map(|cluster| made.count(cluster)).collect();
        Trees { made, references }
    }

    /// How often the cluster at this place is referred to.
    fn of_place(&mut self, place: usize) -> &mut u64 {
        &mut self.references[place >> self.made.cluster_bits]
    }

    fn take(&mut self) -> Option<usize> {
        let place = self.made.take()?;
        *self.of_place(place) = 1;
        Some(place)
    }

    /// Places of the data below an L2 table.
    fn data(&self, table: usize) -> Vec<usize> {
        let entries = (0..self.made.per_table()).map(|index| self.made.get64(table + 8 * index));
        entries.map(place).filter(|&place| place != 0).collect()
    }

    /// One more L1 entry for an L2 table, where the counts' width lets it.
    fn share(&mut self, table: usize) -> bool {
        let mut places = self.data(table);
        places.push(table);
        let most = self.made.most();
        let room = places.iter().all(|&place| *self.of_place(place) < most);
        if room {
            places.iter().for_each(|&place| *self.of_place(place) += 1);
        }
        room
    }

    /// One L1 entry less.
    fn drop(&mut self, table: usize) {
        for place in self.data(table) {
            *self.of_place(place) -= 1;
        }
        *self.of_place(table) -= 1;
    }

    /// A snapshot of most of the active disk, with an L1 table of its own.
    fn snapshot(&mut self, entry: usize, rng: &mut Rng) -> Option<Snapshot> {
        let active = self.made.l1_size;
        let few = rng.index(self.made.per_table());
        let l1_size = rng.pick(&[active, active, active + 1, few, active / 2, 0]);
        let l1_size = l1_size.min(4 * self.made.per_table()).min(MAX_L1);
        let l1_clusters = (8 * l1_size).div_ceil(self.made.cluster());
        let l1_at = self.made.take_run(l1_clusters)?;
        for cluster in (l1_at >> self.made.cluster_bits..).take(l1_clusters) {
            self.references[cluster] = 1;
        }
        let mut snapshot = Snapshot { entry, l1_at, l1_size, tables: Vec::new() };
        (0..l1_size).for_each(|index| self.made.put64(snapshot.l1_entry(index), 0));
        for (index, table) in self.made.tables.clone() {
            if index >= l1_size || rng.once_in(8) {
                continue;
            }
            if !self.share(table) {
                // The active disk gives it away.
                self.made.put64(self.made.l1_entry(index), 0);
                self.made.tables.retain(|&(active, _)| active != index);
            }
            self.made.put64(snapshot.l1_entry(index), table as u64);
            snapshot.tables.push((index, table));
        }
        Some(snapshot)
    }

    /// Some L2 tables are copied and changed, as writes do it; some are dropped,
    /// and there is a new one at times.
    fn change(&mut self, rng: &mut Rng) {
        for k in (0..self.made.tables.len()).rev() {
            let (index, table) = self.made.tables[k];
            match rng.below(12) {
                0 => {
                    self.drop(table);
                    self.made.put64(self.made.l1_entry(index), 0);
                    self.made.tables.swap_remove(k);
                }
                1..=3 => self.copy(k, rng),
                _ => {}
            }
        }
        if self.made.l1_size != 0 && rng.once_in(3) {
            let (first, any) = (0, rng.index(self.made.l1_size));
            if let Some(table) = self.made.add_table(rng.pick(&[first, any])) {
                *self.of_place(table) = 1;
                self.fill(table, rng);
            }
        }
    }

    /// The active disk gets its own copy of an L2 table and of some data.
    fn copy(&mut self, k: usize, rng: &mut Rng) {
        let (index, table) = self.made.tables[k];
        let Some(copy) = self.take() else {
            return;
        };
        let cluster = self.made.cluster();
        self.made.bytes.copy_within(table..table + cluster, copy);
        *self.of_place(table) -= 1;
        self.made.put64(self.made.l1_entry(index), copy as u64);
        self.made.tables[k].1 = copy;
        self.fill(copy, rng);
    }

    /// Other entries in an L2 table of the active disk alone.
    fn fill(&mut self, table: usize, rng: &mut Rng) {
        for _ in 0..rng.below(6) {
            let (any, low) = (rng.index(self.made.per_table()), rng.index(4));
            self.replace(table + 8 * rng.pick(&[any, low]), rng);
        }
    }

    /// New data, no data or a zero mark for one of these.
    fn replace(&mut self, at: usize, rng: &mut Rng) {
        let old = place(self.made.get64(at));
        let new = match rng.below(4) {
            0 => u64::from(self.made.version == 3),
            1 => 0,
            _ => self.take().unwrap_or(0) as u64,
        };
        if old != 0 {
            *self.of_place(old) -= 1;
        }
        self.made.put64(at, new);
    }

    /// Stores the counts, and the marks: in the active tables set where there is
    /// one reference, in the others as they come.
    fn settle(mut self, snapshot_table: Range<usize>, rng: &mut Rng) {
        for place in snapshot_table.step_by(self.made.cluster()) {
            *self.of_place(place) = 1;
        }
        for snapshot in self.made.snapshots.clone() {
            for (index, table) in snapshot.tables {
                self.marks(snapshot.l1_at + 8 * index, table, |_| rng.once_in(2));
            }
        }
        let references = self.references.clone();
        let bits = self.made.cluster_bits;
        for (index, table) in self.made.tables.clone() {
            self.marks(self.made.l1_entry(index), table, |place| references[place >> bits] == 1);
        }
        for (cluster, &count) in references.iter().enumerate() {
            self.made.set_count(cluster, count);
            if count == 0 && !self.made.spare.contains(&cluster) {
                self.made.spare.push(cluster);
            }
        }
        self.made.entries = self.entries();
    }

    /// Sets or clears bit 63 of an L1 entry and of the entries below it.
    fn marks(&mut self, l1_entry: usize, table: usize, mut set: impl FnMut(usize) -> bool) {
        let below = (table..table + self.made.cluster()).step_by(8);
        for at in std::iter::once(l1_entry).chain(below) {
            let entry = self.made.get64(at) & !USED;
            if place(entry) != 0 {
                self.made.put64(at, if set(place(entry)) { entry | USED } else { entry });
            }
        }
    }

    /// Places of all L2 entries that are not 0.
    fn entries(&self) -> Vec<usize> {
        let snapshots = self.made.snapshots.iter().flat_map(|snapshot| &snapshot.tables);
        let mut tables: Vec<usize> =
            self.made.tables.iter().chain(snapshots).map(|&(_, table)| table).collect();
        tables.sort_unstable();
        tables.dedup();
        let within = |table| (table..table + self.made.cluster()).step_by(8);
        tables.into_iter().flat_map(within).filter(|&at| self.made.get64(at) != 0).collect()
    }
}

/// Bits 9 to 55 of an entry.
fn place(entry: u64) -> usize {
    (entry & 0x00FF_FFFF_FFFF_FE00) as usize
}

/// Adds snapshots of all that the active disk has, with entries as short as they
/// can be. Nothing has only one owner then.
pub fn keep_all(made: &mut Made, count: usize) {
    let room = reserve(made, count);
    keep(made, room);
}

/// Room for snapshots: the places of their table and of their L1 tables.
pub struct Room {
    table: usize,
    l1: Vec<usize>,
}

pub fn reserve(made: &mut Made, count: usize) -> Room {
    let l1_clusters = (8 * made.l1_size).div_ceil(made.cluster());
    let table = made.take_run((FIXED * count).div_ceil(made.cluster())).expect("room");
    let l1 = (0..count).map(|_| made.take_run(l1_clusters).expect("room")).collect();
    Room { table, l1 }
}

/// The same as [`keep_all`], in the room that was reserved for it.
pub fn keep(made: &mut Made, room: Room) {
    let (table, count) = (room.table, room.l1.len());
    made.bytes[table..table + FIXED * count].fill(0);
    let entries = active_entries(made);
    for &at in &entries {
        let place = place(made.get64(at));
        made.set_count(place >> made.cluster_bits, 1 + count as u64);
        made.put64(at, made.get64(at) & !USED);
    }
    for (k, l1_at) in room.l1.into_iter().enumerate() {
        let entry = table + FIXED * k;
        made.bytes.copy_within(made.l1_at..made.l1_at + 8 * made.l1_size, l1_at);
        made.put64(entry, l1_at as u64);
        made.put32(entry + 8, made.l1_size as u32);
        let (l1_size, tables) = (made.l1_size, made.tables.clone());
        made.snapshots.push(Snapshot { entry, l1_at, l1_size, tables });
    }
    made.snapshots_at = table;
    made.put32(60, count as u32);
    made.put64(64, table as u64);
}

/// Where the active entries stand that name a cluster.
fn active_entries(made: &Made) -> Vec<usize> {
    let l1 = made.tables.iter().map(|&(index, _)| made.l1_entry(index));
    let l2 = made.entries.iter().copied();
    l1.chain(l2).filter(|&at| place(made.get64(at)) != 0).collect()
}

/// The active disk gets its own copy of each L2 table whose turn it is, and in it
/// of every second data cluster, all with the mark.
pub fn copy_some(made: &mut Made, step: usize) {
    let (bits, cluster) = (made.cluster_bits, made.cluster());
    let less = |made: &mut Made, place: usize| {
        made.set_count(place >> bits, made.count(place >> bits) - 1);
    };
    for k in (0..made.tables.len()).step_by(step) {
        let (index, table) = made.tables[k];
        let copy = made.take().expect("room");
        made.bytes.copy_within(table..table + cluster, copy);
        less(made, table);
        made.put64(made.l1_entry(index), USED | copy as u64);
        made.tables[k].1 = copy;
        for at in (copy..copy + cluster).step_by(16) {
            let old = place(made.get64(at));
            if old != 0 {
                let new = made.take().expect("room");
                less(made, old);
                made.put64(at, USED | new as u64);
            }
        }
    }
}
