//! Ways to make an image leak, or to damage it so that its header is still
//! accepted.

use crate::image::{Made, AUTOCLEAR, USED};
use crate::plan::{per_block, Plan};
use crate::rng::Rng;
use crate::snapshots::Snapshot;

pub type Damage = fn(&mut Made, &mut Rng);

/// Every kind; the first two only make leaks or use up room.
pub const ALL: [Damage; 20] = [
    leak,
    fill_up,
    short,
    one_less,
    wrong_mark,
    move_structure,
    free_structure,
    bad_l1,
    bad_l2,
    compress,
    random_entry,
    alias_l1,
    alias_l2,
    move_l1,
    l1_on_header,
    alias_block,
    entries_in_block,
    table_in_block,
    random_bytes,
    other_order,
];

/// Raises counts, of clusters with and without a reference, where the width
/// lets it.
pub fn leak(made: &mut Made, rng: &mut Rng) {
    for _ in 0..1 + rng.below(4) {
        let cluster = rng.index(made.clusters());
        let any = rng.number() >> rng.below(64);
        let more = rng.pick(&[1, 1, 2, 0x100, 0xFFFF, 0x1_0000, 1 << 31, 1 << 32, any, u64::MAX]);
        made.set_count(cluster, made.count(cluster).saturating_add(more).min(made.most()));
    }
}

/// Leaves none, one or two clusters with count 0.
pub fn fill_up(made: &mut Made, rng: &mut Rng) {
    let keep = rng.index(3);
    let free: Vec<usize> = (0..made.clusters()).filter(|&k| made.count(k) == 0).collect();
    for &cluster in free.iter().rev().skip(keep) {
        made.set_count(cluster, 1);
    }
}

/// Sets the count of one cluster to 0.
pub fn short(made: &mut Made, rng: &mut Rng) {
    let cluster = any_cluster(made, rng);
    made.set_count(cluster, 0);
}

/// Lowers the count of one cluster.
pub fn one_less(made: &mut Made, rng: &mut Rng) {
    let cluster = any_cluster(made, rng);
    made.set_count(cluster, made.count(cluster).saturating_sub(1));
}

/// Turns bit 63 of an entry over that was set, or of an L1 entry.
pub fn wrong_mark(made: &mut Made, rng: &mut Rng) {
    let at = match made.entries.is_empty() || rng.once_in(3) {
        true => any_l1(made, rng),
        false => Some(rng.pick(&made.entries)),
    };
    if let Some(at) = at {
        made.put64(at, made.get64(at) ^ USED);
    }
}

/// A snapshot's L1 table on top of anything that has room for it.
pub fn move_structure(made: &mut Made, rng: &mut Rng) {
    if made.snapshots.is_empty() {
        return;
    }
    let k = rng.index(made.snapshots.len());
    let place = any_cluster(made, rng) << made.cluster_bits;
    if place + 8 * made.snapshots[k].l1_size <= made.bytes.len() {
        made.put64(made.snapshots[k].entry, place as u64);
    }
}

/// Sets the counts of header, blocks, refcount table or L1 table to 0.
pub fn free_structure(made: &mut Made, rng: &mut Rng) {
    for place in structures(made) {
        if rng.once_in(2) && place < made.bytes.len() {
            made.set_count(place >> made.cluster_bits, 0);
        }
    }
}

pub fn bad_l1(made: &mut Made, rng: &mut Rng) {
    if let Some(at) = any_l1(made, rng) {
        let entry = bad_entry(made, rng, false);
        made.put64(at, entry);
    }
}

pub fn bad_l2(made: &mut Made, rng: &mut Rng) {
    if let Some(at) = any_l2(made, rng) {
        let entry = bad_entry(made, rng, true);
        made.put64(at, entry);
    }
}

/// L2 entries of compressed clusters.
pub fn compress(made: &mut Made, rng: &mut Rng) {
    for _ in 0..1 + rng.below(4) {
        if let Some(at) = any_l2(made, rng) {
            made.put64(at, made.get64(at) | 1 << 62);
        }
    }
}

/// An entry of random bits, good or bad.
pub fn random_entry(made: &mut Made, rng: &mut Rng) {
    let at = if rng.once_in(2) { any_l1(made, rng) } else { any_l2(made, rng) };
    if let Some(at) = at {
        let entry = rng.number() & rng.number() & rng.number();
        made.put64(at, entry);
    }
}

/// An L1 entry that names any cluster as its L2 table.
pub fn alias_l1(made: &mut Made, rng: &mut Rng) {
    if let Some(at) = any_l1(made, rng) {
        let place = any_cluster(made, rng) << made.cluster_bits;
        made.put64(at, if place == 0 { 0 } else { USED | place as u64 });
    }
}

/// An L2 entry that names any cluster.
pub fn alias_l2(made: &mut Made, rng: &mut Rng) {
    if let Some(at) = any_l2(made, rng) {
        let place = any_cluster(made, rng) << made.cluster_bits;
        let mark = u64::from(made.version == 3 && rng.once_in(3));
        made.put64(at, if place == 0 { mark } else { USED | place as u64 | mark });
    }
}

/// The L1 table on top of anything that has room for it.
pub fn move_l1(made: &mut Made, rng: &mut Rng) {
    let place = any_cluster(made, rng) << made.cluster_bits;
    if place + 8 * made.l1_size <= made.bytes.len() {
        made.put64(40, place as u64);
    }
}

/// The L1 table on the header, with the entry for an L2 table where the
/// autoclear bits stand.
pub fn l1_on_header(made: &mut Made, rng: &mut Rng) {
    let index = AUTOCLEAR / 8;
    let l1_size = made.l1_size.max(index + 1);
    made.size = made.size.max(Plan::reach(made.cluster_bits, index + 1));
    made.put64(24, made.size);
    made.put32(36, l1_size as u32);
    made.put64(40, 0);
    let place = match made.tables.is_empty() {
        true => any_cluster(made, rng) << made.cluster_bits,
        false => rng.pick(&made.tables).1,
    };
    if place != 0 {
        made.put64(AUTOCLEAR, USED | place as u64);
        made.tables.push((index, place));
    }
}

/// A refcount block on top of any cluster but the first.
pub fn alias_block(made: &mut Made, rng: &mut Rng) {
    let place = any_cluster(made, rng) << made.cluster_bits;
    if place != 0 {
        let index = rng.index(made.blocks.len());
        made.put64(made.table_at + 8 * index, place as u64);
    }
}

/// Good entries inside a block, which serves as L2 table too.
pub fn entries_in_block(made: &mut Made, rng: &mut Rng) {
    let Some(l1) = any_l1(made, rng) else {
        return;
    };
    let block = rng.pick(&made.blocks);
    made.put64(l1, USED | block as u64);
    for _ in 0..1 + rng.below(4) {
        let at = block + 8 * rng.index(made.per_table().min(made.clusters() / 4 + 1));
        let place = any_cluster(made, rng) << made.cluster_bits;
        made.put64(at, if place == 0 { 0 } else { USED | place as u64 });
    }
}

/// A block that is the refcount table as well: storing counts changes it.
pub fn table_in_block(made: &mut Made, rng: &mut Rng) {
    let place = rng.pick(&made.blocks);
    if 8 * made.blocks.len() > made.cluster() {
        return;
    }
    let cluster = made.cluster();
    made.bytes[place..place + cluster].fill(0);
    for (index, block) in made.blocks.clone().into_iter().enumerate() {
        made.put64(place + 8 * index, block as u64);
    }
    made.put64(48, place as u64);
    made.put32(56, 1);
}

/// Random bytes anywhere.
pub fn random_bytes(made: &mut Made, rng: &mut Rng) {
    for _ in 0..1 + rng.below(8) {
        let cluster = any_cluster(made, rng) << made.cluster_bits;
        let at = cluster + rng.index(made.cluster());
        made.bytes[at] = rng.number() as u8;
    }
}

/// The counts read in another width, where that needs as many blocks.
pub fn other_order(made: &mut Made, rng: &mut Rng) {
    let order = rng.below(7) as u32;
    let blocks = made.clusters().div_ceil(per_block(made.cluster_bits, order));
    if made.version == 3 && blocks == made.blocks.len() {
        made.order = order;
        made.put32(96, order);
    }
}

/// A bad entry: each rule broken in turn.
pub fn bad_entry(made: &Made, rng: &mut Rng, l2: bool) -> u64 {
    let n = made.bytes.len() as u64;
    let place = made.cluster() as u64 * (1 + rng.below((made.clusters() as u64 - 1).max(1)));
    let mark = rng.pick(&[0, USED]);
    let good = if place < n { mark | place } else { USED };
    let unaligned = 1 << (9 + rng.below(u64::from(made.cluster_bits - 9).max(1)));
    let low = rng.below(8);
    match rng.below(if l2 { 8 } else { 5 }) {
        0 => good | 1 << (56 + rng.below(if l2 { 6 } else { 7 })),
        1 => good | if l2 { 2 << low } else { 1 << rng.pick(&[low, 8]) },
        2 => USED,
        3 if made.cluster_bits > 9 => good | unaligned,
        3 => mark | n,
        4 => mark | rng.pick(&[n, n + made.cluster() as u64, 1 << 32, 1 << 55]),
        5 => 1 << 62 | rng.pick(&[0, good, 0x1FE, USED, u64::MAX]),
        6 if made.version == 2 => good | 1,
        6 => USED | 1,
        _ if made.version == 2 => 1,
        _ => 2 << low,
    }
}

/// Places of header, refcount table, L1 tables, blocks, L2 tables and snapshot
/// table.
fn structures(made: &Made) -> Vec<usize> {
    let mut places = vec![0, made.table_at, made.l1_at];
    places.extend(&made.blocks);
    places.extend(made.tables.iter().map(|&(_, place)| place));
    if !made.snapshots.is_empty() {
        places.push(made.snapshots_at);
    }
    for snapshot in &made.snapshots {
        places.push(snapshot.l1_at);
        places.extend(snapshot.tables.iter().map(|&(_, place)| place));
    }
    places
}

/// A cluster, most often one with a structure.
fn any_cluster(made: &Made, rng: &mut Rng) -> usize {
    let place = rng.pick(&structures(made));
    if rng.once_in(3) || place >= made.bytes.len() {
        return rng.index(made.clusters());
    }
    place >> made.cluster_bits
}

/// The place of an L1 entry, most often one with a table.
fn any_l1(made: &Made, rng: &mut Rng) -> Option<usize> {
    if !made.snapshots.is_empty() && rng.once_in(3) {
        let snapshot = &made.snapshots[rng.index(made.snapshots.len())];
        return snapshot_l1(snapshot, rng);
    }
    if made.l1_size == 0 {
        return None;
    }
    let random = rng.index(made.l1_size);
    let index = match made.tables.is_empty() || rng.once_in(2) {
        true => rng.pick(&[0, made.l1_size - 1, random]),
        false => rng.pick(&made.tables).0,
    };
    Some(made.l1_entry(index))
}

/// The same in a snapshot's L1 table.
fn snapshot_l1(snapshot: &Snapshot, rng: &mut Rng) -> Option<usize> {
    if snapshot.l1_size == 0 {
        return None;
    }
    let random = rng.index(snapshot.l1_size);
    let index = match snapshot.tables.is_empty() || rng.once_in(2) {
        true => rng.pick(&[0, snapshot.l1_size - 1, random]),
        false => rng.pick(&snapshot.tables).0,
    };
    Some(snapshot.l1_entry(index))
}

/// The place of an L2 entry, most often one that is set.
fn any_l2(made: &Made, rng: &mut Rng) -> Option<usize> {
    if made.tables.is_empty() {
        return None;
    }
    if made.entries.is_empty() || rng.once_in(2) {
        let (_, table) = rng.pick(&made.tables);
        return Some(table + 8 * rng.index(made.per_table()));
    }
    Some(rng.pick(&made.entries))
}
