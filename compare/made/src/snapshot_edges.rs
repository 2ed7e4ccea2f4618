//! Snapshot tables at the very edges of their rules, with the number that a call
//! refuses them with, 0 where they are accepted.

use crate::image::Made;
use crate::plan::{Plan, MAX_L1, ORDER_16, SECTOR};
use crate::rng::Rng;
use crate::snapshots::{FIXED, MAX_SNAPSHOTS};

pub fn each(mut visit: impl FnMut(&[u8], u32)) {
    let (rng, visit) = (&mut Rng::new(72), &mut visit);
    for cluster_bits in [9, 12, 16, 21] {
        places(cluster_bits, rng, visit);
        lengths(cluster_bits, rng, visit);
        l1_places(cluster_bits, rng, visit);
    }
    l1_sizes(rng, visit);
    counts(rng, visit);
}

/// An image whose last clusters are zeros, with room for a snapshot table.
fn image(cluster_bits: u32, l1_size: usize, spare: usize, rng: &mut Rng) -> Made {
    let plan = Plan {
        version: 3,
        cluster_bits,
        order: ORDER_16,
        size: SECTOR,
        l1_size,
        spare,
        longer_table: 0,
        autoclear: 0,
    };
    let mut made = plan.build_in_order(rng);
    let at = made.bytes.len() - spare * made.cluster();
    made.bytes[at..].fill(0);
    made
}

/// One snapshot with an empty L1 table, its entry in the last cluster.
fn one(cluster_bits: u32, rng: &mut Rng) -> (Made, usize) {
    let mut made = image(cluster_bits, 1, 2, rng);
    let at = made.bytes.len() - made.cluster();
    made.put32(60, 1);
    made.put64(64, at as u64);
    (made, at)
}

fn changed(made: &Made, change: impl Fn(&mut Made)) -> Vec<u8> {
    let mut made = made.clone();
    change(&mut made);
    made.bytes
}

/// Where the table starts.
fn places(cluster_bits: u32, rng: &mut Rng, visit: &mut impl FnMut(&[u8], u32)) {
    let (made, at) = one(cluster_bits, rng);
    let (n, cluster, at) = (made.bytes.len() as u64, made.cluster() as u64, at as u64);
    for (place, number) in [
        (at, 0),
        (at - cluster, 0),
        (at + 8, 21),
        (at - 1, 21),
        (at ^ (cluster / 2), 21),
        (n, 21),
        (n + cluster, 21),
        // The header is no entry: its magic is no place of an L1 table.
        (0, 21),
        (at | 1 << 40, 21),
        (1 << 63, 21),
        (cluster.wrapping_neg(), 21),
        (u64::MAX, 21),
    ] {
        visit(&changed(&made, |made| made.put64(64, place)), number);
        // No snapshot: the place is not looked at.
        let none = changed(&made, |made| {
            made.put64(64, place);
            made.put32(60, 0);
        });
        visit(&none, 0);
    }
}

/// Where an entry ends: it may end where the image ends.
fn lengths(cluster_bits: u32, rng: &mut Rng, visit: &mut impl FnMut(&[u8], u32)) {
    let (made, at) = one(cluster_bits, rng);
    let room = (made.cluster() - FIXED) as u32;
    let strings = room.min(130_000);
    for (extra, id, name, number) in [
        (room, 0, 0, 0),
        (room + 1, 0, 0, 21),
        (room - 7, 0, 0, 0),
        (room - 7, 7, 0, 0),
        (room - 7, 7, 1, 21),
        (room - 8, 8, 1, 21),
        (room - strings, strings / 2, strings - strings / 2, 0),
        (room - strings, strings / 2 + 1, strings - strings / 2, 21),
        (room - strings + 1, strings / 2, strings - strings / 2, 21),
        (u32::MAX, 0, 0, 21),
        (u32::MAX, 65_535, 65_535, 21),
        // Sums that would wrap in 32 bits.
        (u32::MAX - 39, 0, 0, 21),
        (u32::MAX - 65_535 - 39, 65_535, 1, 21),
        (1 << 31, 0, 0, 21),
    ] {
        let image = changed(&made, |made| {
            made.put32(at + 36, extra);
            made.put16(at + 12, id as u16);
            made.put16(at + 14, name as u16);
        });
        visit(&image, number);
    }
    if made.cluster() < 131_072 {
        let long = |at: usize| changed(&made, |made| made.put16(at, u16::MAX));
        visit(&long(at + 12), 21);
        visit(&long(at + 14), 21);
    }
}

/// Where the snapshot's L1 table starts and ends.
fn l1_places(cluster_bits: u32, rng: &mut Rng, visit: &mut impl FnMut(&[u8], u32)) {
    let (made, at) = one(cluster_bits, rng);
    let (n, cluster) = (made.bytes.len() as u64, made.cluster() as u64);
    let full = ((cluster / 8) as u32).min(MAX_L1 as u32);
    for (l1_size, place, number) in [
        (0, n, 0),
        (0, n + cluster, 21),
        (0, n - cluster / 2, 21),
        (0, cluster.wrapping_neg(), 21),
        (1, n - cluster, 0),
        (1, n, 21),
        (1, cluster.wrapping_neg(), 21),
        (1, n - cluster + 8, 21),
        (1, 1 << 63, 21),
        (full, n - cluster, 0),
        (full, n - 2 * cluster, 0),
        (full, 0, 0),
        (full, n, 21),
    ] {
        let image = changed(&made, |made| {
            made.put64(at, place);
            made.put32(at + 8, l1_size);
        });
        visit(&image, number);
    }
    if full < MAX_L1 as u32 {
        let longer = changed(&made, |made| {
            made.put64(at, n - cluster);
            made.put32(at + 8, full + 1);
        });
        visit(&longer, 21);
    }
}

/// The limit of the snapshot's L1 table, which lies on the active one: there is
/// room for more.
fn l1_sizes(rng: &mut Rng, visit: &mut impl FnMut(&[u8], u32)) {
    for cluster_bits in [9, 16, 21] {
        let mut made = image(cluster_bits, MAX_L1, 1, rng);
        let at = made.bytes.len() - made.cluster();
        made.put32(60, 1);
        made.put64(64, at as u64);
        made.put64(at, made.l1_at as u64);
        let most = MAX_L1 as u32;
        for (l1_size, number) in
            [(0, 0), (4097, 0), (most, 0), (most + 1, 21), (1 << 29, 21), (u32::MAX, 21)]
        {
            visit(&changed(&made, |made| made.put32(at + 8, l1_size)), number);
        }
    }
}

/// How many snapshots, each entry of 40 bytes: 64 of them are five clusters of
/// 512 bytes.
fn counts(rng: &mut Rng, visit: &mut impl FnMut(&[u8], u32)) {
    let mut made = image(9, 1, 7, rng);
    let last = made.bytes.len() - FIXED * MAX_SNAPSHOTS;
    for (clusters, count, number) in [
        (5, 1, 0),
        (5, 63, 0),
        (5, 64, 0),
        (5, 65, 6),
        (5, u32::MAX, 6),
        (4, 51, 0),
        (4, 52, 21),
        (4, 64, 21),
        (1, 12, 0),
        (1, 13, 21),
    ] {
        let place = made.bytes.len() - 512 * clusters;
        made.put64(64, place as u64);
        visit(&changed(&made, |made| made.put32(60, count)), number);
    }
    // Each entry is looked at, and none after the last.
    made.put64(64, last as u64);
    for (broken, count, number) in
        [(0, 1, 21), (63, 64, 21), (31, 64, 21), (31, 31, 0), (31, 32, 21)]
    {
        let image = changed(&made, |made| {
            made.put32(60, count);
            made.put64(last + FIXED * broken, 1);
        });
        visit(&image, number);
    }
}
