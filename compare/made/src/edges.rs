//! Images at the very edges of the header's rules, with the number that a call
//! refuses them with, 0 where they are accepted.

use crate::image::Made;
use crate::plan::{per_block, Plan, LONG_BITS, MAX_BITS, MAX_L1, MAX_ORDER, ORDER_16, SECTOR};
use crate::rng::Rng;

/// Visits the images one by one: all of them at once take much memory.
pub fn each(mut visit: impl FnMut(&[u8], u32)) {
    let (rng, visit) = (&mut Rng::new(71), &mut visit);
    sizes(rng, visit);
    l1_sizes(rng, visit);
    l1_places(rng, visit);
    refcount_tables(rng, visit);
    (0..=MAX_ORDER).for_each(|order| blocks(order, rng, visit));
    orders(rng, visit);
}

fn plan(cluster_bits: u32, l1_size: usize, spare: usize) -> Plan {
    let size = Plan::reach(cluster_bits, l1_size);
    let order = ORDER_16;
    Plan { version: 3, cluster_bits, order, size, l1_size, spare, longer_table: 0, autoclear: 0 }
}

fn changed(made: &Made, change: impl Fn(&mut Made)) -> Vec<u8> {
    let mut made = made.clone();
    change(&mut made);
    made.bytes
}

/// Numbers 8 and 18.
fn sizes(rng: &mut Rng, visit: &mut impl FnMut(&[u8], u32)) {
    for cluster_bits in 9..=MAX_BITS {
        let few = [1, 3, 4096, MAX_L1];
        for &l1_size in if cluster_bits < LONG_BITS { &few[..] } else { &few[..1] } {
            let made = plan(cluster_bits, l1_size, 1).build(rng);
            let reach = made.size;
            for (size, number) in [
                (reach, 0),
                (reach + 1, 8),
                (reach + SECTOR / 2, 8),
                (reach + SECTOR, 8),
                (reach - 1, 18),
                (reach - SECTOR / 2, 18),
                (reach - SECTOR + 1, 18),
                (reach - SECTOR, 0),
                (0, 0),
                (1, 18),
                (SECTOR / 2, 18),
                (SECTOR - 1, 18),
                (SECTOR, 0),
            ] {
                visit(&changed(&made, |made| made.put64(24, size)), number);
            }
        }
    }
    for (cluster_bits, l1_size) in [(16, 2048), (19, 32), (21, 2)] {
        let made = plan(cluster_bits, l1_size, 1).build(rng);
        visit(&changed(&made, |made| made.put64(24, 1 << 40)), 0);
        visit(&changed(&made, |made| made.put32(36, l1_size as u32 - 1)), 8);
        visit(&changed(&made, |made| made.put64(24, (1 << 40) + SECTOR)), 8);
    }
}

/// Number 8, for the L1 table's length. There is room for an entry more, so
/// that only the limit is in the way; and what it reaches is past 2^64 for some
/// of these, with a rest that would do.
fn l1_sizes(rng: &mut Rng, visit: &mut impl FnMut(&[u8], u32)) {
    let most = MAX_L1 as u32;
    for cluster_bits in 9..=MAX_BITS {
        let mut made = plan(cluster_bits, MAX_L1, 1).build_in_order(rng);
        made.put64(24, SECTOR);
        let wraps = (1 << 25) + 1;
        for (l1_size, number) in
            [(4097, 0), (most, 0), (most + 1, 8), (1 << 31, 8), (wraps, 8), (u32::MAX, 8)]
        {
            visit(&changed(&made, |made| made.put32(36, l1_size)), number);
        }
    }
}

/// Number 9, for the L1 table: it may end where the image ends.
fn l1_places(rng: &mut Rng, visit: &mut impl FnMut(&[u8], u32)) {
    for cluster_bits in [9, 12, 16, 18, 19, 21] {
        let cluster = 1u64 << cluster_bits;
        let (full, most) = ((cluster / 8) as u32, MAX_L1 as u32);
        let made = plan(cluster_bits, 1, 2).build(rng);
        let n = made.bytes.len() as u64;
        for (l1_size, place, number) in [
            (1, n - cluster, 0),
            (1, n, 9),
            (1, cluster.wrapping_neg(), 9),
            (full.min(most), n - cluster, 0),
            (full.min(most), n - cluster / 2, 9),
            (0, n, 0),
            (0, n + cluster, 9),
            (0, 0, 0),
        ] {
            let image = changed(&made, |made| {
                made.put64(24, 0);
                made.put32(36, l1_size);
                made.put64(40, place);
            });
            visit(&image, number);
        }
        if full < most {
            let image = changed(&made, |made| {
                made.put32(36, full + 1);
                made.put64(40, n - cluster);
            });
            visit(&image, 9);
        }
    }
}

/// Numbers 9 and 10, for a refcount table that is just full or overfull. For
/// counts of less than 16 bits such an image is long.
fn refcount_tables(rng: &mut Rng, visit: &mut impl FnMut(&[u8], u32)) {
    for order in ORDER_16..=MAX_ORDER {
        full_table(order, rng, visit);
    }
    // A table that takes the whole image, and one cluster more than that.
    let made = plan(9, 1, 8).build(rng);
    for (place, clusters, number) in [(0, made.clusters(), 10), (0, made.clusters() + 1, 9)] {
        let image = changed(&made, |made| {
            made.put64(48, place);
            made.put32(56, clusters as u32);
        });
        visit(&image, number);
    }
}

fn full_table(order: u32, rng: &mut Rng, visit: &mut impl FnMut(&[u8], u32)) {
    // 64 blocks fill one cluster of the table.
    let (most, fixed) = (64 * per_block(9, order), 1 + 1 + 1 + 64);
    let plan = |spare: usize| Plan { order, ..plan(9, 1, spare) };
    let made = plan(most - fixed).build(rng);
    assert_eq!((made.table_clusters, made.clusters()), (1, most));
    visit(&made.bytes, 0);
    let last = made.table_at + 8 * 63;
    let n = made.bytes.len() as u64;
    for (entry, number) in [(0, 10), (512, 0), (n - 512, 0), (n, 10), (513, 10), (n - 256, 10)] {
        visit(&changed(&made, |made| made.put64(last, entry)), number);
    }
    let longer = changed(&made, |made| made.bytes.resize((most + 1) * 512, 0));
    visit(&longer, 9);
    let made = plan(most - fixed + 1).build(rng);
    assert_eq!((made.table_clusters, made.blocks.len()), (2, 65));
    visit(&made.bytes, 0);
    visit(&changed(&made, |made| made.put32(56, 1)), 9);
    let end = made.table_at + 2 * 512 - 8;
    visit(&changed(&made, |made| made.put64(end, 1)), 10);
}

/// Number 10, for the number of blocks: one that is just full, and one cluster
/// more.
fn blocks(order: u32, rng: &mut Rng, visit: &mut impl FnMut(&[u8], u32)) {
    let counts = per_block(9, order);
    let plan = |spare: usize| Plan { order, ..plan(9, 1, spare) };
    let made = plan(counts - 4).build(rng);
    assert_eq!((made.clusters(), made.blocks.len()), (counts, 1));
    visit(&made.bytes, 0);
    let second = made.table_at + 8;
    visit(&changed(&made, |made| made.put64(second, 512)), 10);
    visit(&changed(&made, |made| made.bytes.resize((counts + 1) * 512, 0)), 10);
    let two = changed(&made, |made| {
        made.bytes.resize((counts + 1) * 512, 0);
        made.put64(second, 512);
    });
    visit(&two, 0);
}

/// Number 6, for refcount_order, which version 2 does not have.
fn orders(rng: &mut Rng, visit: &mut impl FnMut(&[u8], u32)) {
    for version in [2, 3] {
        let made = Plan { version, ..plan(9, 1, 8) }.build(rng);
        for order in [0, 1, 2, 3, 4, 5, 6, 7, 8, 16, 63, 64, 256, 0x0400_0000, 1 << 31, u32::MAX] {
            let number = if version == 3 && order > MAX_ORDER { 6 } else { 0 };
            visit(&changed(&made, |made| made.put32(96, order)), number);
        }
    }
}
