//! Images that are full or nearly so, for tests at the limits and for the
//! benchmarks. Any length up to the greatest will do.

use crate::image::{Kind, Made};
use crate::plan::{per_block, Plan, ORDER_16};
use crate::rng::Rng;
use crate::snapshots;

/// The usual length. The greatest one takes too much memory and time for most
/// tests.
pub const LENGTH: usize = 64 << 20;

/// How long an image is, and the lengths of its clusters and counts.
#[derive(Clone, Copy, Debug)]
pub struct Shape {
    pub length: usize,
    pub cluster_bits: u32,
    pub order: u32,
}

impl Shape {
    /// The usual length, and counts of 16 bits.
    pub fn of(cluster_bits: u32) -> Shape {
        Shape { length: LENGTH, cluster_bits, order: ORDER_16 }
    }

    fn clusters(self) -> usize {
        self.length >> self.cluster_bits
    }
}

/// Where an image's clusters lie.
#[derive(Clone, Copy, Debug, PartialEq, Eq)]
pub enum Layout {
    /// Structures at the front, then tables and data in the disk's order.
    Rising,
    /// Everything at random places.
    Scattered,
}

/// An image with nothing but spare clusters, for a disk of `guest` clusters.
pub fn empty_of(shape: Shape, guest: usize, layout: Layout) -> Made {
    let Shape { length, cluster_bits, order } = shape;
    let (cluster, clusters) = (1usize << cluster_bits, shape.clusters());
    let l1_size = guest.div_ceil(cluster / 8);
    let blocks = clusters.div_ceil(per_block(cluster_bits, order));
    let fixed = 1 + (8 * l1_size).div_ceil(cluster) + blocks + (8 * blocks).div_ceil(cluster);
    let plan = Plan {
        version: 3,
        cluster_bits,
        order,
        size: (guest * cluster) as u64,
        l1_size,
        spare: clusters - fixed,
        longer_table: 0,
        autoclear: 0,
    };
    let rng = &mut Rng::new(1);
    let made = match layout {
        Layout::Rising => plan.build_in_order(rng),
        Layout::Scattered => plan.build(rng),
    };
    assert_eq!(made.bytes.len(), length);
    made
}

/// The same of the usual length, in order.
pub fn empty(cluster_bits: u32, guest: usize) -> Made {
    empty_of(Shape::of(cluster_bits), guest, Layout::Rising)
}

/// Gives guest clusters from 0 on entries of a kind, with their L2 tables,
/// until only `keep` clusters are spare or `most` guest clusters have one; how
/// many have.
pub fn fill_with(made: &mut Made, kind: Kind, keep: usize, most: usize) -> usize {
    let mut rng = Rng::new(2);
    let (mut done, mut table) = (0, 0);
    while made.spare.len() > keep && done < most {
        let l2_index = done % made.per_table();
        if l2_index == 0 {
            table = made.add_table(done / made.per_table()).expect("a spare cluster");
        }
        if made.spare.len() > keep {
            made.add_entry(table, l2_index, kind, &mut rng);
            done += 1;
        }
    }
    done
}

/// The same with data.
pub fn fill(made: &mut Made, keep: usize, most: usize) -> usize {
    fill_with(made, Kind::Data, keep, most)
}

/// A full image: each cluster allocated and referenced.
pub fn full_of(shape: Shape, kind: Kind, layout: Layout) -> Made {
    let mut made = empty_of(shape, shape.clusters(), layout);
    let done = fill_with(&mut made, kind, 0, usize::MAX);
    shrink(&mut made, done);
    made
}

/// The same of the usual length, with data in order.
pub fn full(cluster_bits: u32) -> Made {
    full_of(Shape::of(cluster_bits), Kind::Data, Layout::Rising)
}

/// A full image whose snapshots share most clusters with the active disk and with each
/// other.
pub fn with_snapshots_of(shape: Shape, count: usize, layout: Layout) -> Made {
    let mut made = empty_of(shape, shape.clusters(), layout);
    let room = snapshots::reserve(&mut made, count);
    // Of each 32 tables one, and half of its data; with one table that is many.
    let (step, own) = match shape.cluster_bits {
        16 => (1, shape.clusters() / 2 + 1),
        _ => (32, shape.clusters() / 50),
    };
    let done = fill(&mut made, own, usize::MAX);
    shrink(&mut made, done);
    snapshots::keep(&mut made, room);
    snapshots::copy_some(&mut made, step);
    made
}

/// The same of the usual length.
pub fn with_snapshots(cluster_bits: u32, count: usize, layout: Layout) -> Made {
    with_snapshots_of(Shape::of(cluster_bits), count, layout)
}

/// Only the last `keep` clusters are free, and the guest cluster that is
/// returned has an L2 table but no place.
pub fn nearly_full(shape: Shape, keep: usize) -> (Made, u64) {
    let mut made = empty_of(shape, shape.clusters(), Layout::Rising);
    let done = fill(&mut made, keep, usize::MAX);
    assert!(!done.is_multiple_of(made.per_table()));
    shrink(&mut made, done + 1);
    (made, done as u64)
}

/// Only the last two clusters are free, and the guest cluster that is returned
/// has no L2 table.
pub fn last_two_free(shape: Shape) -> (Made, u64) {
    let per_table = 1 << (shape.cluster_bits - 3);
    let mut made = empty_of(shape, shape.clusters() + per_table, Layout::Rising);
    let done = fill(&mut made, 2, usize::MAX);
    let next = done.next_multiple_of(per_table);
    shrink(&mut made, next + 1);
    (made, next as u64)
}

/// An image of the usual length that is mostly L2 tables, with data in the
/// clusters that are left: of the first guest clusters, or of random ones.
pub fn many_tables(cluster_bits: u32, tables: usize, layout: Layout) -> Made {
    let per_table = 1usize << (cluster_bits - 3);
    let mut made = empty_of(Shape::of(cluster_bits), tables * per_table, layout);
    let mut rng = Rng::new(3);
    for l1_index in 0..tables {
        made.add_table(l1_index).expect("a spare cluster");
    }
    let mut guest = 0;
    while !made.spare.is_empty() {
        let (_, table) = made.tables[guest / per_table];
        made.add_entry(table, guest % per_table, Kind::Data, &mut rng);
        guest = match layout {
            Layout::Rising => guest + 1,
            Layout::Scattered => rng.index(tables * per_table),
        };
    }
    made
}

/// Cuts the disk's size to this many guest clusters.
fn shrink(made: &mut Made, guest: usize) {
    made.size = (guest << made.cluster_bits) as u64;
    made.put64(24, made.size);
}
