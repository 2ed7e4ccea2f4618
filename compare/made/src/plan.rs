//! Plans of valid images, and the images made from them.

use crate::backing::NAME_AT;
use crate::image::{Made, AUTOCLEAR};
use crate::rng::Rng;

/// The greatest cluster_bits.
pub const MAX_BITS: u32 = 21;
/// From these cluster_bits on, images are long: random ones are rare and have
/// few clusters.
pub const LONG_BITS: u32 = 17;
pub const MAX_ORDER: u32 = 6;
/// The order of version 2.
pub const ORDER_16: u32 = 4;
pub const MAX_IMAGE: usize = 1 << 30;
pub const MAX_L1: usize = 65_536;
const MAX_DISK: u64 = 1 << 40;
/// Disks are whole numbers of sectors.
pub const SECTOR: u64 = 512;

/// Counts of 2^order bits in a refcount block.
pub fn per_block(cluster_bits: u32, order: u32) -> usize {
    1 << (cluster_bits + 3 - order)
}

#[derive(Clone, Copy, Debug)]
pub struct Plan {
    pub version: u32,
    pub cluster_bits: u32,
    /// Bytes 96 to 99, refcount_order, which version 2 has no field for.
    pub order: u32,
    pub size: u64,
    pub l1_size: usize,
    /// Clusters beyond header, refcount table, blocks and L1 table.
    pub spare: usize,
    /// Refcount table clusters beyond those that the blocks need.
    pub longer_table: usize,
    /// Bytes 88 to 95, which version 2 has no field in.
    pub autoclear: u64,
}

impl Plan {
    /// The longest disk that an L1 table of this length reaches.
    pub fn reach(cluster_bits: u32, l1_size: usize) -> u64 {
        ((l1_size as u64) << (2 * cluster_bits - 3)).min(MAX_DISK)
    }

    pub fn random(rng: &mut Rng) -> Plan {
        let cluster_bits = random_bits(rng);
        Plan::random_with(cluster_bits, rng)
    }

    pub fn random_with(cluster_bits: u32, rng: &mut Rng) -> Plan {
        let few = 1 + rng.index(70);
        let l1_size = match rng.below(16) {
            0 => 0,
            1 => rng.pick(&[4096, 4097, MAX_L1 - 1, MAX_L1]),
            2 => 1 + rng.index(4096),
            3..=6 => few,
            _ => 1 + rng.index(3),
        };
        let max = Plan::reach(cluster_bits, l1_size);
        let spare = match (cluster_bits, rng.below(12)) {
            (9, 0) => 300 + rng.index(600),
            (10, 0) => 600 + rng.index(500),
            (9..=11, _) => rng.index(90),
            (12..=14, _) => rng.index(30),
            (15..LONG_BITS, _) => rng.index(14),
            _ => rng.index(5),
        };
        let version = rng.pick(&[2, 3, 3, 3]);
        Plan {
            version,
            cluster_bits,
            order: random_order(version, rng),
            size: random_size(rng, 1 << cluster_bits, max),
            l1_size,
            spare,
            longer_table: if rng.once_in(4) { 1 + rng.index(3) } else { 0 },
            autoclear: random_autoclear(rng),
        }
    }

    /// The order that holds.
    fn counts(&self) -> u32 {
        if self.version == 2 {
            ORDER_16
        } else {
            self.order
        }
    }

    /// Clusters of the image, of its refcount table and number of its blocks.
    fn lengths(&self) -> (usize, usize, usize) {
        let cluster = 1usize << self.cluster_bits;
        let mut blocks = 1usize;
        loop {
            let table = (8 * blocks).div_ceil(cluster) + self.longer_table;
            let clusters = 1 + table + self.l1_clusters() + blocks + self.spare;
            let needed = clusters.div_ceil(per_block(self.cluster_bits, self.counts()));
            if needed <= blocks {
                assert!(clusters * cluster <= MAX_IMAGE && needed == blocks);
                return (clusters, table, blocks);
            }
            blocks = needed;
        }
    }

    fn l1_clusters(&self) -> usize {
        (8 * self.l1_size).div_ceil(1 << self.cluster_bits)
    }

    /// A sound image with no L2 table: structures at random places, and random
    /// bytes wherever the paper looks at none.
    pub fn build(&self, rng: &mut Rng) -> Made {
        let (clusters, table_clusters, _) = self.lengths();
        let (table, l1) = place_runs(rng, clusters, table_clusters, self.l1_clusters());
        let mut others = self.others(table, l1);
        rng.shuffle(&mut others);
        let bytes = rng.bytes(clusters << self.cluster_bits);
        self.assemble(table, l1, others, bytes)
    }

    /// The same with the structures at the front, and spare clusters taken in
    /// rising order.
    pub fn build_in_order(&self, rng: &mut Rng) -> Made {
        let (clusters, _, _) = self.lengths();
        self.in_order(rng.bytes(clusters << self.cluster_bits))
    }

    /// The same with zeros wherever the paper looks at none: what is not stored
    /// takes no memory.
    pub fn build_sparse(&self) -> Made {
        let (clusters, _, _) = self.lengths();
        self.in_order(vec![0; clusters << self.cluster_bits])
    }

    fn in_order(&self, bytes: Vec<u8>) -> Made {
        let (_, table_clusters, _) = self.lengths();
        let l1 = 1 + table_clusters;
        let mut others = self.others(1, l1);
        others.reverse();
        self.assemble(1, l1, others, bytes)
    }

    /// Clusters beside header, refcount table and L1 table.
    fn others(&self, table: usize, l1: usize) -> Vec<usize> {
        let (clusters, table_clusters, _) = self.lengths();
        let table = table..table + table_clusters;
        let l1 = l1..l1 + self.l1_clusters();
        (1..clusters).filter(|k| !table.contains(k) && !l1.contains(k)).collect()
    }

    /// The blocks take the last of the other clusters, the rest is spare.
    fn assemble(&self, table: usize, l1: usize, mut others: Vec<usize>, bytes: Vec<u8>) -> Made {
        let (_, table_clusters, blocks) = self.lengths();
        let places = others.split_off(others.len() - blocks);
        let mut made = Made {
            bytes,
            version: self.version,
            cluster_bits: self.cluster_bits,
            order: self.counts(),
            size: self.size,
            l1_size: self.l1_size,
            l1_at: l1 << self.cluster_bits,
            table_at: table << self.cluster_bits,
            table_clusters,
            blocks: places.iter().map(|place| place << self.cluster_bits).collect(),
            spare: others,
            tables: Vec::new(),
            entries: Vec::new(),
            snapshots_at: 0,
            snapshots: Vec::new(),
            backing: Vec::new(),
        };
        write_header(&mut made);
        made.put64(AUTOCLEAR, self.autoclear);
        made.put32(96, self.order);
        write_tables(&mut made);
        made
    }
}

/// Mostly small ones: the longer the clusters, the more time an image takes.
fn random_bits(rng: &mut Rng) -> u32 {
    if rng.once_in(150) {
        return rng.pick(&[17, 17, 17, 17, 18, 18, 18, 19, 19, 20, 21]);
    }
    rng.pick(&[9, 9, 9, 9, 9, 9, 9, 10, 10, 10, 11, 12, 13, 14, 15, 16])
}

/// Each width; in version 2 any number.
fn random_order(version: u32, rng: &mut Rng) -> u32 {
    let (order, any) = (rng.below(7) as u32, rng.number() as u32);
    match version {
        2 => rng.pick(&[order, ORDER_16, 7, any]),
        _ => order,
    }
}

/// None, one at either end, one of all, or any.
fn random_autoclear(rng: &mut Rng) -> u64 {
    let (one, any) = (1 << rng.below(64), rng.number());
    rng.pick(&[0, 0, 1, 1 << 63, one, any])
}

/// Whole sectors; where clusters are longer than these, most often not whole
/// clusters.
fn random_size(rng: &mut Rng, cluster: u64, max: u64) -> u64 {
    if max == 0 {
        return 0;
    }
    let some = cluster * rng.below(200);
    let parts = (cluster / SECTOR - 1).max(1);
    let partial = some + SECTOR * (1 + rng.below(parts));
    let random = SECTOR * rng.below(max / SECTOR + 1);
    let (less, more) = (cluster - SECTOR, cluster + SECTOR);
    let edges = [0, SECTOR, less, cluster, more, max - SECTOR, max, max, random, random];
    let small = [some, partial, partial];
    let size = if rng.once_in(4) { rng.pick(&edges) } else { rng.pick(&small) };
    size.min(max)
}

/// First clusters of the refcount table and of the L1 table.
fn place_runs(rng: &mut Rng, clusters: usize, table: usize, l1: usize) -> (usize, usize) {
    let room = clusters - 1 - table - l1;
    let first = 1 + rng.index(room + 1);
    let second = first + rng.index(room + 2 - first);
    if rng.once_in(2) {
        (first, second + table)
    } else {
        (second + l1, first)
    }
}

fn write_header(made: &mut Made) {
    made.bytes[..4].copy_from_slice(&[0x51, 0x46, 0x49, 0xFB]);
    made.put32(4, made.version);
    made.put64(NAME_AT, 0);
    made.put32(20, made.cluster_bits);
    made.put64(24, made.size);
    made.put32(32, 0);
    made.put32(36, made.l1_size as u32);
    made.put64(40, made.l1_at as u64);
    made.put64(48, made.table_at as u64);
    made.put32(56, made.table_clusters as u32);
    made.put32(60, 0);
    if made.version == 3 {
        made.put64(72, 0);
        made.put32(96, made.order);
        made.put32(100, 104);
    }
}

/// Refcount table, counts and L1 table.
fn write_tables(made: &mut Made) {
    let (at, len) = (made.table_at, made.table_clusters << made.cluster_bits);
    made.bytes[at..at + len].fill(0);
    for index in 0..made.blocks.len() {
        made.put64(at + 8 * index, made.blocks[index] as u64);
    }
    for index in 0..made.l1_size {
        made.put64(made.l1_at + 8 * index, 0);
    }
    for cluster in 0..made.clusters() {
        made.set_count(cluster, 1);
    }
    for cluster in made.spare.clone() {
        made.set_count(cluster, 0);
    }
}

/// The paper's bench image.
pub fn bench_image() -> Made {
    bench_image_of(ORDER_16)
}

/// The same with counts of 2^order bits.
pub fn bench_image_of(order: u32) -> Made {
    let mut made = Made {
        bytes: vec![0; 8192],
        version: 3,
        cluster_bits: 9,
        order,
        size: 65_536,
        l1_size: 2,
        l1_at: 3 * 512,
        table_at: 512,
        table_clusters: 1,
        blocks: vec![1024],
        spare: (4..16).rev().collect(),
        tables: Vec::new(),
        entries: Vec::new(),
        snapshots_at: 0,
        snapshots: Vec::new(),
        backing: Vec::new(),
    };
    write_header(&mut made);
    write_tables(&mut made);
    made
}
