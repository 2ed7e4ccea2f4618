//! The header, judged afresh by every call: numbers 1 to 8, 18, 9, 10, 19 and 21,
//! tried in this order.

use std::iter;
use std::ops::{Range, RangeInclusive};

use crate::snapshots::Snapshots;

const MAGIC: [u8; 4] = [0x51, 0x46, 0x49, 0xFB];
/// The smallest and the greatest cluster_bits.
const BITS: RangeInclusive<u32> = 9..=21;
const MAX_IMAGE: usize = 1 << 30;
const MAX_DISK: u64 = 1 << 40;
pub(crate) const MAX_L1: u64 = 65_536;
const MAX_ORDER: u32 = 6;
const MAX_SNAPSHOTS: u32 = 64;
/// Bytes of the longest name of a backing file.
const MAX_NAME: u64 = 1023;
/// Version 2 has no such field.
const VERSION_2_ORDER: u32 = 4;
const SECTOR: u64 = 512;
/// The place of autoclear_features.
pub(crate) const AUTOCLEAR: usize = 88;

pub(crate) fn be16(image: &[u8], at: usize) -> u16 {
    u16::from_be_bytes(image[at..at + 2].try_into().unwrap())
}

pub(crate) fn be32(image: &[u8], at: usize) -> u32 {
    u32::from_be_bytes(image[at..at + 4].try_into().unwrap())
}

pub(crate) fn be64(image: &[u8], at: usize) -> u64 {
    u64::from_be_bytes(image[at..at + 8].try_into().unwrap())
}

/// A disk that the image holds: the active one, or that of a snapshot.
#[derive(Clone, Copy)]
pub(crate) struct Disk {
    pub l1_at: usize,
    pub l1_size: usize,
    pub size: u64,
}

impl Disk {
    /// The disk that goes as far as its L1 table reaches, 2^55 at most.
    pub fn reached(l1_at: u64, l1_size: u64, cluster_bits: u32) -> Disk {
        let size = l1_size << (2 * cluster_bits - 3);
        Disk { l1_at: l1_at as usize, l1_size: l1_size as usize, size }
    }

    /// Does the range lie inside the disk?
    pub fn holds(&self, offset: u64, len: u64) -> bool {
        offset <= self.size && len <= self.size - offset
    }
}

/// A header that was accepted, with every place known to be inside the image.
pub(crate) struct Header<'b> {
    pub version: u32,
    pub cluster_bits: u32,
    /// A stored count has 2^order bits.
    pub order: u32,
    pub disk: Disk,
    pub snapshots: Snapshots,
    /// Version 3; 0 in version 2, which has no such field.
    pub autoclear: u64,
    pub table_at: usize,
    pub table_clusters: usize,
    /// Clusters of the image (N).
    pub clusters: usize,
    /// Refcount blocks (B).
    pub blocks: usize,
    /// The bytes of the backing file: of an accepted image none exactly where it
    /// has no backing file.
    pub backing: &'b [u8],
}

impl<'b> Header<'b> {
    /// The accepted header, or the first of its numbers that applies.
    pub fn judge(image: &[u8], backing: &'b [u8]) -> Result<Header<'b>, u32> {
        let header = Header::placed(image)?;
        if !header.blocks_are_good(image) {
            return Err(10);
        }
        let backing = match backing_name(image, header.cluster_bits)? {
            None => &[],
            Some(_) if backing.is_empty() => return Err(19),
            Some(_) => backing,
        };
        let snapshots = Snapshots::judge(image, header.cluster_bits)?;
        Ok(Header { snapshots, backing, ..header })
    }

    /// The same as far as the places of the tables: numbers 1 to 8, 18 and 9.
    pub fn placed(image: &[u8]) -> Result<Header<'static>, u32> {
        let (version, cluster_bits) = shape(image)?;
        let order = features(image, version)?;
        let size = be64(image, 24);
        let l1_size = u64::from(be32(image, 36));
        // What the L1 table reaches is formed within its limit alone: 2^55 at
        // most there, and past 2^64 with any l1_size.
        let reach = || l1_size << (2 * cluster_bits - 3);
        if size > MAX_DISK || l1_size > MAX_L1 || reach() < size {
            return Err(8);
        }
        if !size.is_multiple_of(SECTOR) {
            return Err(18);
        }
        tables(image, (version, cluster_bits, order), size, l1_size)
    }

    /// Cluster size (C).
    pub fn cluster(&self) -> usize {
        1 << self.cluster_bits
    }

    /// Has the image a backing file?
    pub fn is_backed(&self) -> bool {
        !self.backing.is_empty()
    }

    /// What lies underneath a guest offset, as far as the backing file goes; zeros
    /// come after it.
    #[inline]
    pub fn under(&self, offset: u64) -> &'b [u8] {
        self.backing.get(offset as usize..).unwrap_or_default()
    }

    /// The active disk and those of the snapshots.
    pub fn disks(&self) -> impl Iterator<Item = Disk> + '_ {
        iter::once(self.disk).chain(self.snapshots.disks.iter().copied())
    }

    /// Guest clusters that begin below the disk's end.
    pub fn guest_clusters(&self, disk: Disk) -> u64 {
        disk.size.div_ceil(1 << self.cluster_bits)
    }

    /// The entries of the refcount table.
    pub fn table<'i>(&self, image: &'i [u8]) -> &'i [[u8; 8]] {
        image[self.table_at..][..self.table_clusters << self.cluster_bits].as_chunks().0
    }

    fn blocks_are_good(&self, image: &[u8]) -> bool {
        let (used, rest) = self.table(image).split_at(self.blocks);
        self.name_blocks(used) && are_zero(rest)
    }

    /// Does each entry name a cluster of the image beside the first?
    pub fn name_blocks(&self, entries: &[[u8; 8]]) -> bool {
        let others = self.clusters as u64 - 1;
        // Rotated, the place is a cluster number if it is a multiple of the
        // cluster size, and greater than any such number if it is not.
        let good = |entry: &[u8; 8]| {
            let place = u64::from_be_bytes(*entry);
            place.rotate_right(self.cluster_bits).wrapping_sub(1) < others
        };
        entries.iter().all(good)
    }
}

/// Numbers 1 to 5: version and cluster_bits.
fn shape(image: &[u8]) -> Result<(u32, u32), u32> {
    let n = image.len();
    if n < 512 {
        return Err(1);
    }
    if image[..4] != MAGIC {
        return Err(2);
    }
    let version = be32(image, 4);
    if version != 2 && version != 3 {
        return Err(3);
    }
    let cluster_bits = be32(image, 20);
    if !BITS.contains(&cluster_bits) {
        return Err(4);
    }
    if n & ((1 << cluster_bits) - 1) != 0 || n > MAX_IMAGE {
        return Err(5);
    }
    Ok((version, cluster_bits))
}

/// Numbers 6 and 7: refcount_order.
fn features(image: &[u8], version: u32) -> Result<u32, u32> {
    if be32(image, 32) != 0 || be32(image, 60) > MAX_SNAPSHOTS {
        return Err(6);
    }
    if version == 2 {
        return Ok(VERSION_2_ORDER);
    }
    let order = be32(image, 96);
    if order > MAX_ORDER || be32(image, 100) != 104 {
        return Err(6);
    }
    if be64(image, 72) != 0 {
        return Err(7);
    }
    Ok(order)
}

/// Does a table of `len` bytes start at a cluster and end inside the image?
pub(crate) fn fits(image: &[u8], cluster_bits: u32, at: u64, len: u64) -> bool {
    let n = image.len() as u64;
    at & ((1 << cluster_bits) - 1) == 0 && at <= n && len <= n - at
}

/// Number 9: the places of the L1 table and the refcount table.
fn tables(
    image: &[u8],
    (version, cluster_bits, order): (u32, u32, u32),
    size: u64,
    l1_size: u64,
) -> Result<Header<'static>, u32> {
    let fits = |at, len| fits(image, cluster_bits, at, len);
    let l1_at = be64(image, 40);
    let table_at = be64(image, 48);
    let table_clusters = u64::from(be32(image, 56));
    let table_len = table_clusters << cluster_bits;
    let clusters = image.len() as u64 >> cluster_bits;
    let blocks = clusters.div_ceil(1 << (cluster_bits + 3 - order));
    if !fits(l1_at, 8 * l1_size) || !fits(table_at, table_len) || table_len / 8 < blocks {
        return Err(9);
    }
    Ok(Header {
        version,
        cluster_bits,
        order,
        disk: Disk { size, ..Disk::reached(l1_at, l1_size, cluster_bits) },
        snapshots: Snapshots::default(),
        autoclear: if version == 3 { be64(image, AUTOCLEAR) } else { 0 },
        table_at: table_at as usize,
        table_clusters: table_clusters as usize,
        clusters: clusters as usize,
        blocks: blocks as usize,
        backing: &[],
    })
}

/// Number 19, for the name of the backing file: where it stands, if there is one.
/// It has to lie inside the first cluster; the place may be near 2^64.
pub(crate) fn backing_name(image: &[u8], cluster_bits: u32) -> Result<Option<Range<usize>>, u32> {
    let (at, len) = (be64(image, 8), u64::from(be32(image, 16)));
    if at == 0 {
        return Ok(None);
    }
    let cluster = 1 << cluster_bits;
    if !(1..=MAX_NAME).contains(&len) || at > cluster || len > cluster - at {
        return Err(19);
    }
    Ok(Some(at as usize..(at + len) as usize))
}

pub(crate) fn are_zero(entries: &[[u8; 8]]) -> bool {
    let (groups, rest) = entries.as_flattened().as_chunks::<512>();
    groups.iter().all(|group| zero(group)) && zero(rest)
}

/// Fills `part` with the first of these bytes, and with zeros past their end.
#[inline]
pub(crate) fn lay(part: &mut [u8], bytes: &[u8]) {
    let (head, tail) = part.split_at_mut(part.len().min(bytes.len()));
    head.copy_from_slice(&bytes[..head.len()]);
    tail.fill(0);
}

/// By vectors; straight code where the length is known.
#[inline]
pub(crate) fn zero(part: &[u8]) -> bool {
    part.iter().fold(0, |or, byte| or | byte) == 0
}
