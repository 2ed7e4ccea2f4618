//! The snapshot table: number 21.

use std::ops::Range;

use crate::header::{be16, be32, be64, fits, Disk, MAX_L1};

/// An entry's bytes before its extra data.
const FIXED: usize = 40;

/// The snapshots' disks, and where the snapshot table lies.
#[derive(Default)]
pub(crate) struct Snapshots {
    pub disks: Vec<Disk>,
    pub table: Range<usize>,
}

impl Snapshots {
    /// Those that the header tells of.
    pub fn judge(image: &[u8], cluster_bits: u32) -> Result<Snapshots, u32> {
        let (at, count) = (be64(image, 64), be32(image, 60));
        if count == 0 {
            return Ok(Snapshots::default());
        }
        if !fits(image, cluster_bits, at, 0) {
            return Err(21);
        }
        let start = at as usize;
        let mut found = Snapshots { disks: Vec::new(), table: start..start };
        for _ in 0..count {
            let (disk, len) = entry(&image[found.table.end..], image, cluster_bits).ok_or(21u32)?;
            found.disks.push(disk);
            found.table.end += len;
        }
        Ok(found)
    }
}

/// The snapshot whose entry `bytes` starts with, and the entry's length: after
/// the extra data come id and name, up to a multiple of 8.
fn entry(bytes: &[u8], image: &[u8], cluster_bits: u32) -> Option<(Disk, usize)> {
    let fixed: &[u8; FIXED] = bytes.first_chunk()?;
    let (id, name) = (be16(fixed, 12), be16(fixed, 14));
    let extra = be32(fixed, 36) as usize;
    let len = (FIXED + extra + usize::from(id) + usize::from(name)).next_multiple_of(8);
    let (l1_at, l1_size) = (be64(fixed, 0), u64::from(be32(fixed, 8)));
    if len > bytes.len() || l1_size > MAX_L1 || !fits(image, cluster_bits, l1_at, 8 * l1_size) {
        return None;
    }
    Some((Disk::reached(l1_at, l1_size, cluster_bits), len))
}
