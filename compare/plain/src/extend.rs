//! Extend: clusters that were appended to an image are taken in.

use answers::Outcome;

use crate::cell::Cell;
use crate::header::{are_zero, backing_name, Header, AUTOCLEAR};
use crate::snapshots::Snapshots;

/// The least length of an image.
const LEAST: u64 = 512;

/// Takes in what follows the first `old` bytes, cut after `allowance` units.
pub fn extend(image: &mut [u8], old: u64, allowance: u64) -> Outcome {
    match Longer::judge(image, old) {
        Ok(longer) => longer.take_in(image, allowance),
        Err(number) => Outcome::Refused(number),
    }
}

/// An image with clusters that are to be taken in.
struct Longer {
    header: Header<'static>,
    /// New refcount blocks that the table does not name on entry.
    missing: Vec<usize>,
}

impl Longer {
    fn judge(image: &[u8], old: u64) -> Result<Longer, u32> {
        let header = Header::placed(image)?;
        let missing = header.missing_blocks(image, old).ok_or(10u32)?;
        backing_name(image, header.cluster_bits)?;
        Snapshots::judge(image, header.cluster_bits)?;
        Ok(Longer { header, missing })
    }

    /// Makes the first `allowance` units: the field cleared, then each missing block
    /// and its table entry.
    fn take_in(&self, image: &mut [u8], allowance: u64) -> Outcome {
        let clears = self.header.autoclear != 0 && !self.missing.is_empty();
        let (table_at, cluster) = (self.header.table_at, self.header.cluster());
        // Of a block's own count the last byte is 1, and all others are 0.
        let one = Cell::of(self.header.order, 0, 0).bytes().end - 1;
        let mut left = allowance;
        if clears && left > 0 {
            image[AUTOCLEAR..AUTOCLEAR + 8].fill(0);
            left -= 1;
        }
        for &index in &self.missing {
            let at = self.header.new_block_at(index);
            let block = &mut image[at..][..cluster.min(left as usize)];
            block.fill(0);
            if let Some(byte) = block.get_mut(one) {
                *byte = 1;
            }
            if left <= cluster as u64 {
                return Outcome::Stopped(allowance);
            }
            left -= cluster as u64 + 1;
            image[table_at + 8 * index..][..8].copy_from_slice(&(at as u64).to_be_bytes());
        }
        Outcome::Finished(allowance - left)
    }
}

impl Header<'_> {
    /// Where a new refcount block goes: into the first cluster that it counts.
    fn new_block_at(&self, index: usize) -> usize {
        (index * self.per_block()) << self.cluster_bits
    }

    /// The new blocks of an image that had `old` bytes which the table does not name
    /// yet; none where the old length or an entry of the table is wrong.
    fn missing_blocks(&self, image: &[u8], old: u64) -> Option<Vec<usize>> {
        if !(LEAST..=image.len() as u64).contains(&old) {
            return None;
        }
        let (clusters, rest) = (old as usize >> self.cluster_bits, old as usize % self.cluster());
        let before = clusters.div_ceil(self.per_block());
        let (entries, later) = self.table(image).split_at(self.blocks);
        let (used, new) = entries.split_at(before);
        if rest != 0 || !self.name_blocks(used) || !are_zero(later) {
            return None;
        }
        let mut missing = Vec::new();
        for (index, &entry) in (before..).zip(new) {
            match u64::from_be_bytes(entry) {
                0 => missing.push(index),
                place if place == self.new_block_at(index) as u64 => {}
                _ => return None,
            }
        }
        Some(missing)
    }
}
