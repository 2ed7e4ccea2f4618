//! The header's fields as they stand, judged by nobody: for messages, and for
//! the layout of an image that the core has accepted.

use std::ops::{Range, RangeInclusive};

use crate::width::Width;

/// The cluster_bits that are accepted.
pub const BITS: RangeInclusive<u32> = 9..=21;
/// The longest image that is accepted.
pub const MAX_IMAGE: u64 = 1 << 30;
pub const MAX_DISK: u64 = 1 << 40;
pub const MAX_L1: u64 = 65_536;
/// The disk is a whole number of these.
pub const SECTOR: u64 = 512;
/// The most snapshots that are accepted.
pub const MAX_SNAPSHOTS: u32 = 64;
/// The lengths of a backing file's name that are accepted.
pub const NAME: RangeInclusive<u32> = 1..=1023;
/// The header_length that is accepted.
pub const HEADER_LENGTH: u32 = 104;
/// Bits 9 to 55 of an L1 or L2 entry: the place.
pub const PLACE: u64 = 0x00FF_FFFF_FFFF_FE00;
/// Bit 63: in an active entry it says that what is at the place has no other
/// reference. Without a place it has to be clear.
pub const USED: u64 = 1 << 63;
/// Bit 62 of an L2 entry.
pub const COMPRESSED: u64 = 1 << 62;

/// The bytes of autoclear_features.
pub const AUTOCLEAR: Range<usize> = 88..96;

#[derive(Clone, Copy, Debug, PartialEq)]
pub struct Fields {
    pub version: u32,
    pub backing: u64,
    pub backing_length: u32,
    pub cluster_bits: u32,
    pub size: u64,
    pub crypt: u32,
    pub l1_size: u32,
    pub l1_at: u64,
    pub table_at: u64,
    pub table_clusters: u32,
    pub snapshots: u32,
    /// The place of the snapshot table, if there are any.
    pub snapshots_at: u64,
    /// Version 3, as are the next four; version 2 has 0, 0, 0, 4 and 104.
    pub incompatible: u64,
    pub compatible: u64,
    pub autoclear: u64,
    pub order: u32,
    pub header_length: u32,
}

pub fn be16(bytes: &[u8], at: usize) -> Option<u16> {
    Some(u16::from_be_bytes(bytes.get(at..at.checked_add(2)?)?.try_into().ok()?))
}

pub fn be32(bytes: &[u8], at: usize) -> Option<u32> {
    Some(u32::from_be_bytes(bytes.get(at..at.checked_add(4)?)?.try_into().ok()?))
}

pub fn be64(bytes: &[u8], at: usize) -> Option<u64> {
    Some(u64::from_be_bytes(bytes.get(at..at.checked_add(8)?)?.try_into().ok()?))
}

impl Fields {
    /// None if the bytes are too few for a header.
    pub fn read(bytes: &[u8]) -> Option<Fields> {
        let version = be32(bytes, 4)?;
        let newer = |value: u64, older: u64| if version == 2 { older } else { value };
        Some(Fields {
            version,
            backing: be64(bytes, 8)?,
            backing_length: be32(bytes, 16)?,
            cluster_bits: be32(bytes, 20)?,
            size: be64(bytes, 24)?,
            crypt: be32(bytes, 32)?,
            l1_size: be32(bytes, 36)?,
            l1_at: be64(bytes, 40)?,
            table_at: be64(bytes, 48)?,
            table_clusters: be32(bytes, 56)?,
            snapshots: be32(bytes, 60)?,
            snapshots_at: be64(bytes, 64)?,
            incompatible: newer(be64(bytes, 72)?, 0),
            compatible: newer(be64(bytes, 80)?, 0),
            autoclear: newer(be64(bytes, AUTOCLEAR.start)?, 0),
            order: newer(be32(bytes, 96)?.into(), 4) as u32,
            header_length: newer(be32(bytes, 100)?.into(), HEADER_LENGTH.into()) as u32,
        })
    }

    /// Cluster size, if cluster_bits is accepted.
    pub fn cluster(&self) -> Option<u64> {
        BITS.contains(&self.cluster_bits).then(|| 1 << self.cluster_bits)
    }

    /// Bytes that so many L1 entries reach.
    pub fn reach(&self, l1_size: u32) -> u64 {
        self.cluster().map_or(0, |cluster| {
            u64::from(l1_size).saturating_mul(cluster / 8).saturating_mul(cluster)
        })
    }

    /// Has the image nothing that qemu would change when it opens it to write?
    pub fn is_plain(&self) -> bool {
        let features = self.incompatible == 0 && self.autoclear == 0;
        features && self.snapshots == 0 && self.backing == 0 && self.crypt == 0
    }

    /// The width of the stored counts, if refcount_order is accepted.
    pub fn width(&self) -> Option<Width> {
        Width::of(self.order)
    }

    /// Clusters that a refcount block has counts for.
    pub fn per_block(&self) -> Option<u64> {
        Some(self.width()?.counts_in(self.cluster()? as usize) as u64)
    }

    /// Would qemu look for a backing file? To it a name of no byte is none.
    pub fn is_over_backing(&self) -> bool {
        self.backing != 0 && self.backing_length != 0
    }

    /// The name of the backing file, if the first cluster has it.
    pub fn backing_name<'a>(&self, bytes: &'a [u8]) -> Option<&'a [u8]> {
        let (at, length) = (usize::try_from(self.backing).ok()?, self.backing_length as usize);
        let known = at != 0 && NAME.contains(&self.backing_length);
        let end =
            at.checked_add(length).filter(|&end| end as u64 <= self.cluster().unwrap_or(512))?;
        bytes.get(at..end).filter(|_| known)
    }
}

#[cfg(test)]
mod tests {
    use super::*;

    #[test]
    fn fields_of_both_versions() {
        let mut bytes = vec![0xFF; 104];
        bytes[4..8].copy_from_slice(&[0, 0, 0, 3]);
        bytes[20..24].copy_from_slice(&[0, 0, 0, 9]);
        bytes[96..104].copy_from_slice(&[0, 0, 0, 5, 0, 0, 0, 112]);
        let three = Fields::read(&bytes).unwrap();
        assert_eq!((three.order, three.header_length), (5, 112));
        assert_eq!((three.incompatible, three.autoclear), (u64::MAX, u64::MAX));
        assert_eq!((three.compatible, three.width()), (u64::MAX, Width::of(5)));
        assert_eq!((three.cluster(), three.per_block()), (Some(512), Some(128)));
        bytes[7] = 2;
        let two = Fields::read(&bytes).unwrap();
        assert_eq!((two.order, two.header_length, two.per_block()), (4, 104, Some(256)));
        assert_eq!((two.incompatible, two.autoclear, two.size), (0, 0, u64::MAX));
        assert_eq!((two.compatible, two.backing_name(&bytes)), (0, None));
        assert_eq!(Fields::read(&bytes[..103]), None);
    }

    #[test]
    fn names_of_backing_files() {
        let mut bytes = vec![0; 120];
        bytes[112..117].copy_from_slice(b"b.raw");
        fn name(bytes: &[u8]) -> Option<&[u8]> {
            Fields::read(bytes).unwrap().backing_name(bytes)
        }
        assert_eq!(name(&bytes), None);
        (bytes[15], bytes[19]) = (112, 5);
        assert_eq!(name(&bytes), Some(&b"b.raw"[..]));
        bytes[19] = 9;
        assert_eq!(name(&bytes), None);
        bytes[8] = 0xFF;
        assert_eq!(name(&bytes), None);
    }

    #[test]
    fn numbers_at_the_end() {
        let bytes = [1, 2, 3, 4, 5];
        assert_eq!(be32(&bytes, 1), Some(0x0203_0405));
        assert_eq!((be32(&bytes, 2), be32(&bytes, usize::MAX)), (None, None));
        assert_eq!((be16(&bytes, 3), be16(&bytes, 4)), (Some(0x0405), None));
        assert_eq!((be64(&bytes, 0), be64(&bytes, usize::MAX - 7)), (None, None));
    }
}
