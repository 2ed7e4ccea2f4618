//! L1 and L2 entries, and the way from a guest cluster to its entry.

use crate::header::{be64, Disk, Header};

/// Bit 63: the place has no other owner. Set in every new entry.
pub(crate) const USED: u64 = 1 << 63;
const COMPRESSED: u64 = 1 << 62;

/// What the rules for entries need to know of an image.
#[derive(Clone, Copy)]
pub(crate) struct Rules {
    cluster_bits: u32,
    /// Clusters beside cluster 0.
    others: u64,
    /// Bit 0 where it may be set in an L2 entry.
    mark: u64,
}

/// A good L2 entry; place 0 is none.
#[derive(Clone, Copy)]
pub(crate) struct Mapping {
    pub place: usize,
    pub zeros: bool,
}

/// Where the way to a guest cluster ends.
pub(crate) enum Slot {
    /// The L1 entry at this place is 0.
    NoTable { l1_at: usize },
    /// The L2 entry at this place.
    Entry { at: usize, mapping: Mapping },
}

impl Rules {
    pub fn of(header: &Header) -> Rules {
        Rules {
            cluster_bits: header.cluster_bits,
            others: header.clusters as u64 - 1,
            mark: u64::from(header.version == 3),
        }
    }

    /// One less than the number of the cluster that a good entry without zero mark
    /// names. Without bit 63 and with the place rotated down, a good entry is the
    /// cluster's number, and any wrong bit makes it greater than that of every
    /// cluster.
    #[inline]
    pub fn other(&self, entry: u64) -> usize {
        (entry & !USED).rotate_right(self.cluster_bits).wrapping_sub(1) as usize
    }

    /// An L2 entry without a zero mark that is allowed.
    #[inline]
    pub fn unmarked(&self, entry: u64) -> u64 {
        entry & !self.mark
    }

    /// The cluster named by a good entry without zero mark, 0 for none; None
    /// if the entry is bad.
    #[inline]
    fn cluster(&self, entry: u64) -> Option<usize> {
        let other = self.other(entry);
        if (other as u64) < self.others {
            Some(other + 1)
        } else {
            (entry == 0).then_some(0)
        }
    }

    /// The cluster named by a good L2 entry, 0 for none; None if it is bad or
    /// compressed.
    #[inline]
    fn l2_cluster(&self, entry: u64) -> Option<usize> {
        self.cluster(self.unmarked(entry))
    }

    /// The place of a good L1 entry, 0 for none; None if the entry is bad.
    #[inline]
    pub fn l1(&self, entry: u64) -> Option<usize> {
        Some(self.cluster(entry)? << self.cluster_bits)
    }

    /// What a good L2 entry says, or the number for a bad one.
    #[inline]
    pub fn mapping(&self, entry: u64) -> Result<Mapping, u32> {
        let number: u32 = if entry & COMPRESSED != 0 { 13 } else { 12 };
        let cluster = self.l2_cluster(entry).ok_or(number)?;
        Ok(Mapping { place: cluster << self.cluster_bits, zeros: entry & 1 != 0 })
    }
}

impl Header<'_> {
    /// Index in the L1 table and in the L2 table.
    pub fn indices(&self, cluster: u64) -> (usize, usize) {
        let l2_bits = self.cluster_bits - 3;
        ((cluster >> l2_bits) as usize, cluster as usize & ((1 << l2_bits) - 1))
    }

    /// The entry of a guest cluster below the disk's end.
    pub fn slot(&self, image: &[u8], disk: Disk, cluster: u64) -> Result<Slot, u32> {
        self.way(image, disk, cluster, |_| Ok(()))
    }

    /// The same for one who stores: 22 where what an entry names may have other
    /// owners.
    pub fn own_slot(&self, image: &[u8], cluster: u64) -> Result<Slot, u32> {
        let own = |entry| if entry & USED == 0 { Err(22) } else { Ok(()) };
        self.way(image, self.disk, cluster, own)
    }

    /// `allow` is asked about each good entry with a place.
    #[inline]
    fn way(
        &self,
        image: &[u8],
        disk: Disk,
        cluster: u64,
        allow: impl Fn(u64) -> Result<(), u32>,
    ) -> Result<Slot, u32> {
        let rules = Rules::of(self);
        let (l1_index, l2_index) = self.indices(cluster);
        let l1_at = disk.l1_at + 8 * l1_index;
        let l1_entry = be64(image, l1_at);
        let table = rules.l1(l1_entry).ok_or(12u32)?;
        if table == 0 {
            return Ok(Slot::NoTable { l1_at });
        }
        allow(l1_entry)?;
        let at = table + 8 * l2_index;
        let entry = be64(image, at);
        let mapping = rules.mapping(entry)?;
        if mapping.place != 0 {
            allow(entry)?;
        }
        Ok(Slot::Entry { at, mapping })
    }
}
