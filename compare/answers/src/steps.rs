//! What a storing call is going to change, for a store that runs it in memory
//! and brings the bytes to a file.

use std::ops::Range;

/// What the header of an accepted image gives.
#[derive(Clone, Copy, Debug, PartialEq, Eq)]
pub struct Geometry {
    /// A cluster has 2^cluster_bits bytes.
    pub cluster_bits: u32,
    /// The disk's length in bytes.
    pub size: u64,
    /// Clusters of the image.
    pub clusters: usize,
}

impl Geometry {
    /// Bytes of a cluster.
    pub fn cluster(&self) -> usize {
        1 << self.cluster_bits
    }

    /// Bytes of the scratch that a check or a repair needs.
    pub fn scratch(&self) -> usize {
        2 * self.clusters
    }
}

/// Bytes of the image that a call changes together: one count, one entry, the
/// autoclear field, or a fill.
///
/// A call's steps are its list of units, in order. All steps of one epoch may be
/// stored in any order, and a flush has to stand between two epochs. On an image
/// that is sound or leaks no byte is in steps of two epochs, so what is stored
/// may be taken from the image as the finished call leaves it.
#[derive(Clone, Copy, Debug, PartialEq, Eq)]
pub struct Step {
    /// Where the bytes begin.
    pub at: usize,
    pub len: usize,
    /// Units of the call's list: as many as bytes for a fill, else one.
    pub units: u64,
    /// 0 clears the autoclear field, 1 makes ready, 2 links, shows or frees what
    /// was made ready.
    pub epoch: u64,
}

/// Numbers of a step's row.
pub const STEP: usize = 4;

impl Step {
    /// A step as a row of four numbers.
    pub fn row(self) -> [u64; STEP] {
        [self.at as u64, self.len as u64, self.units, self.epoch]
    }

    pub fn of_row([at, len, units, epoch]: [u64; STEP]) -> Step {
        Step { at: at as usize, len: len as usize, units, epoch }
    }

    /// The steps of listed rows.
    pub fn of_rows(rows: &[u64]) -> impl Iterator<Item = Step> + '_ {
        rows.as_chunks().0.iter().copied().map(Step::of_row)
    }

    /// The bytes in the image.
    pub fn range(&self) -> Range<usize> {
        self.at..self.at + self.len
    }

    /// The first units of this step: of a fill so many bytes.
    pub fn first(self, units: u64) -> Step {
        match units < self.units {
            true => Step { len: units as usize, units, ..self },
            false => self,
        }
    }
}
