//! Calls that are planned one after another in memory and stored together.

use crate::Calls;

/// Phases of a batch, with a flush between two: 0 clears the autoclear field, 1 has
/// counts that rise, bytes, and entries in bytes that are new in the batch, 2 has the
/// other entries, 3 counts that fall.
pub const PHASES: u64 = 4;

/// What planning one more call into a batch answers.
#[derive(Clone, Copy, Debug, PartialEq, Eq)]
pub enum Planned {
    /// As the call would be.
    Refused(u32),
    /// The batch has to be stored first: there is no room for the call's rows, or a
    /// byte would be stored in phase 1 and in phase 3.
    Ends,
    /// So many rows are held now.
    Rows(usize),
}

/// What one more call adds to a batch. A batch is the first `held` rows, of which each
/// is a [`Step`](crate::Step) with its phase for its epoch; the call's rows are put after
/// them. The image is not changed: whoever plans makes the call next, in memory.
pub trait Batches: Calls {
    fn batch_write(
        &self,
        image: &[u8],
        backing: &[u8],
        offset: u64,
        len: u64,
        rows: &mut [u64],
        held: usize,
    ) -> Planned;
    fn batch_discard(
        &self,
        image: &[u8],
        backing: &[u8],
        cluster: u64,
        rows: &mut [u64],
        held: usize,
    ) -> Planned;
    fn batch_repair(
        &self,
        image: &[u8],
        backing: &[u8],
        scratch: &mut [u8],
        rows: &mut [u64],
        held: usize,
    ) -> Planned;
}

/// The trait implemented for a unit struct by the free functions of the crate.
#[macro_export]
macro_rules! batches {
    ($side:ident) => {
        impl $crate::Batches for $side {
            fn batch_write(
                &self,
                image: &[u8],
                backing: &[u8],
                offset: u64,
                len: u64,
                rows: &mut [u64],
                held: usize,
            ) -> $crate::Planned {
                batch_write(image, backing, offset, len, rows, held)
            }
            fn batch_discard(
                &self,
                image: &[u8],
                backing: &[u8],
                cluster: u64,
                rows: &mut [u64],
                held: usize,
            ) -> $crate::Planned {
                batch_discard(image, backing, cluster, rows, held)
            }
            fn batch_repair(
                &self,
                image: &[u8],
                backing: &[u8],
                scratch: &mut [u8],
                rows: &mut [u64],
                held: usize,
            ) -> $crate::Planned {
                batch_repair(image, backing, scratch, rows, held)
            }
        }
    };
}
