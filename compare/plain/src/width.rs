//! What is done with many stored counts at a time, for each of the widths.

use crate::cell::Cell;
use crate::narrow::{Bits1, Bits2, Bits4};
use crate::wide::{Bits16, Bits32, Bits64, Bits8};

/// A cluster's references in the scratch, big-endian.
pub(crate) type Figure = [u8; 2];

/// Counts beside their figures: how many are above, and whether any is below.
#[derive(Clone, Copy, Default)]
pub(crate) struct Weighed {
    pub above: u64,
    pub below: bool,
}

/// Bytes of counts that are searched at once.
pub(crate) const GROUP: usize = 512;

/// The counts of one width, in a refcount block.
pub(crate) trait Width {
    const ORDER: u32;

    /// Weighs the block's first counts against the figures.
    fn weigh(block: &[u8], figures: &[Figure]) -> Weighed;

    /// The first of counts `from` to `to` that is 0.
    fn first_zero(block: &[u8], from: usize, to: usize) -> Option<usize>;

    /// Sets the block's first counts to the figures, which are not above them,
    /// until `units` of them were not equal; how many were not.
    fn set(block: &mut [u8], figures: &[Figure], units: u64) -> u64;

    #[inline]
    fn count(block: &[u8], index: usize) -> u64 {
        Cell::of(Self::ORDER, 0, index).load(block)
    }

    /// The same counts one by one, for what is left of a block.
    fn weigh_each(block: &[u8], first: usize, figures: &[Figure]) -> Weighed {
        let mut weighed = Weighed::default();
        for (index, &figure) in figures.iter().enumerate() {
            let (count, figure) = (Self::count(block, first + index), u16::from_be_bytes(figure));
            weighed.above += u64::from(count > figure.into());
            weighed.below |= count < figure.into();
        }
        weighed
    }
}

/// Work to be done with the width of an image's counts.
pub(crate) trait ForWidth {
    type Answer;
    fn with<W: Width>(self) -> Self::Answer;
}

/// Does the work with the counts' width, which is chosen once.
pub(crate) fn for_width<F: ForWidth>(order: u32, work: F) -> F::Answer {
    match order {
        0 => work.with::<Bits1>(),
        1 => work.with::<Bits2>(),
        2 => work.with::<Bits4>(),
        3 => work.with::<Bits8>(),
        4 => work.with::<Bits16>(),
        5 => work.with::<Bits32>(),
        _ => work.with::<Bits64>(),
    }
}
