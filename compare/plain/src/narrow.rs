//! Counts of 1, 2 and 4 bits, several to a byte.

use crate::width::{Figure, Weighed, Width, GROUP};
use crate::words::{first_zero, Words};

pub(crate) struct Bits1;
pub(crate) struct Bits2;
pub(crate) struct Bits4;

/// Counts of one bit are weighed 64 at a time, as words.
impl Width for Bits1 {
    const ORDER: u32 = 0;

    fn weigh(block: &[u8], figures: &[Figure]) -> Weighed {
        let (groups, rest) = figures.as_chunks::<64>();
        let mut weighed = Self::weigh_each(block, 64 * groups.len(), rest);
        let mut below = 0;
        for (counts, figures) in block.as_chunks().0.iter().zip(groups) {
            // Bit k of byte j: the figure or count 8k + j.
            let bits = lowered(figures, 1);
            let bits = bits.as_chunks().0.iter().rev();
            let bits = bits.fold(0, |word, &eight| 2 * word + u64::from_le_bytes(eight));
            let counts = transposed(u64::from_le_bytes(*counts));
            weighed.above += u64::from((counts & !bits).count_ones());
            below |= bits & !counts;
            weighed.below |=
                figures.iter().fold(0, |or, &figure| or | u16::from_be_bytes(figure)) > 1;
        }
        weighed.below |= below != 0;
        weighed
    }

    fn first_zero(block: &[u8], from: usize, to: usize) -> Option<usize> {
        first_zero::<Self>(block, from, to)
    }

    fn set(block: &mut [u8], figures: &[Figure], units: u64) -> u64 {
        set::<1>(block, figures, units)
    }
}

/// Bit k of byte j becomes bit j of byte k: halves, quarters, then single bits
/// of the square change places.
fn transposed(word: u64) -> u64 {
    let swapped = |word: u64, by: u32, bits: u64| {
        let differ = (word ^ word >> by) & bits;
        word ^ differ ^ differ << by
    };
    let word = swapped(word, 28, 0x0000_0000_F0F0_F0F0);
    let word = swapped(word, 14, 0x0000_CCCC_0000_CCCC);
    swapped(word, 7, 0x00AA_00AA_00AA_00AA)
}

/// The figures as bytes, with `most` for a greater one.
#[inline]
fn lowered<const LEN: usize>(figures: &[Figure; LEN], most: u16) -> [u8; LEN] {
    let mut bytes = [0; LEN];
    for (byte, &figure) in bytes.iter_mut().zip(figures) {
        *byte = u16::from_be_bytes(figure).min(most) as u8;
    }
    bytes
}

/// Bytes of counts that are weighed at once. The sums of a group are kept in
/// the bytes of a lane, 255 at most.
const WEIGHED: usize = 128;
/// A figure that is above every count of less than eight bits.
const MANY: u16 = 127;

/// Weighs counts by spreading a byte of them out to a lane that has a byte for
/// each, as the figures have.
macro_rules! weighed_by_lanes {
    ($name:ident, $order:literal, $lane:ty, $spread:expr) => {
        impl $name {
            /// The counts above their figures, and bit 7 set where one is below.
            /// Both sides are so small that no byte of a sum runs over: a
            /// difference above 0 and 127 have bit 7 set.
            #[inline]
            fn weigh_lanes(
                counts: &[u8; WEIGHED],
                figures: &[Figure; WEIGHED * (8 >> $order)],
            ) -> ($lane, $lane) {
                const ONES: $lane = <$lane>::MAX / 255;
                let (mut above, mut below) = (0, 0);
                let figures = lowered(figures, MANY);
                for (&byte, &figures) in counts.iter().zip(figures.as_chunks().0) {
                    let counts: $lane = $spread(<$lane>::from(byte));
                    let figures = <$lane>::from_le_bytes(figures);
                    above += (counts + (127 * ONES - figures)) >> 7 & ONES;
                    below |= figures + (127 * ONES - counts);
                }
                (above, below & ONES << 7)
            }
        }

        impl Width for $name {
            const ORDER: u32 = $order;

            fn weigh(block: &[u8], figures: &[Figure]) -> Weighed {
                let (groups, rest) = figures.as_chunks();
                let mut weighed = Self::weigh_each(block, figures.len() - rest.len(), rest);
                for (counts, figures) in block.as_chunks().0.iter().zip(groups) {
                    let (above, below) = Self::weigh_lanes(counts, figures);
                    weighed.above += above.to_le_bytes().map(u64::from).iter().sum::<u64>();
                    weighed.below |= below != 0;
                }
                weighed
            }

            fn first_zero(block: &[u8], from: usize, to: usize) -> Option<usize> {
                first_zero::<Self>(block, from, to)
            }

            fn set(block: &mut [u8], figures: &[Figure], units: u64) -> u64 {
                set::<{ 1 << $order }>(block, figures, units)
            }
        }
    };
}

weighed_by_lanes!(Bits2, 1, u32, |byte: u32| {
    let halves = (byte | byte << 12) & 0x000F_000F;
    (halves | halves << 6) & 0x0303_0303
});
weighed_by_lanes!(Bits4, 2, u16, |byte: u16| (byte | byte << 4) & 0x0F0F);

impl Words for Bits1 {
    fn zeros(word: u64) -> u64 {
        !word
    }
}

impl Words for Bits2 {
    fn zeros(word: u64) -> u64 {
        !(word | word >> 1) & 0x5555_5555_5555_5555
    }
}

impl Words for Bits4 {
    fn zeros(word: u64) -> u64 {
        let pairs = word | word >> 1;
        !(pairs | pairs >> 2) & 0x1111_1111_1111_1111
    }

    /// By the least count of either half of the bytes, which takes fewer steps.
    #[inline]
    fn any_zero(group: &[u8; GROUP]) -> bool {
        let least =
            |(lower, upper): (u8, u8), byte: &u8| (lower.min(byte & 0x0F), upper.min(byte & 0xF0));
        let (lower, upper) = group.iter().fold((u8::MAX, u8::MAX), least);
        lower == 0 || upper == 0
    }
}

fn set<const BITS: usize>(block: &mut [u8], figures: &[Figure], units: u64) -> u64 {
    let mut done = 0;
    for (byte, figures) in block.iter_mut().zip(figures.chunks(8 / BITS)) {
        for (index, &figure) in figures.iter().enumerate() {
            let (shift, ones) = (BITS * index, (1 << BITS) - 1);
            let differ = *byte >> shift & ones ^ figure[1];
            if differ != 0 {
                if done == units {
                    return done;
                }
                *byte ^= differ << shift;
                done += 1;
            }
        }
    }
    done
}
