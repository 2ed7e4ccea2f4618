//! Counts of 8, 16, 32 and 64 bits.

use crate::width::{Figure, Weighed, Width};

pub(crate) struct Bits8;
pub(crate) struct Bits16;
pub(crate) struct Bits32;
pub(crate) struct Bits64;

impl Width for Bits8 {
    const ORDER: u32 = 3;

    fn weigh(block: &[u8], figures: &[Figure]) -> Weighed {
        weigh_groups::<_, 128>(&block[..figures.len()], figures, |counts, figures| {
            let (mut above, mut below) = (0u16, 0u16);
            for (&count, &figure) in counts.iter().zip(figures) {
                let (count, figure) = (u16::from(count), u16::from_be_bytes(figure));
                above += u16::from(count > figure);
                below += u16::from(count < figure);
            }
            Weighed { above: above.into(), below: below != 0 }
        })
    }

    fn first_zero(block: &[u8], from: usize, to: usize) -> Option<usize> {
        first_zero::<_, 512>(&block[from..to], |&count| count == 0).map(|found| from + found)
    }

    fn set(block: &mut [u8], figures: &[Figure], units: u64) -> u64 {
        set::<1>(block, figures, units)
    }
}

impl Width for Bits16 {
    const ORDER: u32 = 4;

    fn weigh(block: &[u8], figures: &[Figure]) -> Weighed {
        // 16 bits are enough: no block has more than 2^14 counts of clusters,
        // C / 2 or N, whichever is less.
        let (mut above, mut below) = (0u16, 0u16);
        for (&count, &figure) in block.as_chunks().0.iter().zip(figures) {
            let (count, figure) = (u16::from_be_bytes(count), u16::from_be_bytes(figure));
            above += u16::from(count > figure);
            below += u16::from(count < figure);
        }
        Weighed { above: above.into(), below: below != 0 }
    }

    fn first_zero(block: &[u8], from: usize, to: usize) -> Option<usize> {
        let counts = &block.as_chunks().0[from..to];
        first_zero::<_, 256>(counts, |count| *count == [0, 0]).map(|found| from + found)
    }

    fn set(block: &mut [u8], figures: &[Figure], units: u64) -> u64 {
        set::<2>(block, figures, units)
    }
}

impl Width for Bits32 {
    const ORDER: u32 = 5;

    fn weigh(block: &[u8], figures: &[Figure]) -> Weighed {
        let counts = &block.as_chunks().0[..figures.len()];
        weigh_groups::<_, 64>(counts, figures, |counts, figures| {
            let (mut above, mut below) = (0u32, 0u32);
            for (&count, &figure) in counts.iter().zip(figures) {
                let (count, figure) = (u32::from_be_bytes(count), figure_32(figure));
                above += u32::from(count > figure);
                below += u32::from(count < figure);
            }
            Weighed { above: above.into(), below: below != 0 }
        })
    }

    fn first_zero(block: &[u8], from: usize, to: usize) -> Option<usize> {
        let counts = &block.as_chunks().0[from..to];
        first_zero::<_, 128>(counts, |count| *count == [0; 4]).map(|found| from + found)
    }

    fn set(block: &mut [u8], figures: &[Figure], units: u64) -> u64 {
        set::<4>(block, figures, units)
    }
}

/// Counts in halves, which are quicker to compare.
impl Width for Bits64 {
    const ORDER: u32 = 6;

    fn weigh(block: &[u8], figures: &[Figure]) -> Weighed {
        weigh_groups::<_, 32>(&halves(block)[..figures.len()], figures, |counts, figures| {
            let (mut above, mut below) = (0u32, 0u32);
            for (&[upper, lower], &figure) in counts.iter().zip(figures) {
                let (lower, figure) = (u32::from_be_bytes(lower), figure_32(figure));
                let small = u32::from(upper == [0; 4]);
                above += 1 - (small & u32::from(lower <= figure));
                below += small & u32::from(lower < figure);
            }
            Weighed { above: above.into(), below: below != 0 }
        })
    }

    fn first_zero(block: &[u8], from: usize, to: usize) -> Option<usize> {
        let zero = |&[upper, lower]: &[[u8; 4]; 2]| {
            u32::from_ne_bytes(upper) | u32::from_ne_bytes(lower) == 0
        };
        first_zero::<_, 64>(&halves(block)[from..to], zero).map(|found| from + found)
    }

    fn set(block: &mut [u8], figures: &[Figure], units: u64) -> u64 {
        set::<8>(block, figures, units)
    }
}

fn figure_32(figure: Figure) -> u32 {
    u16::from_be_bytes(figure).into()
}

fn halves(block: &[u8]) -> &[[[u8; 4]; 2]] {
    block.as_chunks().0.as_chunks().0
}

/// Weighs groups of `GROUP` counts, for which the compiler needs no loop, and
/// what is left.
#[inline]
fn weigh_groups<T, const GROUP: usize>(
    counts: &[T],
    figures: &[Figure],
    weigh: impl Fn(&[T], &[Figure]) -> Weighed,
) -> Weighed {
    let (figures, figures_left) = figures.as_chunks::<GROUP>();
    let (counts, counts_left) = counts.as_chunks::<GROUP>();
    let mut weighed = weigh(counts_left, figures_left);
    for (counts, figures) in counts.iter().zip(figures) {
        let group = weigh(counts, figures);
        weighed.above += group.above;
        weighed.below |= group.below;
    }
    weighed
}

/// Index of the first count that is 0. Groups are tested whole, by vectors.
#[inline]
fn first_zero<T, const GROUP: usize>(counts: &[T], zero: impl Fn(&T) -> bool) -> Option<usize> {
    let (groups, rest) = counts.as_chunks::<GROUP>();
    for (index, group) in groups.iter().enumerate() {
        if group.iter().fold(false, |any, count| any | zero(count)) {
            return group.iter().position(zero).map(|found| GROUP * index + found);
        }
    }
    Some(GROUP * groups.len() + rest.iter().position(zero)?)
}

fn set<const BYTES: usize>(block: &mut [u8], figures: &[Figure], units: u64) -> u64 {
    let mut done = 0;
    for (count, figure) in block.as_chunks_mut::<BYTES>().0.iter_mut().zip(figures) {
        let mut wanted = [0; BYTES];
        let own = BYTES.min(figure.len());
        wanted[BYTES - own..].copy_from_slice(&figure[figure.len() - own..]);
        if *count != wanted {
            if done == units {
                break;
            }
            *count = wanted;
            done += 1;
        }
    }
    done
}
