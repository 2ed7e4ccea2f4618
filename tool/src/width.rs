//! Stored counts among their bytes, at the width that refcount_order gives.
//!
//! Counts of whole bytes are big-endian. Of narrower ones a byte holds several,
//! the lowest cluster's in its least significant bits.

use std::ops::Range;

/// The largest refcount_order, for counts of 64 bits.
pub const MAX_ORDER: u32 = 6;

#[derive(Clone, Copy, Debug, PartialEq)]
pub struct Width {
    order: u32,
}

impl Width {
    pub fn of(order: u32) -> Option<Width> {
        (order <= MAX_ORDER).then_some(Width { order })
    }

    /// Bits of a count.
    pub fn bits(self) -> u64 {
        1 << self.order
    }

    /// Counts in so many bytes.
    pub fn counts_in(self, bytes: usize) -> usize {
        (8 * bytes) >> self.order
    }

    /// The bytes of so many counts; the last may have others too.
    pub fn bytes_of(self, counts: usize) -> usize {
        (counts << self.order).div_ceil(8)
    }

    /// The bytes in which the count of this index stands. They are as many as
    /// they are aligned to, so that they lie in one sector.
    pub fn span(self, index: usize) -> Range<usize> {
        let start = (index << self.order) / 8;
        start..start + self.bytes_of(1)
    }

    pub fn count(self, bytes: &[u8], index: usize) -> Option<u64> {
        let span = bytes.get(self.span(index))?;
        let number = span.iter().fold(0, |number, &byte| number << 8 | u64::from(byte));
        let shift = (index << self.order) % 8;
        Some(number >> shift & (u64::MAX >> (64 - self.bits())))
    }
}

#[cfg(test)]
mod tests {
    use super::*;

    fn width(bits: u64) -> Width {
        (0..=MAX_ORDER).filter_map(Width::of).find(|width| width.bits() == bits).unwrap()
    }

    #[test]
    fn widths() {
        let bits: Vec<u64> = (0..=9).filter_map(Width::of).map(Width::bits).collect();
        assert_eq!(bits, [1, 2, 4, 8, 16, 32, 64]);
        assert_eq!(Width::of(u32::MAX), None);
        let per_block = [1, 16, 64].map(|bits| width(bits).counts_in(512));
        assert_eq!(per_block, [4096, 256, 64]);
    }

    #[test]
    fn counts_in_their_bytes() {
        let bytes = [0b1011_0001, 0x2D, 3, 4, 5, 6, 7, 0xFF, 9];
        let counts = |bits: u64, range: Range<usize>| -> Vec<u64> {
            range.map(|index| width(bits).count(&bytes, index).unwrap()).collect()
        };
        assert_eq!(counts(1, 0..9), [1, 0, 0, 0, 1, 1, 0, 1, 1]);
        assert_eq!(counts(2, 0..6), [1, 0, 3, 2, 1, 3]);
        assert_eq!(counts(4, 0..4), [1, 11, 13, 2]);
        assert_eq!(counts(8, 0..2), [0xB1, 0x2D]);
        assert_eq!(counts(16, 0..2), [0xB12D, 0x0304]);
        assert_eq!(counts(32, 1..2), [0x0506_07FF]);
        assert_eq!(counts(64, 0..1), [0xB12D_0304_0506_07FF]);
        assert_eq!((width(64).count(&bytes, 1), width(1).count(&bytes, 72)), (None, None));
    }

    #[test]
    fn the_bytes_of_counts() {
        assert_eq!([7, 8, 9].map(|index| width(1).span(index)), [0..1, 1..2, 1..2]);
        assert_eq!((width(4).span(3), width(16).span(3), width(64).span(3)), (1..2, 6..8, 24..32));
        assert_eq!([0, 1, 8, 9].map(|counts| width(1).bytes_of(counts)), [0, 1, 1, 2]);
        assert_eq!([1, 2, 3].map(|counts| width(4).bytes_of(counts)), [1, 1, 2]);
        assert_eq!(width(64).bytes_of(3), 24);
    }
}
