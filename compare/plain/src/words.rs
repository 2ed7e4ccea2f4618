//! The search for a count of 0 among counts of less than eight bits, by words
//! of eight bytes.

use crate::width::{Width, GROUP};

/// Counts in words.
pub(crate) trait Words: Width {
    /// Where a count of the word is 0, its lowest bit.
    fn zeros(word: u64) -> u64;

    /// Is a count of the group 0?
    #[inline]
    fn any_zero(group: &[u8; GROUP]) -> bool {
        let words = group.as_chunks().0.iter();
        words.fold(0, |any, &word| any | Self::zeros(u64::from_le_bytes(word))) != 0
    }
}

/// The first of counts `from` to `to` that is 0.
#[inline]
pub(crate) fn first_zero<W: Words>(block: &[u8], from: usize, to: usize) -> Option<usize> {
    let each = |from: usize, to: usize| (from..to).find(|&index| W::count(block, index) == 0);
    let in_word = 64 >> W::ORDER;
    let (start, end) = (from.next_multiple_of(in_word), to - to % in_word);
    if start >= end {
        return each(from, to);
    }
    let byte = |index: usize| (index << W::ORDER) / 8;
    let words = &block[byte(start)..byte(end)];
    each(from, start)
        .or_else(|| Some(start + (first_bit::<W>(words)? >> W::ORDER)))
        .or_else(|| each(end, to))
}

/// The lowest bit of the first count that is 0, group by group.
#[inline]
fn first_bit<W: Words>(bytes: &[u8]) -> Option<usize> {
    let zeros = |word: &[u8; 8]| W::zeros(u64::from_le_bytes(*word));
    let first = |words: &[[u8; 8]]| {
        let index = words.iter().position(|word| zeros(word) != 0)?;
        Some(64 * index + zeros(&words[index]).trailing_zeros() as usize)
    };
    let (groups, rest) = bytes.as_chunks::<GROUP>();
    for (index, group) in groups.iter().enumerate() {
        if W::any_zero(group) {
            return Some(8 * GROUP * index + first(group.as_chunks().0)?);
        }
    }
    Some(8 * GROUP * groups.len() + first(rest.as_chunks().0)?)
}
