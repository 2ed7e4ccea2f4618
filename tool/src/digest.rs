//! A number by which other bytes are told: of an image between two portions of a
//! check, and of the file that keeps one. It finds accidents, not forgers.

use crate::extents::advise;

const FIRST: u64 = 0x9E37_79B1_85EB_CA87;
const SECOND: u64 = 0xC2B2_AE3D_27D4_EB4F;

/// Of bytes that differ in one word of eight it is never the same, since each word
/// and what follows it are mixed in so that both can be found again.
pub fn digest(bytes: &[u8]) -> u64 {
    advise(bytes);
    let (stripes, rest) = bytes.as_chunks::<32>();
    // Four sums, which the processor makes side by side.
    let mut sums = [1, 2, 3, 4];
    stripes.iter().for_each(|stripe| add(&mut sums, stripe));
    let mut last = [0; 32];
    last[..rest.len()].copy_from_slice(rest);
    add(&mut sums, &last);
    sums.into_iter().fold(bytes.len() as u64, mixed)
}

fn add(sums: &mut [u64; 4], stripe: &[u8; 32]) {
    for (sum, word) in sums.iter_mut().zip(stripe.as_chunks().0) {
        *sum = mixed(*sum, u64::from_le_bytes(*word));
    }
}

fn mixed(sum: u64, word: u64) -> u64 {
    sum.wrapping_add(word.wrapping_mul(SECOND)).rotate_left(31).wrapping_mul(FIRST)
}

#[cfg(test)]
mod tests {
    use std::collections::HashSet;

    use super::*;

    /// Files that are kept have it in them, so it must stay as it is.
    #[test]
    fn it_stays() {
        assert_eq!(digest(b""), 0x8C5B_DEE1_48C9_3784);
        assert_eq!(digest(b"a"), 0xCCB5_215B_F5CE_ECF7);
        assert_eq!(digest(&[0x5A; 100]), 0xA7A4_6EDC_9B4E_E42D);
    }

    #[test]
    fn every_bit_counts() {
        for length in [1, 7, 8, 31, 32, 33, 64, 100] {
            let bytes: Vec<u8> = (0..length).map(|k: u32| (k * 7) as u8).collect();
            let mut seen = HashSet::from([digest(&bytes)]);
            for bit in 0..8 * bytes.len() {
                let mut other = bytes.clone();
                other[bit / 8] ^= 1 << (bit % 8);
                assert!(seen.insert(digest(&other)), "bit {bit} of {length} bytes");
            }
        }
    }

    #[test]
    fn lengths_and_places_count() {
        let zeros: HashSet<u64> = (0..200).map(|length| digest(&vec![0; length])).collect();
        assert_eq!(zeros.len(), 200);
        let one = |at: usize| std::array::from_fn::<u8, 200, _>(|k| (k == at).into());
        let places: HashSet<u64> = (0..200).map(|at| digest(&one(at))).collect();
        assert_eq!(places.len(), 200);
    }
}
