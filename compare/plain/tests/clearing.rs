//! The unit that clears the autoclear bits, in front of every list that is not
//! empty.
#![forbid(unsafe_code)]

use made::clearing;
use made::image::{Made, AUTOCLEAR, USED};
use made::pair::Pair;
use made::plan::bench_image;
use plain::{Outcome, Plain, Verdict, ALONE};

const ALL: u64 = u64::MAX;
const BITS: u64 = 0x8000_0000_0000_0001;

fn with_bits() -> Made {
    let mut made = bench_image();
    made.put64(AUTOCLEAR, BITS);
    made
}

/// What differs, as places.
fn changed(before: &[u8], after: &[u8]) -> Vec<usize> {
    (0..before.len()).filter(|&at| before[at] != after[at]).collect()
}

#[test]
fn figures() {
    let [higher, kept] = clearing::figures(&Plain);
    assert!(higher > 150 && kept > 150, "{higher} {kept}");
}

#[test]
fn version_2() {
    clearing::version_2(&Plain);
}

#[test]
fn overlapping() {
    clearing::compare_overlapping(&mut Pair::new(&Plain, &Plain));
}

/// Allowance 1 clears the bits and nothing more; 0 clears none.
#[test]
fn first_unit() {
    let made = with_bits();
    let cut = |allowance| {
        let mut image = made.bytes.clone();
        let outcome = ALONE.write(&mut image, 33_285, b"hello", allowance);
        (outcome, changed(&made.bytes, &image))
    };
    assert_eq!(cut(0), (Outcome::Stopped(0), vec![]));
    assert_eq!(cut(1), (Outcome::Stopped(1), vec![88, 95]));
    // Then the table's count.
    assert_eq!(cut(2), (Outcome::Stopped(2), vec![88, 95, 1024 + 9]));
    assert_eq!(cut(1028).0, Outcome::Stopped(1028));
    assert_eq!(cut(1029).0, Outcome::Finished(1029));
    assert_eq!(cut(ALL).0, Outcome::Finished(1029));
}

/// The bits are cleared once: the next call's figure is the paper's.
#[test]
fn figures_one_by_one() {
    let mut image = with_bits().bytes;
    assert_eq!(ALONE.write(&mut image, 33_285, b"hello", ALL), Outcome::Finished(1029));
    assert_eq!(ALONE.write(&mut image, 33_280, b"abc", ALL), Outcome::Finished(3));
    let again = |image: &[u8]| {
        let mut image = image.to_vec();
        image[AUTOCLEAR + 3] = 7;
        image
    };
    assert_eq!(ALONE.write(&mut again(&image), 33_280, b"abc", ALL), Outcome::Finished(4));
    assert_eq!(ALONE.write(&mut again(&image), 32_768, b"x", ALL), Outcome::Finished(515));
    assert_eq!(ALONE.discard(&mut again(&image), 65, ALL), Outcome::Finished(3));
    let mut leaking = again(&image);
    leaking[1024 + 2 * 9 + 1] = 1;
    assert_eq!(ALONE.repair(&mut leaking.clone(), &mut [0; 32], 1), Outcome::Stopped(1));
    assert_eq!(ALONE.repair(&mut leaking, &mut [0; 32], ALL), Outcome::Finished(2));
    assert_eq!(leaking, image);
    assert_eq!(ALONE.check(&leaking, &mut [0; 32]), Verdict::Sound);
}

/// An empty list and a refusal leave the bits.
#[test]
fn nothing_to_store() {
    let made = with_bits();
    let mut image = made.bytes.clone();
    assert_eq!(ALONE.write(&mut image, 0, &[], ALL), Outcome::Finished(0));
    assert_eq!(ALONE.discard(&mut image, 127, ALL), Outcome::Finished(0));
    assert_eq!(ALONE.repair(&mut image, &mut [0; 32], ALL), Outcome::Finished(0));
    assert_eq!(ALONE.write(&mut image, 510, &[1; 3], ALL), Outcome::Refused(11));
    assert_eq!(ALONE.discard(&mut image, 128, ALL), Outcome::Refused(11));
    assert_eq!(ALONE.repair(&mut image, &mut [0; 31], ALL), Outcome::Refused(15));
    assert_eq!(image, made.bytes);
    image[1024 + 3] = 0;
    let damaged = image.clone();
    assert_eq!(ALONE.repair(&mut image, &mut [0; 32], ALL), Outcome::Refused(17));
    assert_eq!(image, damaged);
}

/// The L1 table lies on the header, and the bits are the entry on the way: it
/// is gone after the first unit, and the list goes by it all the same.
#[test]
fn entry_in_the_field() {
    let mut made = bench_image();
    let table = made.add_table(1).unwrap();
    made.put32(36, 12);
    made.put64(40, 0);
    made.put64(24, 12 * 32_768);
    made.put64(AUTOCLEAR, USED | table as u64);
    let guest = 11 * 64 + 5;
    let mut image = made.bytes.clone();
    let offset = guest * 512 + 9;
    assert_eq!(ALONE.write(&mut image, offset, b"abc", 1), Outcome::Stopped(1));
    assert_eq!(image[AUTOCLEAR..AUTOCLEAR + 8], [0; 8]);
    let mut image = made.bytes.clone();
    assert_eq!(ALONE.write(&mut image, offset, b"abc", ALL), Outcome::Finished(515));
    assert_eq!(image[AUTOCLEAR..AUTOCLEAR + 8], [0; 8]);
    assert_eq!(image[table + 40..table + 48], (USED | 5 << 9).to_be_bytes());
    assert_eq!(&image[5 * 512 + 9..5 * 512 + 12], b"abc");
    // Where the entry is 0 there are no bits, and storing it sets some, which
    // the next call clears.
    made.put64(AUTOCLEAR, 0);
    let mut image = made.bytes.clone();
    assert_eq!(ALONE.write(&mut image, offset, b"abc", ALL), Outcome::Finished(1028));
    assert_eq!(image[AUTOCLEAR..AUTOCLEAR + 8], (USED | 5 << 9).to_be_bytes());
    assert_eq!(ALONE.write(&mut image, offset, b"abc", ALL), Outcome::Finished(4));
    assert_eq!(image[AUTOCLEAR..AUTOCLEAR + 8], [0; 8]);
}

/// Cluster 0 is free: cleared, filled as the L2 table, and its entry 11 stored
/// where the bits were.
#[test]
fn table_on_the_field() {
    let mut made = with_bits();
    made.set_count(0, 0);
    let mut image = made.bytes.clone();
    assert_eq!(ALONE.write(&mut image, 11 * 512, b"abc", ALL), Outcome::Finished(1029));
    assert_eq!(image[AUTOCLEAR..AUTOCLEAR + 8], (USED | 4 << 9).to_be_bytes());
    assert_eq!(image[..AUTOCLEAR], [0; AUTOCLEAR]);
    assert_eq!(&image[4 * 512..4 * 512 + 3], b"abc");
}
