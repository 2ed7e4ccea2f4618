//! Counts of each width: numbers, units and verdicts.
#![forbid(unsafe_code)]

use made::full::{self, Layout, Shape};
use made::image::{Made, USED};
use made::plan::{bench_image, bench_image_of, MAX_ORDER};
use made::widths;
use plain::{difference, Outcome, Plain, Verdict, ALONE};

const ALL: u64 = u64::MAX;
/// Where the bench image has its block.
const BLOCK: usize = 1024;

fn verdict(made: &Made) -> Verdict {
    ALONE.check(&made.bytes, &mut vec![7; made.scratch()])
}

#[test]
fn numbers() {
    for order in 0..=MAX_ORDER {
        assert_eq!(verdict(&bench_image_of(order)), Verdict::Sound);
    }
    let mut made = bench_image();
    for order in [7, 8, 64, 0x0400_0000, 1 << 31, u32::MAX] {
        made.put32(96, order);
        assert_eq!(verdict(&made), Verdict::Refused(6));
    }
    // Before a feature bit, which is 7.
    made.put64(72, 1);
    assert_eq!(verdict(&made), Verdict::Refused(6));
    // In version 2 neither is looked at, and counts have 16 bits.
    made.put32(4, 2);
    for order in [0, 3, 6, 7, u32::MAX] {
        made.put32(96, order);
        assert_eq!(verdict(&made), Verdict::Sound);
    }
}

/// The block's first bytes after the bench image's first write was cut: before
/// and after the table's count, and after the data's count.
#[test]
fn two_counts() {
    let cut = |order: u32, allowance: u64| {
        let mut image = bench_image_of(order).bytes;
        let outcome = ALONE.write(&mut image, 33_285, b"hello", allowance);
        let units = allowance.min(1028);
        let stopped = allowance < 1028;
        let wanted = if stopped { Outcome::Stopped(units) } else { Outcome::Finished(units) };
        assert_eq!(outcome, wanted);
        image
    };
    for (order, before, between, after) in [
        (0, [0x0F, 0, 0], [0x1F, 0, 0], [0x3F, 0, 0]),
        (1, [0x55, 0, 0], [0x55, 0x01, 0], [0x55, 0x05, 0]),
        (2, [0x11, 0x11, 0], [0x11, 0x11, 0x01], [0x11, 0x11, 0x11]),
    ] {
        for (allowance, bytes) in
            [(0, before), (1, between), (513, between), (514, after), (ALL, after)]
        {
            assert_eq!(cut(order, allowance)[BLOCK..BLOCK + 3], bytes, "{order} at {allowance}");
        }
    }
    for (order, width) in [(3, 1), (4, 2), (5, 4), (6, 8)] {
        let last = |cluster: usize| BLOCK + width * (cluster + 1) - 1;
        for (allowance, counts) in [(0, 4), (1, 5), (513, 5), (514, 6), (ALL, 6)] {
            let image = cut(order, allowance);
            let mut block = [0; 512];
            (0..counts).for_each(|cluster| block[last(cluster) - BLOCK] = 1);
            assert_eq!(image[BLOCK..BLOCK + 512], block, "{order} at {allowance}");
        }
    }
}

/// The block is free and is filled as the L2 table: the second count goes into
/// a byte whose other counts are gone.
#[test]
fn neighbours_as_they_stand() {
    for (order, first, at, byte) in [(0, 0x0F, 0, 0x10), (1, 0x55, 1, 0x01), (2, 0x11, 2, 0x01)] {
        let mut made = bench_image_of(order);
        made.set_count(2, 0);
        // A neighbour of cluster 4, in its byte.
        made.set_count(5, 1);
        let mut image = made.bytes.clone();
        assert_eq!(ALONE.write(&mut image, 5 * 512, b"x", 1), Outcome::Stopped(1));
        let kept = if order == 0 { 0x20 } else { 0 };
        assert_eq!(image[BLOCK], first | kept, "order {order}");
        assert_eq!(ALONE.write(&mut made.bytes, 5 * 512, b"x", ALL), Outcome::Finished(1028));
        let mut block = [0; 512];
        block[at] = byte;
        block[40..48].copy_from_slice(&(USED | 4 << 9).to_be_bytes());
        assert_eq!(made.bytes[BLOCK..BLOCK + 512], block, "order {order}");
    }
}

/// A discard whose L2 entry lies on the count's byte: the entry is cleared
/// first, so the neighbour's bits are gone when the count is stored.
#[test]
fn entry_on_the_counts() {
    let mut made = bench_image_of(2);
    made.put64(made.l1_at, USED | BLOCK as u64);
    // Byte 6 is 0x1A: the counts 10 and 1 of clusters 12 and 13.
    made.put64(BLOCK, USED | 13 << 9);
    assert_eq!((made.count(12), made.count(13)), (10, 1));
    assert_eq!(ALONE.discard(&mut made.bytes, 0, ALL), Outcome::Finished(2));
    assert_eq!(made.bytes[BLOCK..BLOCK + 8], [0; 8]);
}

#[test]
fn discards() {
    for order in 0..=MAX_ORDER {
        let mut made = bench_image_of(order);
        assert_eq!(ALONE.write(&mut made.bytes, 0, b"x", ALL), Outcome::Finished(1028));
        (6..16).for_each(|cluster| made.set_count(cluster, made.most()));
        for count in [made.most(), 1] {
            let mut made = made.clone();
            made.set_count(5, count);
            assert_eq!(ALONE.discard(&mut made.bytes, 0, ALL), Outcome::Finished(2));
            let counts: Vec<u64> = (0..16).map(|cluster| made.count(cluster)).collect();
            assert_eq!(counts[..5], [1; 5]);
            assert_eq!(counts[5], count - 1);
            assert!(counts[6..].iter().all(|&count| count == made.most()));
        }
        made.set_count(5, 0);
        assert_eq!(ALONE.discard(&mut made.bytes, 0, ALL), Outcome::Refused(16));
    }
}

/// Leaks of clusters with and without a reference, up to the greatest count.
#[test]
fn leaks() {
    for order in 0..=MAX_ORDER {
        let sound = bench_image_of(order);
        let most = sound.most();
        let counts = [1, 2, 255, 256, 65_535, 65_536, 1 << 24, 1 << 31, 1 << 32, 1 << 56, most];
        for (cluster, count) in (0..16).flat_map(|cluster| counts.map(|count| (cluster, count))) {
            let references = u64::from(cluster < 4);
            if count > most || count == references {
                continue;
            }
            let mut made = sound.clone();
            made.set_count(cluster, count);
            assert_eq!(verdict(&made), Verdict::Leaks(1), "{count} of {cluster}");
            let outcome = ALONE.repair(&mut made.bytes, &mut [7; 32], ALL);
            assert_eq!(outcome, Outcome::Finished(1));
            assert!(made.bytes == sound.bytes);
        }
    }
}

/// 8,192 clusters, all but the first few of them free.
fn long(order: u32) -> Made {
    let shape = Shape { length: 4 << 20, cluster_bits: 9, order };
    full::empty_of(shape, 1, Layout::Rising)
}

#[test]
fn many_leaks() {
    for order in 0..=MAX_ORDER {
        let mut made = long(order);
        let spare = made.spare.clone();
        for count in [1, made.most()] {
            spare.iter().for_each(|&cluster| made.set_count(cluster, count));
            assert_eq!(verdict(&made), Verdict::Leaks(spare.len() as u64));
        }
        let last = made.clusters() - 1;
        made.set_count(0, 0);
        assert_eq!(verdict(&made), Verdict::Short(0));
        made.set_count(0, 1);
        made.set_count(last, 0);
        assert_eq!(verdict(&made), Verdict::Leaks(spare.len() as u64 - 1));
    }
}

/// Any two clusters free: these are found, the lower first. One is not enough.
#[test]
fn two_free() {
    for order in 0..=MAX_ORDER {
        let mut made = long(order);
        let (most, spare) = (made.most(), made.spare.clone());
        spare.iter().for_each(|&cluster| made.set_count(cluster, most));
        for (k, &free) in spare.iter().enumerate().step_by(13) {
            let other = spare[(k + 1 + k % 5 * 200) % spare.len()];
            made.set_count(free, 0);
            assert_eq!(ALONE.write(&mut made.bytes, 0, b"x", ALL), Outcome::Refused(14));
            made.set_count(other, 0);
            assert_eq!(ALONE.write(&mut made.bytes, 0, b"x", 514), Outcome::Stopped(514));
            let table = made.bytes[free.min(other) << 9..][..512].iter().all(|&byte| byte == 0);
            assert!(table && made.count(free) == 1 && made.count(other) == 1);
            [free, other].iter().for_each(|&cluster| made.set_count(cluster, most));
        }
    }
}

#[test]
fn short_and_shared() {
    for order in 0..=MAX_ORDER {
        let mut made = bench_image_of(order);
        made.set_count(9, 1);
        made.set_count(3, 0);
        assert_eq!(verdict(&made), Verdict::Short(3));
        made.set_count(1, 0);
        assert_eq!(verdict(&made), Verdict::Short(1));
        assert_eq!(ALONE.repair(&mut made.bytes, &mut [7; 32], ALL), Outcome::Refused(17));
        // An L1 entry that names the L1 table, and is its own L2 entry: three
        // references, whatever the count.
        made.put64(made.l1_at, USED | made.l1_at as u64);
        made.set_count(3, made.most());
        let mut scratch = [7; 32];
        assert_eq!(ALONE.check(&made.bytes, &mut scratch), Verdict::Shared(3));
        assert_eq!(scratch[6..8], [0, 3]);
    }
}

#[test]
fn differences() {
    for (stored, figure, wanted) in [
        (0, 0, 0),
        (0, 2, -2),
        (0, 65_535, -65_535),
        (65_534, 65_535, -1),
        (65_535, 65_535, 0),
        (131_070, 65_535, 65_535),
        (131_071, 65_535, 65_535),
        (1, 2, -1),
        (65_535, 0, 65_535),
        (65_535, 1, 65_534),
        (65_536, 0, 65_535),
        (65_536, 1, 65_535),
        (65_537, 1, 65_535),
        (65_536, 2, 65_534),
        (65_537, 2, 65_535),
        (1 << 32, 2, 65_535),
        (u64::from(u32::MAX), 0, 65_535),
        (1 << 63, 0, 65_535),
        (u64::MAX, 0, 65_535),
        (u64::MAX, 2, 65_535),
    ] {
        assert_eq!(difference(stored, figure), wanted, "{stored} less {figure}");
    }
}

#[test]
fn series_at_every_unit() {
    widths::series_at_every_unit(&Plain);
}
