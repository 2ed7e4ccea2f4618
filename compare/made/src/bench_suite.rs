//! The paper's bench image and every line about it, for one implementation and
//! counts of each width: no figure depends on that.

use answers::{Calls, Found, Outcome, Over, Verdict};

use crate::image::Made;
use crate::plan::{bench_image_of, MAX_ORDER};
use crate::report::report;

const ALL: u64 = u64::MAX;

/// Runs every line.
pub fn all(calls: &dyn Calls) {
    let side = Over::none(calls);
    for order in 0..=MAX_ORDER {
        small_program(side, order);
        first_write(side, order);
        first_write_cut(side, order);
        after_the_first_write(side, order);
        one_free_cluster(side, order);
        ranges(side, order);
        headers(side, order);
    }
}

fn image(order: u32) -> Vec<u8> {
    bench_image_of(order).bytes
}

/// The bench image with these bytes.
fn made(bytes: Vec<u8>, order: u32) -> Made {
    Made { bytes, ..bench_image_of(order) }
}

/// The bench image after the write of 5 bytes at 33,285, cut at `allowance`.
fn written(side: Over, order: u32, allowance: u64) -> (Vec<u8>, Outcome) {
    let mut image = image(order);
    let outcome = side.write(&mut image, 33_285, b"hello", allowance);
    (image, outcome)
}

fn entry(image: &[u8], at: usize) -> u64 {
    u64::from_be_bytes(image[at..at + 8].try_into().unwrap())
}

fn verdict(side: Over, image: &[u8]) -> Verdict {
    side.check(image, &mut [0; 32])
}

fn free(image: &[u8], order: u32) -> usize {
    let made = made(image.to_vec(), order);
    (0..16).filter(|&cluster| made.count(cluster) == 0).count()
}

fn small_program(side: Over, order: u32) {
    let text = "image\t3\t512\t16\t65536\t2\nclusters\t4\t12\t0\nverdict\tsound\n";
    assert_eq!(report(side, &image(order)), text);
    assert_eq!(report(side, &[0; 65_537]), "refused\tlong\n");
}

fn first_write(side: Over, order: u32) {
    let (image, outcome) = written(side, order, 1028);
    assert_eq!(outcome, Outcome::Finished(1028));
    assert_eq!(entry(&image, 1544), 0x8000_0000_0000_0800);
    assert_eq!(entry(&image, 2056), 0x8000_0000_0000_0A00);
    assert_eq!(&image[2565..2570], b"hello");
    assert_eq!(free(&image, order), 10);
    assert_eq!(side.translate(&image, 33_285), Found::Host(2565));
    let rest = [&image[2560..2565], &image[2570..3072]].concat();
    assert!(rest.iter().all(|&byte| byte == 0));
}

fn first_write_cut(side: Over, order: u32) {
    assert_eq!(verdict(side, &written(side, order, 0).0), Verdict::Sound);
    for allowance in [1, 513] {
        assert_eq!(verdict(side, &written(side, order, allowance).0), Verdict::Leaks(1));
    }
    for allowance in [514, 1026, 1027] {
        let (image, outcome) = written(side, order, allowance);
        assert_eq!(outcome, Outcome::Stopped(allowance));
        assert_eq!(verdict(side, &image), Verdict::Leaks(2));
    }
    let (mut image, _) = written(side, order, 1027);
    assert_eq!(side.repair(&mut image, &mut [0; 32], ALL), Outcome::Finished(2));
    assert_eq!(free(&image, order), 12);
    assert_eq!(verdict(side, &image), Verdict::Sound);
}

fn after_the_first_write(side: Over, order: u32) {
    let (mut image, _) = written(side, order, ALL);
    assert_eq!(side.write(&mut image, 33_280, b"abc", ALL), Outcome::Finished(3));
    assert_eq!(side.write(&mut image, 32_768, b"x", ALL), Outcome::Finished(514));
    assert_eq!(side.translate(&image, 32_768), Found::Host(6 * 512));
    let (mut image, _) = written(side, order, ALL);
    assert_eq!(side.discard(&mut image, 65, 1), Outcome::Stopped(1));
    assert_eq!(verdict(side, &image), Verdict::Leaks(1));
    let (mut image, _) = written(side, order, ALL);
    assert_eq!(side.discard(&mut image, 65, ALL), Outcome::Finished(2));
    assert_eq!(verdict(side, &image), Verdict::Sound);
    assert_eq!(free(&image, order), 11);
}

fn one_free_cluster(side: Over, order: u32) {
    let (mut image, _) = written(side, order, ALL);
    let mut full = made(image, order);
    (6..=14).for_each(|cluster| full.set_count(cluster, 1));
    image = full.bytes;
    assert_eq!(side.write(&mut image, 0, b"x", ALL), Outcome::Refused(14));
    assert_eq!(side.write(&mut image, 32_768, b"x", ALL), Outcome::Finished(514));
}

fn ranges(side: Over, order: u32) {
    let mut image = image(order);
    assert_eq!(side.read(&image, 65_536, &mut []), Ok(()));
    assert_eq!(side.read(&image, 65_536, &mut [0]), Err(11));
    assert_eq!(side.read(&image, 65_537, &mut []), Err(11));
    assert_eq!(side.read(&image, u64::MAX, &mut [0; 2]), Err(11));
    assert_eq!(side.write(&mut image, 510, &[1; 2], 0), Outcome::Stopped(0));
    assert_eq!(side.write(&mut image, 510, &[1; 3], 0), Outcome::Refused(11));
    assert_eq!(side.write(&mut image, 65_536, &[], 0), Outcome::Finished(0));
    assert_eq!(side.write(&mut image, 65_537, &[], 0), Outcome::Refused(11));
    assert_eq!(side.discard(&mut image, 127, 0), Outcome::Finished(0));
    for cluster in [128, 1 << 55, (1 << 55) + 1, u64::MAX] {
        assert_eq!(side.discard(&mut image, cluster, ALL), Outcome::Refused(11));
    }
}

fn headers(side: Over, order: u32) {
    let refused = |change: &dyn Fn(&mut Vec<u8>)| {
        let mut image = image(order);
        change(&mut image);
        match side.check(&image, &mut [0; 34]) {
            Verdict::Refused(number) => number,
            _ => 0,
        }
    };
    let sized = |size: u64, l1_size: u8| {
        refused(&|image| {
            image[24..32].copy_from_slice(&size.to_be_bytes());
            image[39] = l1_size;
        })
    };
    for (size, l1_size, number) in [
        (65_537, 2, 8),
        (65_537, 3, 18),
        (65_792, 3, 18),
        (66_048, 3, 0),
        (65_535, 2, 18),
        (65_280, 2, 18),
        (65_024, 2, 0),
    ] {
        assert_eq!(sized(size, l1_size), number);
    }
    // 4,097 and 65,536 are within the limit, but the table runs past the image.
    for (l1_size, number) in [(4097u32, 9), (65_536, 9), (65_537, 8)] {
        let change = |image: &mut Vec<u8>| image[36..40].copy_from_slice(&l1_size.to_be_bytes());
        assert_eq!(refused(&change), number);
    }
    for (cluster_bits, number) in [(8, 4), (9, 0), (16, 5), (17, 5), (21, 5), (22, 4)] {
        assert_eq!(refused(&|image| image[23] = cluster_bits), number);
    }
    assert_eq!(refused(&|image| image.truncate(511)), 1);
    assert_eq!(refused(&|image| image.push(0)), 5);
}
