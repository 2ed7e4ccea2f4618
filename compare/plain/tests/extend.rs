//! Appended clusters taken in: numbers and lists one by one, and series followed
//! by the plain disk.
#![forbid(unsafe_code)]

use made::extend_drive::{self, WANTED};
use made::image::{Made, AUTOCLEAR};
use made::pair::Pair;
use made::plan::{bench_image, bench_image_of, MAX_ORDER};
use made::rng::{setting, Rng};
use plain::{extend, Outcome, Plain, Verdict, ALONE};

const ALL: u64 = u64::MAX;
/// Bytes of the bench image, whose refcount table is at 512 and L1 table at 1536.
const OLD: u64 = 8192;
const TABLE: usize = 512;

/// The bench image with so many clusters.
fn longer(order: u32, clusters: usize) -> Made {
    let mut made = bench_image_of(order);
    made.bytes.resize(512 * clusters, 0xEE);
    made
}

fn verdict(image: &[u8]) -> Verdict {
    ALONE.check(image, &mut vec![0; image.len() / 256])
}

/// The answer on a copy.
fn answer(image: &[u8], old: u64) -> Outcome {
    let mut after = image.to_vec();
    let outcome = extend(&mut after, old, ALL);
    let unchanged = matches!(outcome, Outcome::Refused(_) | Outcome::Finished(0));
    assert_eq!(after == image, unchanged);
    outcome
}

/// The bytes of a new block's first count.
const OWN: [&[u8]; 7] = [&[1], &[1], &[1], &[1], &[0, 1], &[0, 0, 0, 1], &[0, 0, 0, 0, 0, 0, 0, 1]];

#[test]
fn one_block_at_each_width() {
    for (order, own) in (0..).zip(OWN) {
        let per_block = 4096 >> order;
        for clusters in [17, per_block - 1, per_block] {
            assert_eq!(answer(&longer(order, clusters).bytes, OLD), Outcome::Finished(0));
        }
        for clusters in [per_block + 1, 2 * per_block] {
            let made = longer(order, clusters);
            assert_eq!(verdict(&made.bytes), Verdict::Refused(10));
            let mut image = made.bytes.clone();
            assert_eq!(extend(&mut image, OLD, ALL), Outcome::Finished(513));
            let place = 512 * per_block;
            let mut wanted = made.bytes;
            wanted[place..place + 512].fill(0);
            wanted[place..place + own.len()].copy_from_slice(own);
            wanted[TABLE + 8..TABLE + 16].copy_from_slice(&(place as u64).to_be_bytes());
            assert!(image == wanted, "order {order}");
            assert_eq!(verdict(&image), Verdict::Sound);
            assert_eq!(answer(&image, OLD), Outcome::Finished(0));
        }
    }
}

/// Three blocks and the clearing unit, cut at every unit; each cut changes what one
/// unit changes, and the same call goes on to the same end.
#[test]
fn every_cut() {
    let mut made = longer(6, 64 * 3 + 1);
    made.put64(AUTOCLEAR, 1 << 63);
    let mut whole = made.bytes.clone();
    assert_eq!(extend(&mut whole, OLD, ALL), Outcome::Finished(1 + 3 * 513));
    let mut last = made.bytes.clone();
    for allowance in 0..=3 * 513 + 2 {
        let mut image = made.bytes.clone();
        let outcome = extend(&mut image, OLD, allowance);
        let changed: Vec<usize> = (0..image.len()).filter(|&at| image[at] != last[at]).collect();
        if allowance > 3 * 513 {
            assert_eq!(outcome, Outcome::Finished(1 + 3 * 513));
            assert_eq!(verdict(&image), Verdict::Sound);
        } else {
            assert_eq!(outcome, Outcome::Stopped(allowance));
            assert_eq!(verdict(&image), Verdict::Refused(10));
            let (block, unit) = (allowance.saturating_sub(2) / 513, allowance.max(2) - 2);
            let (block, unit) = (block as usize + 1, unit as usize % 513);
            match (allowance, unit) {
                (0, _) => assert_eq!(changed, []),
                (1, _) => assert_eq!(changed, [AUTOCLEAR]),
                (_, 512) => {
                    assert!(changed.iter().all(|at| at / 8 == TABLE / 8 + block), "{changed:?}");
                }
                _ => assert_eq!(changed, [64 * 512 * block + unit]),
            }
            assert!(matches!(extend(&mut image.clone(), OLD, ALL), Outcome::Finished(_)));
        }
        last.clone_from(&image);
        extend(&mut image, OLD, ALL);
        assert!(image == whole);
    }
}

#[test]
fn old_lengths() {
    let image = longer(6, 200).bytes;
    for old in [0, 1, 511, 513, 8191, 8193, 102_401, 102_912, 1 << 32, 1 << 63, ALL, ALL - 511] {
        assert_eq!(answer(&image, old), Outcome::Refused(10), "{old}");
    }
    // Any length of the first block; then the second would have to be there.
    for old in [512, 1024, 8192, 32_768] {
        assert_eq!(answer(&image, old), Outcome::Finished(3 * 513), "{old}");
    }
    for old in [33_280, 65_536, 102_400] {
        assert_eq!(answer(&image, old), Outcome::Refused(10), "{old}");
    }
    let mut named = image;
    assert_eq!(extend(&mut named, OLD, 513), Outcome::Stopped(513));
    for old in [512, 32_768, 33_280, 65_536] {
        assert_eq!(answer(&named, old), Outcome::Finished(2 * 513), "{old}");
    }
    assert_eq!(answer(&named, 66_048), Outcome::Refused(10));
    let made = Made { bytes: bench_image().bytes, ..bench_image() };
    for (old, wanted) in [
        (512, Outcome::Finished(0)),
        (8192, Outcome::Finished(0)),
        (8704, Outcome::Refused(10)),
        (256, Outcome::Refused(10)),
    ] {
        assert_eq!(answer(&made.bytes, old), wanted);
    }
}

#[test]
fn entries_of_the_table() {
    let made = longer(6, 200);
    let n = made.bytes.len() as u64;
    let with = |index: usize, entry: u64| {
        let mut made = made.clone();
        made.put64(TABLE + 8 * index, entry);
        answer(&made.bytes, OLD)
    };
    // The first is judged by the new length.
    for (entry, good) in [
        (0, false),
        (512, true),
        (OLD, true),
        (n - 512, true),
        (n, false),
        (n + 512, false),
        (1025, false),
        (1024 | 1 << 63, false),
    ] {
        let wanted = if good { Outcome::Finished(3 * 513) } else { Outcome::Refused(10) };
        assert_eq!(with(0, entry), wanted, "{entry}");
    }
    // Those of new blocks are 0 or the place.
    for index in 1..=3 {
        let place = 32_768 * index as u64;
        assert_eq!(with(index, 0), Outcome::Finished(3 * 513));
        assert_eq!(with(index, place), Outcome::Finished(2 * 513));
        for entry in [1, 512, 1024, place + 512, place - 512, place + 1, place | 1 << 63, n] {
            assert_eq!(with(index, entry), Outcome::Refused(10), "{index}: {entry}");
        }
    }
    for (index, entry) in [(4, 1), (4, 4 * 32_768), (63, 1 << 63), (63, 512)] {
        assert_eq!(with(index, entry), Outcome::Refused(10));
    }
    assert_eq!(with(64, 1), Outcome::Finished(3 * 513));
    // 65 blocks are too many for the table.
    assert_eq!(answer(&longer(6, 64 * 64).bytes, OLD), Outcome::Finished(63 * 513));
    assert_eq!(answer(&longer(6, 64 * 64 + 1).bytes, OLD), Outcome::Refused(9));
    assert_eq!(answer(&longer(6, 64 * 64 + 1).bytes, 0), Outcome::Refused(9));
}

/// A bad name is 19 and a bad snapshot table 21, after 10; no bytes of a backing file
/// are asked for.
#[test]
fn later_numbers() {
    let mut made = longer(4, 300);
    made.set_name(104, 7);
    assert_eq!(answer(&made.bytes, OLD), Outcome::Finished(513));
    made.set_name(104, 1024);
    assert_eq!(answer(&made.bytes, OLD), Outcome::Refused(19));
    made.put32(60, 1);
    made.put64(64, 1);
    assert_eq!(answer(&made.bytes, OLD), Outcome::Refused(19));
    assert_eq!(answer(&made.bytes, 0), Outcome::Refused(10));
    made.set_name(0, 7);
    assert_eq!(answer(&made.bytes, OLD), Outcome::Refused(21));
    assert_eq!(answer(&made.bytes, OLD + 1), Outcome::Refused(10));
    made.put64(64, 512 * 290);
    made.bytes[512 * 290..].fill(0);
    assert_eq!(answer(&made.bytes, OLD), Outcome::Finished(513));
    made.put64(24, 1);
    assert_eq!(answer(&made.bytes, 0), Outcome::Refused(18));
}

/// Version 2 has no autoclear bits and counts of 16 bits; an empty list and a
/// refusal leave the bits.
#[test]
fn clearing() {
    let mut made = longer(4, 300);
    made.put64(AUTOCLEAR, 5);
    let mut image = made.bytes.clone();
    assert_eq!(extend(&mut image, OLD, 1), Outcome::Stopped(1));
    assert_eq!(image[AUTOCLEAR..AUTOCLEAR + 8], [0; 8]);
    assert_eq!(extend(&mut image, OLD, ALL), Outcome::Finished(513));
    assert_eq!(answer(&made.bytes, OLD), Outcome::Finished(514));
    made.put32(4, 2);
    assert_eq!(answer(&made.bytes, OLD), Outcome::Finished(513));
    let mut within = longer(4, 200);
    within.put64(AUTOCLEAR, 5);
    assert_eq!(answer(&within.bytes, OLD), Outcome::Finished(0));
}

/// The refcount table lies where the first new block goes: its entries for the next
/// ones are gone by then, and count as they were.
#[test]
fn table_under_a_new_block() {
    let mut made = longer(6, 200);
    let place = 64 * 512;
    made.bytes.copy_within(TABLE..TABLE + 512, place);
    made.put64(48, place as u64);
    made.put64(place + 16, 2 * place as u64);
    let before = made.bytes.clone();
    let mut image = before.clone();
    assert_eq!(extend(&mut image, OLD, ALL), Outcome::Finished(2 * 513));
    let mut wanted = before;
    for index in [1, 3] {
        wanted[index * place..index * place + 512].fill(0);
        wanted[index * place + 7] = 1;
    }
    wanted[place + 8..place + 16].copy_from_slice(&(place as u64).to_be_bytes());
    wanted[place + 24..place + 32].copy_from_slice(&(3 * place as u64).to_be_bytes());
    assert!(image == wanted);
}

/// Counts past the old end are counts of appended clusters: they leak.
#[test]
fn counts_past_the_end() {
    for order in 0..=MAX_ORDER {
        let mut made = longer(order, 30);
        [16, 20, 29].into_iter().for_each(|cluster| made.set_count(cluster, 1));
        assert_eq!(verdict(&made.bytes[..OLD as usize]), Verdict::Sound);
        assert_eq!(answer(&made.bytes, OLD), Outcome::Finished(0));
        assert_eq!(verdict(&made.bytes), Verdict::Leaks(3));
    }
}

#[test]
fn both_sides() {
    let mut rng = Rng::from_env("both sides, longer", 141);
    let mut pair = Pair::new(&Plain, &Plain);
    extend_drive::compare(&mut pair, &mut rng, setting("CALLS", 30_000));
    println!("{:#?}", pair.tally);
    let missing = WANTED.iter().find(|kind| !pair.tally.contains_key(**kind));
    assert!(pair.calls < 30_000 || missing.is_none(), "{missing:?}");
}

#[test]
fn series() {
    let mut rng = Rng::from_env("series, longer", 142);
    let met = extend_drive::follow(&Plain, &mut rng, setting("CALLS", 3000));
    println!("{met:?}");
    assert!(met.calls < 3000 || met.everything(), "{met:?}");
}
