//! Unit lists: each allowance leaves the first units of the list, and the list
//! is worked out from the image on entry also where structures overlap.
#![forbid(unsafe_code)]

use made::drive::{any_image, with_allowance};
use made::image::USED;
use made::plan::bench_image;
use made::requests::{Request, Requests};
use made::rng::Rng;
use plain::{Outcome, Over, Plain, ALONE};

const ALL: u64 = u64::MAX;

fn run(side: Over, image: &mut [u8], request: &Request) -> Outcome {
    match *request {
        Request::Write { offset, ref data, allowance } => {
            side.write(image, offset, data, allowance)
        }
        Request::Discard { cluster, allowance } => side.discard(image, cluster, allowance),
        Request::Repair { scratch, allowance } => {
            side.repair(image, &mut vec![0; scratch], allowance)
        }
        _ => unreachable!("not a storing request"),
    }
}

/// One unit more changes at most one run of eight bytes.
fn one_unit_apart(fewer: &[u8], more: &[u8]) -> bool {
    let differs = |k: &usize| fewer[*k] != more[*k];
    let first = (0..fewer.len()).find(differs);
    let last = (0..fewer.len()).rev().find(differs);
    first.zip(last).is_none_or(|(first, last)| last - first < 8)
}

#[test]
fn prefixes() {
    let mut rng = Rng::from_env("prefixes", 21);
    for _ in 0..300 {
        let made = any_image(&mut rng);
        if made.bytes.len() > 100_000 {
            continue;
        }
        let side = made.over(&Plain);
        let request = Requests::new(&made).storing(&mut rng);
        let mut whole = made.bytes.clone();
        let Outcome::Finished(units) = run(side, &mut whole, &with_allowance(&request, ALL)) else {
            assert!(whole == made.bytes, "refused, but changed");
            continue;
        };
        let mut last = made.bytes.clone();
        for allowance in 0..=units.min(1100) {
            let mut image = made.bytes.clone();
            let outcome = run(side, &mut image, &with_allowance(&request, allowance));
            let stopped = Outcome::Stopped(allowance);
            let finished = Outcome::Finished(units);
            assert_eq!(outcome, if allowance < units { stopped } else { finished });
            assert!(one_unit_apart(&last, &image), "{request:?} at {allowance}");
            last = image;
        }
        assert!(units > 1100 || last == whole);
    }
}

/// The bench image with cluster 0 free: it is the lowest, and is filled.
#[test]
fn header_is_free() {
    let mut made = bench_image();
    made.set_count(0, 0);
    let mut image = made.bytes.clone();
    assert_eq!(ALONE.write(&mut image, 512, b"abc", ALL), Outcome::Finished(1028));
    // Cluster 0 is the L2 table, cluster 4 has the data.
    let mut table = vec![0; 512];
    table[8..16].copy_from_slice(&(USED | 2048).to_be_bytes());
    assert_eq!(image[..512], table);
    assert_eq!(&image[2048..2051], b"abc");
    assert_eq!(image[made.l1_at..made.l1_at + 8], USED.to_be_bytes());
    assert_eq!((image[1025], image[1024 + 9]), (1, 1));
}

/// The block itself is free: it is filled after its own count was stored.
#[test]
fn block_is_free() {
    let mut made = bench_image();
    made.set_count(2, 0);
    let mut image = made.bytes.clone();
    assert_eq!(ALONE.write(&mut image, 0, b"abc", ALL), Outcome::Finished(1028));
    // Filled with zeros as the L2 table, then the count of cluster 4 and the
    // L2 entry for it, which lies on the counts of clusters 0 to 3.
    let mut block = vec![0; 512];
    block[..8].copy_from_slice(&(USED | 2048).to_be_bytes());
    block[9] = 1;
    assert_eq!(image[1024..1536], block);
    assert_eq!(image[made.l1_at..made.l1_at + 8], (USED | 1024).to_be_bytes());
}

/// The refcount table is free: its entries are gone when the second count is
/// stored, at the place worked out before.
#[test]
fn refcount_table_is_free() {
    let mut made = bench_image();
    made.set_count(1, 0);
    let mut image = made.bytes.clone();
    assert_eq!(ALONE.write(&mut image, 65_535, b"z", ALL), Outcome::Finished(1028));
    assert_eq!(image[512..512 + 504], [0; 504]);
    assert_eq!(image[1016..1024], (USED | 2048).to_be_bytes());
    assert_eq!((image[1024 + 3], image[1024 + 9]), (1, 1));
    assert_eq!(image[2048 + 511], b'z');
}

/// A data cluster with the zero mark that is its own L2 table.
#[test]
fn entry_in_its_own_cluster() {
    let mut made = bench_image();
    let table = made.add_table(0).unwrap();
    made.put64(table, USED | table as u64 | 1);
    let mut image = made.bytes.clone();
    assert_eq!(ALONE.write(&mut image, 100, &[9; 3], 512), Outcome::Stopped(512));
    assert_eq!(image[table..table + 8], [0; 8]);
    let mut image = made.bytes.clone();
    assert_eq!(ALONE.write(&mut image, 100, &[9; 3], ALL), Outcome::Finished(513));
    assert_eq!(image[table..table + 8], (USED | table as u64).to_be_bytes());
    assert_eq!(image[table + 100..table + 104], [9, 9, 9, 0]);
}

/// A discard whose L2 entry lies on the count: the count stored last is the
/// one from the image on entry, less one.
#[test]
fn entry_on_the_counts() {
    let mut made = bench_image();
    let block = made.blocks[0];
    made.put64(made.l1_at, USED | block as u64);
    // Counts 0x8000, 0, 0, 0x0A00 for clusters 4 to 7; as entry: cluster 5.
    made.put64(block + 8, USED | 5 << 9);
    let mut image = made.bytes.clone();
    assert_eq!(ALONE.discard(&mut image, 1, ALL), Outcome::Refused(16));
    // Cluster 7 in its place: its count is 0x0E00.
    made.put64(block + 8, USED | 7 << 9);
    let mut image = made.bytes.clone();
    assert_eq!(ALONE.discard(&mut image, 1, ALL), Outcome::Finished(2));
    assert_eq!(image[block + 8..block + 16], [0, 0, 0, 0, 0, 0, 0x0D, 0xFF]);
}
