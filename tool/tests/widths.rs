//! Counts of every width, from 1 bit to 64, through the built program.

mod common;

use common::drive::Random;
use common::made::{get_count, guest_by_tables, largest, made_at, put64, put_count, Made};
use common::{bench_image, Copy};
use qcow2_core::{check, Outcome};
use qstore::damage::Damage;
use qstore::layout::Layout;
use qstore::runs::figure;

const ORDERS: std::ops::RangeInclusive<u32> = 0..=6;

fn data(len: usize, seed: usize) -> Vec<u8> {
    (0..len).map(|k| ((k * 31 + seed) % 255) as u8 + 1).collect()
}

#[test]
fn what_info_says() {
    for order in ORDERS {
        let Made { mut image, block_at, .. } = made_at(order, 3, 9, 16, 65_536);
        put_count(&mut image[block_at..], order, 9, largest(order));
        let copy = Copy::with(&image, "width-info");
        let text = copy.run("info IMAGE").text;
        let lines =
            format!("refcount bits: {}\nheader length: 104\nclusters in use: 5\n", 1 << order);
        assert!(text.contains(&lines), "{text}");
        assert!(text.contains("clusters free: 11\nclusters leaked: 1\nverdict: leaks 1"), "{text}");
        let json = copy.run("info IMAGE --json").text;
        assert!(json.contains(&format!("\"refcount_bits\": {},", 1 << order)), "{json}");
    }
}

/// Images of another maker: in use, free, and the verdict.
#[test]
fn images_by_hand() {
    let sound = (0..=6).map(|order| (format!("sound-order-{order}"), 4, 12, "sound"));
    let others = [
        ("leaks-order-0", 11, 5, "leaks 7"),
        ("leaks-order-2", 6, 10, "leaks 2"),
        ("leaks-order-6", 5, 11, "leaks 1"),
        ("damaged-short-order-1", 3, 13, "damaged: cluster 2 (at 1024) is in use"),
    ];
    let others = others.map(|(name, used, free, verdict)| (name.to_string(), used, free, verdict));
    for (name, used, free, verdict) in sound.chain(others) {
        let file = format!("../crates/image_suite/data/made-{name}.qcow2");
        let copy = Copy::of(&file, "width-made");
        let text = copy.run("info IMAGE").text;
        let words = format!("clusters in use: {used}\nclusters free: {free}\n");
        assert!(text.contains(&words), "{name}: {text}");
        assert!(text.contains(&format!("\nverdict: {verdict}")), "{name}: {text}");
        if !name.starts_with("damaged") {
            assert_eq!(copy.run("repair IMAGE").exit, 0);
            assert!(copy
                .run("info IMAGE")
                .text
                .contains("clusters in use: 4\nclusters free: 12\n"));
        }
    }
}

/// The longest clusters: one block for the whole file.
#[test]
fn long_clusters() {
    let cluster = 1 << 21;
    for order in [0, 6] {
        for (cut, leaks) in [(1, 1), (cluster + 2, 2), (2 * cluster + 4, 0)] {
            let mut memory = made_at(order, 3, 21, 8, 1 << 30).image;
            let copy = Copy::with(&memory, "width-long");
            copy.feed(&format!("write IMAGE 5000000 --allowance {cut}"), b"hello");
            _ = qcow2_core::write(&mut memory, &[], 5_000_000, b"hello", cut);
            assert!(copy.bytes() == memory, "cut at {cut}");
            let check = copy.run("check IMAGE").text;
            assert!(leaks == 0 || check.starts_with(&format!("leaks {leaks} ")), "{check}");
            assert_eq!(copy.run("repair IMAGE").exit, 0);
            assert_eq!(copy.run("check IMAGE").text, "sound\n");
        }
    }
}

/// Writes and discards by the program, beside the plain disk and the core.
#[test]
fn there_and_back() {
    for order in ORDERS {
        let mut memory = made_at(order, 3, 9, 100, 65_536).image;
        let copy = Copy::with(&memory, "width-back");
        let mut disk = vec![0; 65_536];
        for (offset, len) in [(33_285, 5), (0, 1200), (60_000, 5000), (500, 20), (40_000, 3000)] {
            let data = data(len, offset);
            let answer = copy.feed(&format!("write IMAGE {offset}"), &data);
            assert_eq!(answer.exit, 0, "{}", answer.error);
            disk[offset..offset + len].copy_from_slice(&data);
            for call in qstore::call::writes(offset as u64, &data, 9) {
                assert!(matches!(call.run(&mut memory, &[], u64::MAX), Outcome::Finished(_)));
            }
        }
        assert_eq!(copy.run("discard IMAGE 40448 2048").exit, 0);
        disk[40_448..42_496].fill(0);
        (79..83).for_each(|cluster| _ = qcow2_core::discard(&mut memory, &[], cluster, u64::MAX));
        assert!(copy.bytes() == memory && guest_by_tables(&memory) == disk);
        assert!(copy.run("read IMAGE 0 64k").out == disk);
        assert_eq!(copy.run("check IMAGE").text, "sound\n");
        let map = copy.run("map IMAGE").text;
        assert!(map.contains("\n40448\t2048\tabsent\t-\n"), "{map}");
    }
}

/// The first write of the worked example leaks the same and is repaired the
/// same at every width.
#[test]
fn cut_check_repair_read() {
    let leaks = [(0, 0), (1, 1), (513, 1), (514, 2), (1026, 2), (1027, 2), (1028, 0)];
    for order in ORDERS {
        for (cut, leaked) in leaks {
            let mut image = made_at(order, 3, 9, 16, 65_536).image;
            let copy = Copy::with(&image, "width-cut");
            copy.feed(&format!("write IMAGE 33285 --allowance {cut}"), b"hello");
            _ = qcow2_core::write(&mut image, &[], 33_285, b"hello", cut);
            assert!(copy.bytes() == image, "cut at {cut}");
            let check = copy.run("check IMAGE");
            assert_eq!(check.exit, if leaked == 0 { 0 } else { 3 });
            let words = ["sound\n", "leaks 1 (clusters 4)\n", "leaks 2 (clusters 4-5)\n"][leaked];
            assert!(check.text.starts_with(words), "{}", check.text);
            let stopped = copy.run("repair IMAGE --allowance 1");
            assert_eq!(stopped.exit, if leaked < 2 { 0 } else { 1 }, "{}", stopped.text);
            let rest = copy.run("check IMAGE").text;
            assert!(leaked < 2 || rest.starts_with("leaks 1 (clusters 5)\n"), "{rest}");
            assert_eq!(copy.run("repair IMAGE").exit, 0);
            assert_eq!(copy.run("check IMAGE").exit, 0);
            let free = if cut == 1028 { 10 } else { 12 };
            assert!(copy.run("info IMAGE").text.contains(&format!("clusters free: {free}\n")));
        }
    }
}

/// What is listed as leaked and short, against counts read one by one.
#[test]
fn damage_by_count() {
    let mut random = Random(3);
    for order in ORDERS {
        let Made { mut image, block_at, .. } = made_at(order, 3, 9, 150, 65_536);
        for guest in 0..30 {
            assert!(matches!(
                qcow2_core::write(&mut image, &[], 512 * guest, &[9; 512], u64::MAX),
                Outcome::Finished(_)
            ));
        }
        for _ in 0..20 {
            let count = [0, 1, largest(order)][random.below(3)];
            put_count(&mut image[block_at..], order, random.below(150), count);
        }
        let layout = Layout::of(&image).unwrap();
        let mut scratch = vec![0; 300];
        let verdict = check(&image, &[], &mut scratch);
        let damage = Damage::of(&layout, &image, verdict, &scratch);
        let flat = |runs: &[(u64, u64)]| -> Vec<u64> {
            runs.iter().flat_map(|&(first, number)| first..first + number).collect()
        };
        let counts = (0..150).map(|at| get_count(&image[block_at..], order, at as usize));
        let compared: Vec<(u64, u64, u64)> = (0..)
            .zip(counts)
            .map(|(at, count)| (at, count, figure(&scratch, at as usize).into()))
            .collect();
        let wanted = |is: fn(u64, u64) -> bool| -> Vec<u64> {
            compared
                .iter()
                .filter(|(_, count, figure)| is(*count, *figure))
                .map(|row| row.0)
                .collect()
        };
        assert_eq!(flat(&damage.short), wanted(|count, figure| count < figure), "{verdict:?}");
        assert_eq!(flat(&damage.leaked), wanted(|count, figure| count > figure));
        assert_eq!(layout.free(&image), wanted(|count, _| count == 0).len());
    }
}

/// A short count is named with what is stored.
#[test]
fn a_short_count() {
    for order in ORDERS {
        let Made { mut image, block_at, .. } = made_at(order, 3, 9, 16, 65_536);
        put_count(&mut image[block_at..], order, 2, 0);
        let copy = Copy::with(&image, "width-short");
        let answer = copy.run("check IMAGE");
        assert_eq!(answer.exit, 2);
        let words = "cluster 2 (at 1024) is in use, but its stored count is 0";
        assert!(answer.text.contains(words), "{}", answer.text);
    }
}

/// Version 2 has counts of 16 bits, whatever stands where version 3 has the
/// order.
#[test]
fn the_order_of_version_2() {
    let image = made_at(4, 2, 9, 16, 65_536).image;
    for order in [0, 3, 6, 7, 255] {
        let mut image = image.clone();
        image[99] = order;
        let copy = Copy::with(&image, "width-version-2");
        assert_eq!(copy.run("check IMAGE").text, "sound\n");
        assert!(copy.run("info IMAGE").text.contains("\nrefcount bits: 16\n"));
        assert_eq!(copy.feed("write IMAGE 33285", b"hello").exit, 0);
        _ = qcow2_core::write(&mut image, &[], 33_285, b"hello", u64::MAX);
        assert!(copy.bytes() == image && image[1033] == 1);
        assert_eq!(copy.run("read IMAGE 33285 5").out, b"hello");
    }
}

#[test]
fn an_order_above_6() {
    for order in [7, 64, u32::MAX] {
        let mut image = bench_image();
        image[96..100].copy_from_slice(&order.to_be_bytes());
        let copy = Copy::with(&image, "width-none");
        let text = copy.run("info IMAGE").text;
        assert!(text.contains("\nrefcount bits: not known\n"), "{text}");
        let words = format!(
            "refused (6): refcount_order is {order}, and only 0 to 6 are accepted\n  No qcow2 image \
             has such a refcount_order, and qemu refuses it too"
        );
        assert!(text.contains(&words) && !text.contains('`'), "{text}");
        assert!(copy.run("info IMAGE --json").text.contains("\"refcount_bits\": null,"));
        assert!(copy.run("check IMAGE").error.contains(&words));
    }
}

/// Numbers 9 and 10 count blocks by the width.
#[test]
fn how_many_blocks_are_needed() {
    // A block of 512 bytes has counts for 4,096, 256 and 64 clusters.
    for (order, covered) in [(0, 4096), (4, 256), (6, 64)] {
        let image = made_at(order, 3, 9, 60, 65_536).image;
        let long = |clusters: usize| {
            let mut image = image.clone();
            image.resize(512 * clusters, 0);
            Copy::with(&image, "width-blocks")
        };
        assert_eq!(long(covered).run("check IMAGE").exit, 0);
        let error = long(covered + 1).run("check IMAGE").error;
        let words = format!("entry 1 is 0, so clusters {covered} and up have no stored count");
        assert!(error.contains("refused (10)") && error.contains(&words), "{error}");
        assert!(error.contains("`qstore extend "), "{error}");
        assert!(error.contains(&format!(" {}`", 512 * (covered + 1))), "{error}");
        let error = long(64 * covered + 1).run("check IMAGE").error;
        let words = format!(
            "has 64 entries, and 65 are needed for a file of {} ",
            512 * (64 * covered + 1)
        );
        assert!(error.contains("refused (9)") && error.contains(&words), "{error}");
        // A block for clusters that are not there: the file is lengthened to its first.
        let mut image = image.clone();
        image.resize(512 * 61, 0);
        put64(&mut image, 512 + 8, 512 * 60);
        let copy = Copy::with(&image, "width-late");
        let error = copy.run("check IMAGE").error;
        let words = format!("the file has 61 clusters, and the block's first is {covered}\n");
        assert!(error.contains("refused (10)") && error.contains(&words), "{error}");
        let words = format!("`truncate -s +{} ", 512 * (covered - 60));
        assert!(error.contains(&words), "{error}");
    }
}

/// Without a new block room ends where the counts end.
#[test]
fn room_by_width() {
    for (order, covered) in [(0, 4096), (2, 1024), (6, 64)] {
        let image = made_at(order, 3, 9, 20, 1 << 22).image;
        let free = Layout::of(&image).unwrap().free(&image);
        // One L2 table for 64 clusters.
        let most = covered - 20 + free;
        let fits = most - most.div_ceil(65);
        let copy = Copy::with(&image, "width-room");
        let error = copy.feed("write IMAGE 0", &data(512 * (fits + 1), 1)).error;
        let words = format!("The stored counts end at cluster {covered}. ");
        assert!(error.contains("refused (14)") && error.contains(&words), "{error}");
        assert!(error.contains("`qstore extend "), "{error}");
        let error = copy.feed("write IMAGE 0", &data(512 * fits, 1)).error;
        let words = format!("`truncate -s +{} ", 512 * (covered - 20));
        assert!(error.contains(&words), "{error}");
        let mut longer = image.clone();
        longer.resize(512 * covered, 0);
        // The whole write is tried first.
        let copy = Copy::with(&longer, "width-roomy");
        let answer = copy.feed("write IMAGE 0 --allowance 1", &data(512 * fits, 1));
        assert!(answer.text.starts_with("stopped after 1 of "), "{}", answer.error);
        assert_eq!(copy.run("check IMAGE").exit, 3);
    }
}
