//! Write, cut, check, repair, read and discard through the built program.

mod common;

use common::{bench_image, guest, with_clusters, Copy};
use qstore::report::units;

const IMAGE: &str = "03-v3-512-data.qcow2";

fn data(len: usize, seed: usize) -> Vec<u8> {
    (0..len).map(|k| ((k * 31 + seed) % 251) as u8).collect()
}

#[test]
fn written_bytes_are_read_back() {
    let copy = Copy::of(IMAGE, "read-back");
    let mut guest = guest(IMAGE);
    for (offset, len) in [(0, 5), (500, 600), (4000, 1200), (33_000, 400), (65_000, 536), (7, 0)] {
        let data = data(len, offset);
        let answer = copy.feed(&format!("write IMAGE {offset}"), &data);
        assert_eq!(answer.exit, 0, "{}", answer.error);
        guest[offset..offset + len].copy_from_slice(&data);
        assert!(copy.run("read IMAGE 0 64k").out == guest);
        assert_eq!(copy.run("check IMAGE").exit, 0);
    }
    let hex = copy.run("read IMAGE 65535 1 --json");
    assert!(hex.text.contains(&format!("\"data\": \"{:02x}\"", guest[65_535])));
}

/// The file ends as the core alone leaves the image in memory.
#[test]
fn the_file_is_what_the_core_leaves() {
    for cut in [u64::MAX, 0, 1, 2, 512, 513, 514, 515, 1025, 1026, 1027, 1028, 1029, 1541, 1542] {
        let mut memory = bench_image();
        let copy = Copy::with(&memory, "equal");
        let data = data(600, 3);
        let answer = copy.feed(&format!("write IMAGE 33000 --allowance {cut}"), &data);
        let mut left = cut;
        for (offset, part) in [(33_000, &data[..280]), (33_280, &data[280..])] {
            match qcow2_core::write(&mut memory, &[], offset, part, left) {
                qcow2_core::Outcome::Finished(units) => left -= units,
                _ => break,
            }
        }
        assert!(copy.bytes() == memory, "cut at {cut}");
        assert_eq!(answer.exit, if cut < 1542 { 1 } else { 0 }, "cut at {cut}: {}", answer.error);
        let verdict = copy.run("check IMAGE").exit;
        assert!(verdict == 0 || verdict == 3);
    }
}

#[test]
fn cut_check_repair_read() {
    let leaks = [(0, 0), (1, 1), (513, 1), (514, 2), (1026, 2), (1027, 2), (1028, 0)];
    for (cut, leaked) in leaks {
        let copy = Copy::with(&bench_image(), "cut");
        let answer = copy.feed(&format!("write IMAGE 33285 --allowance {cut} --json"), b"hello");
        assert!(answer.text.contains(&format!("\"units\": {cut},")), "{}", answer.text);
        assert!(answer.text.contains(&format!("\"finished\": {}", cut == 1028)));
        let check = copy.run("check IMAGE");
        assert_eq!(check.exit, if leaked == 0 { 0 } else { 3 });
        assert!(leaked == 0 || check.text.starts_with(&format!("leaks {leaked} ")));
        let before = copy.run("read IMAGE 33285 5").out;
        assert_eq!(before, if cut == 1028 { b"hello" } else { &[0; 5] });
        let stopped = copy.run("repair IMAGE --allowance 1");
        assert_eq!(stopped.exit, if leaked < 2 { 0 } else { 1 }, "{}", stopped.text);
        assert_eq!(copy.run("repair IMAGE").exit, 0);
        assert_eq!(copy.run("check IMAGE").exit, 0);
        assert_eq!(copy.run("read IMAGE 33285 5").out, before);
        let free = if cut == 1028 { 10 } else { 12 };
        assert!(copy.run("info IMAGE").text.contains(&format!("clusters free: {free}\n")));
    }
}

/// The longest clusters, and the longest disk.
#[test]
fn long_clusters() {
    let (cluster, offset) = (1 << 21, (1 << 40) - 5);
    let units = 2 * cluster + 4;
    for (cut, leaks) in [(1, 1), (cluster + 2, 2), (units - 1, 2), (units, 0)] {
        let mut memory = with_clusters(21, 8, 1 << 40);
        let copy = Copy::with(&memory, "long-clusters");
        copy.feed(&format!("write IMAGE {offset} --allowance {cut}"), b"hello");
        qcow2_core::write(&mut memory, &[], offset, b"hello", cut);
        assert!(copy.bytes() == memory, "cut at {cut}");
        let check = copy.run("check IMAGE");
        assert!(leaks == 0 || check.text.starts_with(&format!("leaks {leaks} ")), "{}", check.text);
        assert_eq!(copy.run("repair IMAGE").exit, 0);
        assert_eq!(copy.run("check IMAGE").exit, 0);
        let read = copy.run(&format!("read IMAGE {offset} 5")).out;
        assert_eq!(read, if cut == units { b"hello" } else { &[0; 5] });
    }
}

/// The autoclear bits are cleared by the first unit of the first call, which
/// the command says.
#[test]
fn autoclear_bits_are_cleared_first() {
    let image = || {
        let mut image = bench_image();
        image[95] = 1;
        image
    };
    let note = "  autoclear_features was 0x1 (persistent bitmaps) and is cleared: qemu no longer \
                uses the bitmaps.\n";
    let copy = Copy::with(&image(), "clear-cut");
    let stopped = copy.feed("write IMAGE 33285 --allowance 1", b"hello");
    assert_eq!(stopped.text, format!("stopped after 1 of {}\n{note}", units(1029)));
    assert!(copy.bytes() == bench_image());
    let copy = Copy::with(&image(), "clear");
    let answer = copy.feed("write IMAGE 33270", &data(20, 1));
    assert_eq!(answer.text, format!("wrote 20 bytes at 33270: {}\n{note}", units(1029 + 514)));
    let answer = copy.feed("write IMAGE 33270", &data(20, 2));
    let words = "wrote 20 bytes at 33270: 20 units (counts, table entries and bytes stored)\n";
    assert_eq!(answer.text, words);
    let mut memory = copy.bytes();
    (memory[95], memory[1024 + 19]) = (3, 1);
    let copy = Copy::with(&memory, "clear-discard");
    let answer = copy.run("discard IMAGE 33280 512 --json");
    assert!(answer.text.contains("\"units\": 3,"), "{}", answer.text);
    assert!(answer.text.contains("\"autoclear_cleared\": 3"), "{}", answer.text);
    let copy = Copy::with(&memory, "clear-repair");
    let answer = copy.run("repair IMAGE --force --allowance 1 --json");
    assert!(answer.text.contains("\"units\": 1,"), "{}", answer.text);
    assert_eq!(copy.run("repair IMAGE").text, "repaired: 1 counts set, the image is sound\n");
    let copy = Copy::with(&memory, "clear-forced");
    let answer = copy.run("repair IMAGE --force");
    assert!(answer.text.starts_with("repaired: 1 counts set, the image is sound\n  autoclear"));
    assert_eq!(copy.run("check IMAGE").exit, 0);
}

#[test]
fn leaking_images_are_repaired() {
    for image in ["30-leak-free-cluster.qcow2", "31-leak-two-v2.qcow2", "32-leak-cut-write.qcow2"] {
        let copy = Copy::of(image, "repair");
        assert_eq!(copy.run("check IMAGE").exit, 3);
        assert_eq!(copy.run("repair IMAGE").exit, 0);
        assert_eq!(copy.run("check IMAGE").exit, 0);
        assert!(copy.run("read IMAGE 0 64k").out == guest(image));
        assert_eq!(copy.run("repair IMAGE").text, "sound, nothing to repair\n");
    }
}

#[test]
fn discarded_clusters_read_as_zeros() {
    let copy = Copy::of(IMAGE, "discard");
    let mut guest = guest(IMAGE);
    let answer = copy.run("discard IMAGE 4k 1k");
    assert_eq!(answer.text, format!("discarded 1024 bytes at 4096: {}\n", units(4)));
    guest[4096..5120].fill(0);
    assert!(copy.run("read IMAGE 0 64k").out == guest);
    assert_eq!(copy.run("discard IMAGE 0 0").exit, 0);
    assert_eq!(copy.run("discard IMAGE 0 512 --allowance 1").exit, 1);
    assert!(copy.run("check IMAGE").text.starts_with("leaks 1 "));
    assert_eq!(copy.run("repair IMAGE").exit, 0);
    assert_eq!(copy.run("discard IMAGE 0 64k").exit, 0);
    assert_eq!(copy.run("check IMAGE").exit, 0);
    assert!(copy.run("read IMAGE 0 64k").out == vec![0; 65_536]);
    assert!(copy.run("map IMAGE").text.ends_with("\n0\t65536\tabsent\t-\n"));
    let odd = Copy::of("18-v3-4096-odd-size.qcow2", "discard-odd");
    assert_eq!(odd.run("discard IMAGE 8192 2560").exit, 0);
    assert_eq!(odd.run("check IMAGE").exit, 0);
}

#[test]
fn zero_marks_and_preallocated_clusters() {
    for image in ["10-v3-512-zero.qcow2", "12-v3-512-prealloc-metadata.qcow2"] {
        let copy = Copy::of(image, "zeros");
        let mut guest = guest(image);
        for offset in [700usize, 2100, 3333] {
            assert_eq!(copy.feed(&format!("write IMAGE {offset}"), b"new").exit, 0);
            guest[offset..offset + 3].copy_from_slice(b"new");
        }
        let size = guest.len();
        assert!(copy.run(&format!("read IMAGE 0 {size}")).out == guest);
        assert_eq!(copy.run("check IMAGE").exit, 0);
    }
}
