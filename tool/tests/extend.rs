//! `qstore extend`: what it does to a file, what it refuses and says, and how it goes
//! on after it was stopped.

mod common;

use std::sync::atomic::{AtomicUsize, Ordering};

use common::kept::kept;
use common::made::{made_at, over, put64, put_count, Made};
use common::promise::{guest, verdict};
use common::{bench_image, Answer, Copy, Pair};
use qcow2_core::Verdict;

/// Bytes that one block of 16-bit counts and clusters of 512 bytes counts.
const SPAN: usize = 256 * 512;

/// The answer of a line that must leave the file alone, also its length.
fn unchanged(copy: &Copy, line: &str) -> Answer {
    let before = copy.bytes();
    let answer = copy.run(line);
    assert!(copy.bytes() == before, "{line}");
    answer
}

fn refused(image: &[u8], line: &str, number: u32, sentence: &str) -> String {
    static COPIES: AtomicUsize = AtomicUsize::new(0);
    let name = format!("extend-refused-{}", COPIES.fetch_add(1, Ordering::Relaxed));
    let copy = Copy::with(image, &name);
    let answer = unchanged(&copy, line);
    assert!(answer.exit == 1 && answer.text.is_empty(), "{line}");
    assert!(answer.error.contains(&format!("refused ({number}): ")), "{line}: {}", answer.error);
    assert!(answer.error.contains(sentence), "{line}: {}", answer.error);
    let json = unchanged(&copy, &format!("{line} --json"));
    assert!(json.exit == 1 && json.error.is_empty());
    assert!(json.text.contains(&format!("\"refused\": {number}, \"reason\": \"")), "{}", json.text);
    answer.error
}

fn with(change: impl Fn(&mut Vec<u8>)) -> Vec<u8> {
    let mut image = bench_image();
    change(&mut image);
    image
}

/// Every width, from within the last block to several: qstore says what it did, the
/// image is sound, its disk the same, and there is room for writes.
#[test]
fn files_of_every_width() {
    for order in 0..=6 {
        let Made { mut image, .. } = made_at(order, 3, 9, 40, 65_536);
        _ = qcow2_core::write(&mut image, &[], 33_285, b"hello", u64::MAX);
        let (span, before) = ((4096 >> order) * 512, guest(&image));
        let copy = Copy::with(&image, &format!("extend-order-{order}"));
        for (bytes, blocks) in [(41 * 512, 0), (span, 0), (span + 512, 1), (4 * span, 2)] {
            let from = copy.bytes().len();
            let answer = copy.run(&format!("extend IMAGE {bytes}"));
            let units = blocks * 513;
            let said = format!(
                "extended from {from} to {bytes} bytes: {blocks} new refcount blocks, {units} units"
            );
            assert!(answer.exit == 0 && answer.text.starts_with(&said), "{}", answer.text);
            let after = copy.bytes();
            assert_eq!((after.len(), verdict(&after)), (bytes, Verdict::Sound));
            assert!(guest(&after) == before && after[..from - 512] != [0; 0]);
        }
        let again = unchanged(&copy, &format!("extend IMAGE {}", 4 * span));
        let said = format!("nothing to do: all {} bytes are counted already\n", 4 * span);
        assert_eq!((again.exit, again.text), (0, said));
        let written = copy.feed("write IMAGE 0", &[7; 65_536]);
        assert_eq!(written.exit, 0, "{}", written.error);
    }
}

/// Version 2, a file that ends inside a cluster, and snapshots.
#[test]
fn other_files() {
    let Made { mut image, .. } = made_at(4, 2, 9, 40, 65_536);
    image.truncate(39 * 512 + 100);
    let copy = Copy::with(&image, "extend-part");
    let json = copy.run("extend IMAGE 256k --json");
    let said = "\"old_length\": 20068, \"length\": 262144, \"blocks\": 1, \"units\": 513, \
                \"finished\": true, \"leaks\": 0}\n";
    assert!(json.exit == 0 && json.text.ends_with(said), "{}", json.text);
    assert_eq!(verdict(&copy.bytes()), Verdict::Sound);
    let made = kept(3);
    let copy = Copy::with(&made.bytes, "extend-kept");
    let before = copy.run("read IMAGE 0 64k --snapshot #1").out;
    assert_eq!(copy.run("extend IMAGE 1M").exit, 0);
    assert!(copy.run("read IMAGE 0 64k --snapshot #1").out == before && before.len() == 65_536);
    assert_eq!(verdict(&copy.bytes()), Verdict::Sound);
}

/// The bits are cleared where a block is made, and left where none is.
#[test]
fn autoclear_bits() {
    let copy = Copy::with(&with(|image| image[95] = 1), "extend-bits");
    let within = copy.run("extend IMAGE 16k");
    assert!(within.exit == 0 && !within.text.contains("cleared"), "{}", within.text);
    assert_eq!(copy.bytes()[95], 1);
    let answer = copy.run("extend IMAGE 256k");
    assert!(answer.text.contains("514 units") && answer.exit == 0, "{}", answer.text);
    assert!(answer.text.contains("\n  autoclear_features was 0x1 (persistent bitmaps) and is"));
    assert_eq!(copy.bytes()[95], 0);
}

/// Counts past the old end are those of clusters that are there now.
#[test]
fn leaks() {
    let Made { mut image, block_at, .. } = made_at(4, 3, 9, 40, 65_536);
    [45, 50].into_iter().for_each(|cluster| put_count(&mut image[block_at..], 4, cluster, 1));
    let copy = Copy::with(&image, "extend-leaks");
    let answer = copy.run("extend IMAGE 256k");
    assert!(answer.exit == 0, "{}", answer.error);
    assert!(answer.text.ends_with("\n  The image leaks 2: 'qstore check' says more.\n"));
    assert_eq!(verdict(&copy.bytes()), Verdict::Leaks(2));
    assert!(copy.run("repair IMAGE").exit == 0 && verdict(&copy.bytes()) == Verdict::Sound);
}

/// Stopped at any unit: other commands are refused and name this one, which finishes
/// the work with the same bytes.
#[test]
fn stopped_and_finished() {
    let mut image = bench_image();
    image[95] = 1;
    let bytes = 2 * SPAN + 512;
    let line = format!("extend IMAGE {bytes}");
    let whole = Copy::with(&image, "extend-whole");
    assert_eq!(whole.run(&line).exit, 0);
    for allowance in [0, 1, 2, 512, 513, 514, 515, 1026] {
        let copy = Copy::with(&image, "extend-stopped");
        let stopped = copy.run(&format!("{line} --allowance {allowance}"));
        let said = format!("stopped after {allowance} of 1027 units");
        assert!(stopped.exit == 1 && stopped.text.starts_with(&said), "{}", stopped.text);
        assert!(stopped.text.contains("\n  The same command finishes the work; until then the"));
        for other in ["check IMAGE", "map IMAGE", "read IMAGE 0 1", "repair IMAGE"] {
            let answer = unchanged(&copy, other);
            assert!(answer.exit == 1 && answer.error.contains("refused (10): "));
            let named = answer.error.contains(&format!("`qstore extend {} {bytes}`", name(&copy)));
            // While the bits stand they are not given up by advice.
            assert_eq!(named, allowance > 0, "{}", answer.error);
        }
        assert_eq!(unchanged(&copy, "write IMAGE 0").exit, 1);
        let finished = copy.run(&line);
        assert!(finished.exit == 0 && copy.bytes() == whole.bytes(), "{}", finished.error);
        assert!(finished.text.starts_with(&format!("took {bytes} bytes in: ")));
    }
}

fn name(copy: &Copy) -> &str {
    copy.path.to_str().expect("a name in UTF-8")
}

/// Another length after the cut will do, if it is no shorter.
#[test]
fn another_length_after_a_cut() {
    let copy = Copy::with(&bench_image(), "extend-other");
    assert_eq!(copy.run(&format!("extend IMAGE {} --allowance 600", 4 * SPAN)).exit, 1);
    let less = unchanged(&copy, &format!("extend IMAGE {}", 2 * SPAN));
    assert!(less.exit == 1, "{}", less.error);
    let said = "not changed: the file has 524288 bytes, more than 262144.\n  No command makes";
    assert!(less.error.contains(said), "{}", less.error);
    let json = unchanged(&copy, &format!("extend IMAGE {} --json", 2 * SPAN));
    assert!(json.text.contains("\"failed\": \"not changed: the file has 524288 bytes"));
    assert_eq!(copy.run("extend IMAGE 1M").exit, 0);
    assert_eq!(verdict(&copy.bytes()), Verdict::Sound);
}

#[test]
fn lengths() {
    let image = bench_image();
    let near = "no whole number of clusters of 512\n  The nearest that can be asked for: ";
    refused(&image, "extend IMAGE 10000", 5, &format!("{near}9728 or 10240."));
    refused(&image, "extend IMAGE 8193", 5, &format!("{near}8192 or 8704."));
    refused(&image, "extend IMAGE 8191", 5, &format!("{near}8192."));
    refused(&image, "extend IMAGE 8388609", 5, &format!("{near}8388608."));
    let far = "Lengths from 8192 to 8388608 can be asked for, by whole clusters.";
    refused(&image, "extend IMAGE 1", 5, far);
    refused(&image, "extend IMAGE 9000001", 5, far);
    let above = "bytes are asked for; at most 1073741824 are accepted\n  This image can have \
                 8388608 bytes at most.";
    refused(&image, "extend IMAGE 1073741825", 5, above);
    refused(&image, "extend IMAGE 0xffffffffffffffff", 5, above);
    let large = common::with_clusters(16, 8, 1 << 20);
    let above = "This image can have 1073741824 bytes at most.";
    refused(&large, "extend IMAGE 1073741825", 5, above);
}

/// A refcount table that is too short, and what can be done.
#[test]
fn a_table_that_is_too_short() {
    let short = "the refcount table has 64 entries, which is enough for 8388608 bytes; 8389120 \
                 bytes need 65";
    let said = refused(&bench_image(), "extend IMAGE 8389120", 9, short);
    assert!(said.contains("Make a new image, of whole clusters: `qemu-img convert "), "{said}");
    assert!(said.contains("'qstore extend' makes it longer."), "{said}");
    let copy = Copy::with(&bench_image(), "extend-table");
    assert_eq!(copy.run("extend IMAGE 8388608").exit, 0);
    assert_eq!(verdict(&copy.bytes()), Verdict::Sound);
    // None at all, and one that is not there.
    refused(&with(|image| image[59] = 0), "extend IMAGE 16k", 9, "has 0 entries");
    let past = "the L1 table stands at 1099511629312 and has 16 bytes, so it runs past";
    refused(&with(|image| image[42] = 1), "extend IMAGE 16k", 9, past);
}

/// Entries of the refcount table that no run has left there.
#[test]
fn wrong_entries() {
    let two = |index: usize, entry: u64| with(|image| put64(image, 512 + 8 * index, entry));
    let line = format!("extend IMAGE {}", 4 * SPAN);
    let none = "refcount table entry 0 is 0, so clusters 0 and up have no stored count";
    refused(&two(0, 0), &line, 10, none);
    let no_cluster =
        "refcount table entry 0 is 0x401, which is no cluster of 512 bytes inside 524288";
    refused(&two(0, 0x401), &line, 10, no_cluster);
    let not_its_own = "refcount table entry 2 is 0x600; the entries before it are 0 from 1 on, so \
                       that it has to be 0 or 0x40000, where that block is to go";
    refused(&two(2, 0x600), &line, 10, not_its_own);
    let past = "refcount table entry 9 names a block at 1024, but its clusters lie past";
    refused(&two(9, 1024), &line, 10, past);
    // No run names a block before those below it.
    let said =
        "the first 8192 bytes, which its refcount blocks count, are no image by themselves: \
                refcount table entry 2 names a block";
    refused(&two(2, 2 * SPAN as u64), &line, 10, said);
}

/// Every number of the header, also where zeros after the file would hide it.
#[test]
fn headers() {
    type Case<'a> = (u32, &'a dyn Fn(&mut Vec<u8>));
    let cases: [Case; 12] = [
        (1, &|image| image.truncate(511)),
        (1, &|image| image.clear()),
        (2, &|image| image[0] = 0),
        (3, &|image| image[7] = 4),
        (4, &|image| image[23] = 22),
        (6, &|image| image[103] = 112),
        (7, &|image| image[79] = 1),
        (8, &|image| image[24] = 1),
        (18, &|image| (image[31], image[39]) = (1, 3)),
        (9, &|image| image[55] = 1),
        (19, &|image| image[15] = 1),
        (21, &|image| (image[63], image[71]) = (1, 1)),
    ];
    for (number, change) in cases {
        refused(&with(change), "extend IMAGE 256k", number, "refused");
    }
}

/// What the image was before has to be sound or to leak.
#[test]
fn damage() {
    for line in ["extend IMAGE 16k", "extend IMAGE 256k"] {
        let copy = Copy::with(&with(|image| image[1027] = 0), "extend-damage");
        let answer = unchanged(&copy, line);
        assert_eq!(answer.exit, 2, "{}", answer.error);
        let said = "not changed: damaged: cluster 1 (at 512) is in use, but its stored count is 0";
        assert!(answer.error.contains(said), "{}", answer.error);
        let json = unchanged(&copy, &format!("{line} --json"));
        assert!(json.exit == 2 && json.text.contains("\"verdict\": \"damaged\""));
    }
    // The L1 table lies past what the blocks count.
    let far = with(|image| {
        image.resize(2 * SPAN, 0);
        put64(image, 40, SPAN as u64 + 1024);
    });
    let said = "the first 131072 bytes, which its refcount blocks count, are no image by \
                themselves: the L1 table stands at 132096";
    refused(&far, "extend IMAGE 1M", 9, said);
    // Data lies there, and its blocks are lost.
    let Made { mut image, table_at, .. } = made_at(4, 3, 9, 600, 1 << 18);
    for offset in (0..200_000).step_by(512) {
        _ = qcow2_core::write(&mut image, &[], offset, &[7; 512], u64::MAX);
    }
    image[table_at + 8..table_at + 24].fill(0);
    let copy = Copy::with(&image, "extend-lost");
    let answer = unchanged(&copy, "extend IMAGE 512k");
    assert_eq!(answer.exit, 2, "{}", answer.error);
    assert!(answer.error.contains("lies past the file's end"), "{}", answer.error);
}

/// As with every other command the backing file has to be given.
#[test]
fn over_a_backing_file() {
    let Made { mut image, .. } = made_at(4, 3, 9, 40, 65_536);
    over(&mut image, b"b.raw", Some(b"raw"));
    refused(&image, "extend IMAGE 256k", 19, "--backing");
    let pair = Pair::with(&image, &[5; 7000], "extend-over");
    let before = pair.run("read IMAGE 0 64k").out;
    let line = format!("extend IMAGE {}", 3 * SPAN);
    let stopped = pair.run(&format!("{line} --allowance 300"));
    assert!(stopped.exit == 1 && stopped.text.starts_with("stopped after 300 of 1026 units"));
    let check = pair.run("check IMAGE");
    let file = pair.backing.path.to_str().unwrap();
    let command = format!("`qstore extend {} {} --backing {file}`", name(&pair.image), 3 * SPAN);
    assert!(check.exit == 1 && check.error.contains(&command), "{}", check.error);
    let finished = pair.run(&line);
    assert!(finished.exit == 0, "{}", finished.error);
    assert!(pair.run("read IMAGE 0 64k").out == before && before[..7000] == [5; 7000]);
    assert_eq!(pair.run("check IMAGE").exit, 0);
}
