//! Refusals and failures: exit code, number, sentence, and the file as it was.

mod common;

use std::fs::OpenOptions;

use common::{bench_image, qstore, Answer, Copy};

/// The answer of a line that must leave the file alone.
fn unchanged(copy: &Copy, line: &str, input: &[u8]) -> Answer {
    let before = copy.bytes();
    let answer = copy.feed(line, input);
    assert!(copy.bytes() == before, "{line}");
    answer
}

fn refused(copy: &Copy, line: &str, input: &[u8], number: u32, sentence: &str) {
    let answer = unchanged(copy, line, input);
    assert_eq!(answer.exit, if number == 17 { 2 } else { 1 }, "{line}");
    assert!(answer.error.contains(&format!("refused ({number}): ")), "{line}: {}", answer.error);
    assert!(answer.error.contains(sentence), "{line}: {}", answer.error);
    assert!(answer.text.is_empty() && answer.error.lines().count() >= 2);
    let json = unchanged(copy, &format!("{line} --json"), input);
    assert!(json.text.contains(&format!("\"refused\": {number}, \"reason\": \"")), "{}", json.text);
    assert!(json.error.is_empty());
}

/// The same from info, which answers on standard output.
fn listed(copy: &Copy, number: u32, sentence: &str) {
    let answer = unchanged(copy, "info IMAGE", &[]);
    assert!(answer.exit == 1 && answer.error.is_empty(), "{}", answer.error);
    let first = answer.text.lines().find(|line| line.starts_with("refused (")).unwrap();
    assert!(first.starts_with(&format!("refused ({number}): ")), "{first}");
    assert!(answer.text.contains(sentence), "{sentence}: {}", answer.text);
    let json = unchanged(copy, "info IMAGE --json", &[]);
    assert!(json.exit == 1 && json.error.is_empty());
    let first = format!("\"obstacles\": [{{\"number\": {number}, \"reason\": \"");
    assert!(json.text.contains(&first), "{}", json.text);
    assert!(json.text.contains(&format!("\"refused\": {number}, \"reason\": \"")));
}

fn with(test: &str, change: &dyn Fn(&mut Vec<u8>)) -> Copy {
    let mut image = bench_image();
    change(&mut image);
    Copy::with(&image, test)
}

#[test]
fn headers() {
    type Case<'a> = (u32, &'a str, &'a dyn Fn(&mut Vec<u8>));
    let cases: [Case; 40] = [
        (1, "511 bytes", &|image| image.truncate(511)),
        (2, "a QED image", &|image| image[..4].copy_from_slice(b"QED\0")),
        (3, "version is 4", &|image| image[7] = 4),
        (
            4,
            "cluster_bits is 22; 9 to 21 are accepted (clusters of 512 to 2097152 bytes)",
            &|image| image[23] = 22,
        ),
        (4, "cluster_bits is 8; ", &|image| image[23] = 8),
        (5, "clusters of 131072 bytes (122880 are missing to the next)", &|image| image[23] = 17),
        (5, "it seems to be cut short", &|image| image[23] = 21),
        (5, "it seems to be cut short", &|image| image.truncate(1100)),
        (5, "`truncate -s %512 ", &|image| image.push(0)),
        (19, "a backing file whose name has no byte", &|image| image[15] = 1),
        (6, "LUKS", &|image| image[35] = 2),
        (6, "65 internal snapshots, and at most 64 are accepted", &|image| image[63] = 65),
        (6, "refcount_order is 7, and only 0 to 6 are accepted", &|image| image[99] = 7),
        (6, "refcount_order is 16777220, and only", &|image| image[96] = 1),
        (6, "`printf h | dd of=", &|image| image[103] = 112),
        (6, "such a compression type", &|image| image[103..105].copy_from_slice(&[112, 1])),
        (7, "bit 0 (dirty", &|image| image[79] = 1),
        (7, "bit 4 (extended L2 entries)", &|image| image[79] = 16),
        (8, "reach 65536 bytes, the disk has 65537", &|image| image[31] = 1),
        (8, "at most 2^40", &|image| image[24] = 1),
        (8, "has 65537 entries; at most 65536 are", &|image| {
            image[36..40].copy_from_slice(&65_537u32.to_be_bytes())
        }),
        (18, "the disk has 65537 bytes, which is not", &|image| (image[31], image[39]) = (1, 3)),
        (18, "`qemu-img resize -f qcow2 ", &|image| (image[31], image[39]) = (1, 3)),
        (18, " 66048`", &|image| (image[31], image[39]) = (1, 3)),
        (18, "(256 are missing to the next)", &|image| image[29..32].copy_from_slice(&[0, 9, 0])),
        (9, "has 0 entries, and 1 are needed", &|image| image[59] = 0),
        (9, "runs past the file's end", &|image| image[42] = 1),
        (9, "has 32776 bytes, so it runs past", &|image| image[38..40].copy_from_slice(&[16, 1])),
        (9, "no multiple of 512", &|image| image[55] = 1),
        (10, "entry 0 is 0", &|image| image[518..520].copy_from_slice(&[0, 0])),
        (10, "entry 0 is 0x500, which is no cluster", &|image| image[518] = 5),
        (10, "entry 0 is 0x2000, which is no cluster", &|image| image[518] = 32),
        (10, "entry 1 names a block", &|image| image[526] = 4),
        (21, "the snapshot table stands at 2049, which is no multiple of 512", &|image| {
            (image[63], image[70], image[71]) = (1, 8, 1)
        }),
        (21, "entry 0 of the snapshot table at 8192 runs past the file's end at 8192", &|image| {
            (image[63], image[70]) = (1, 32)
        }),
        (21, "entry 12 of the snapshot table at 7680 runs past the file's end", &|image| {
            (image[63], image[70]) = (13, 30)
        }),
        (21, "snapshot #0 (id \"\", name \"\") stands at 513, which is no multiple", &|image| {
            (image[63], image[70]) = (1, 8);
            image[2054..2056].copy_from_slice(&[2, 1]);
        }),
        (21, "name \"\") has 65537 entries; at most 65536 are accepted", &|image| {
            (image[63], image[70]) = (1, 8);
            image[2056..2060].copy_from_slice(&65_537u32.to_be_bytes());
        }),
        (
            21,
            "snapshot #1 (id \"\", name \"\") stands at 7680 and has 520 bytes, so it runs",
            &|image| {
                (image[63], image[70]) = (2, 8);
                (image[2094], image[2099]) = (30, 65);
            },
        ),
        (21, "snapshot #0 (id \"\", name \"\") stands at 72057594037927936 and has 0", &|image| {
            (image[63], image[70], image[2048]) = (1, 8, 1)
        }),
    ];
    for (number, sentence, change) in cases {
        let copy = with("headers", change);
        listed(&copy, number, sentence);
        for line in ["check IMAGE", "map IMAGE", "read IMAGE 0 1", "repair IMAGE"] {
            refused(&copy, line, &[], number, sentence);
        }
        refused(&copy, "write IMAGE 0", b"x", number, sentence);
        refused(&copy, "discard IMAGE 0 512", &[], number, sentence);
    }
}

#[test]
fn requests() {
    let copy = Copy::with(&bench_image(), "requests");
    refused(&copy, "read IMAGE 65535 2", &[], 11, "From 65535 on there are 1 bytes");
    refused(&copy, "read IMAGE 0xffffffffffffffff 2", &[], 11, "disk's end at 65536");
    refused(&copy, "read IMAGE 0xffffffffffffffff 1", &[], 11, "disk's end at 65536");
    refused(&copy, "write IMAGE 65530", &[1; 7], 11, "more than 6 bytes at guest offset 65530");
    refused(&copy, "write IMAGE 65537", &[], 11, "disk's end");
    refused(&copy, "discard IMAGE 64k 512", &[], 11, "disk's end");
    let needs = "needs 13 free clusters of 512 bytes (12 for its bytes, 1 for L2 tables)";
    refused(&copy, "write IMAGE 0", &[1; 6144], 14, needs);
    let needs = "needs 130 free clusters of 512 bytes (128 for its bytes, 2 for L2 tables)";
    refused(&copy, "write IMAGE 0", &[1; 65_536], 14, needs);
    let whole = unchanged(&copy, "discard IMAGE 100 1000", &[]);
    assert_eq!(whole.exit, 1);
    assert!(whole.error.contains("whole guest clusters of 512 bytes"));
    assert!(whole.error.contains("512 bytes at 512"));
    assert_eq!(copy.run("read IMAGE 64k 0").exit, 0);
}

#[test]
fn damage() {
    for (image, sentence) in [
        ("40-short-data.qcow2", "cluster 5 (at 2560) is in use, but its stored count is 0"),
        ("43-shared-data.qcow2", "cluster 5 (at 2560) has two references"),
        ("51-entry-l2-bit63-no-place.qcow2", "bit 63 is set, but no place"),
        ("52-entry-v2-bit0.qcow2", "bit 0 is set, which version 2"),
    ] {
        let copy = Copy::of(image, "damage");
        refused(&copy, "repair IMAGE", &[], 17, sentence);
        for line in ["write IMAGE 0", "discard IMAGE 0 512"] {
            let answer = unchanged(&copy, line, b"x");
            assert_eq!(answer.exit, 2, "{line}");
            assert!(answer.error.contains("not changed: damaged"), "{}", answer.error);
            assert!(answer.error.contains(sentence), "{}", answer.error);
        }
    }
    let copy = Copy::of("51-entry-l2-bit63-no-place.qcow2", "entry");
    refused(&copy, "read IMAGE 15360 1", &[], 12, "L2 entry 30 below L1 entry 0");
    assert_eq!(copy.run("read IMAGE 0 15360").exit, 0);
    let map = copy.run("map IMAGE");
    assert!(map.exit == 1 && map.text.contains("\n15360\t512\trefused\t12\n"));
    let compressed = with("compressed", &|image| {
        _ = qcow2_core::write(image, &[], 0, b"x", u64::MAX);
        image[2048] |= 0x40;
    });
    refused(&compressed, "read IMAGE 0 1", &[], 13, "a compressed cluster");
}

#[test]
fn files_that_are_too_long() {
    let copy = Copy::with(&bench_image(), "long");
    OpenOptions::new().write(true).open(&copy.path).unwrap().set_len((1 << 30) + 512).unwrap();
    let info = copy.run("info IMAGE");
    assert_eq!(info.exit, 1);
    let sentence = "\nrefused (5): the file has 1073742336 bytes; at most 1073741824 are";
    assert!(info.text.contains(sentence), "{}", info.text);
    for line in ["read IMAGE 0 1", "write IMAGE 0"] {
        let answer = copy.run(line);
        assert_eq!(answer.exit, 1);
        let sentence = "refused (5): the file has 1073742336 bytes; at most 1073741824 are";
        assert!(answer.error.contains(sentence), "{}", answer.error);
    }
    OpenOptions::new().write(true).open(&copy.path).unwrap().set_len(1 << 30).unwrap();
    assert!(copy.run("check IMAGE").error.contains("refused (9)"));
}

/// A leaked cluster may be a bitmap's: only a forced repair frees it.
#[test]
fn bitmaps_are_not_repaired_away_by_accident() {
    for (bits, sentence) in [(1, "0x1 (persistent bitmaps)"), (2, "0x2, and what looks leaked")] {
        let copy = with("autoclear", &|image| (image[95], image[1024 + 9]) = (bits, 1));
        let answer = unchanged(&copy, "repair IMAGE", &[]);
        assert_eq!(answer.exit, 1);
        assert!(answer.error.contains("not changed: autoclear_features is "), "{}", answer.error);
        assert!(answer.error.contains(sentence), "{}", answer.error);
        let check = unchanged(&copy, "check IMAGE", &[]);
        assert_eq!(check.exit, 3);
        assert!(check.text.contains("Do not repair it while"), "{}", check.text);
    }
    // Where nothing looks leaked, there is nothing to guard.
    let copy = with("autoclear-sound", &|image| image[95] = 1);
    assert_eq!(unchanged(&copy, "repair IMAGE", &[]).text, "sound, nothing to repair\n");
    let copy = with("autoclear-damaged", &|image| (image[95], image[1024 + 3]) = (1, 0));
    refused(&copy, "repair IMAGE", &[], 17, "stored count is 0");
    refused(&copy, "repair IMAGE --force", &[], 17, "stored count is 0");
}

/// Requests that store nothing leave the autoclear bits.
#[test]
fn autoclear_bits_are_left() {
    let copy = with("autoclear-left", &|image| image[88] = 1);
    for (line, exit) in [
        ("write IMAGE 0", 0),
        ("discard IMAGE 0 64k", 0),
        ("repair IMAGE", 0),
        ("info IMAGE", 0),
        ("check IMAGE", 0),
        ("write IMAGE 65537", 1),
        ("discard IMAGE 0 64k --allowance 0", 0),
    ] {
        let answer = unchanged(&copy, line, &[]);
        assert_eq!(answer.exit, exit, "{line}");
        assert!(!answer.text.contains("cleared"), "{line}");
    }
    let info = unchanged(&copy, "info IMAGE", &[]).text;
    assert!(info.contains("\nautoclear_features: 0x100000000000000: bit 56 "), "{info}");
    let answer = unchanged(&copy, "write IMAGE 0 --allowance 0", b"x");
    assert!(answer.text.starts_with("stopped after 0 of 1029 units ("), "{}", answer.text);
}

#[test]
fn lines() {
    for line in [&["check", "/nowhere/image"][..], &["check", "/"], &["check"], &["frob"], &[]] {
        let answer = qstore(line, &[]);
        assert!(answer.exit == 1 && answer.error.starts_with("qstore: "), "{line:?}");
    }
    for command in ["info", "check", "repair", "map", "read", "write", "discard", "extend"] {
        let answer = qstore(&[command, "--help"], &[]);
        assert!(answer.exit == 0 && answer.text.starts_with(&format!("qstore {command} IMAGE")));
    }
    assert!(qstore(&["--help"], &[]).text.contains("Exit: "));
    assert!(qstore(&["--version"], &[]).text.starts_with("qstore "));
}
