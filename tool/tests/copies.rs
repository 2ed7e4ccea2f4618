//! What is said of a new image: what it lacks, whether a comparison says
//! anything, the format that is named, and when none can be made.

mod common;

use std::fs::{self, OpenOptions};
use std::os::unix::ffi::OsStringExt;
use std::path::Path;
use std::process::Command;

use common::kept::{copied, kept, TABLE};
use common::made::{get64, made, put64, Made};
use common::{bench_image, Copy};

type Change<'a> = &'a dyn Fn(&mut Vec<u8>);

fn with(test: &str, change: Change) -> Copy {
    let mut image = bench_image();
    _ = qcow2_core::write(&mut image, &[], 0, b"x", u64::MAX);
    change(&mut image);
    Copy::with(&image, test)
}

/// What check says, refused or not.
fn said(copy: &Copy) -> String {
    let answer = copy.run("check IMAGE");
    answer.text + &answer.error
}

fn too_long(copy: &Copy) {
    OpenOptions::new().write(true).open(&copy.path).unwrap().set_len((1 << 30) + 512).unwrap();
}

fn l2_at(image: &[u8]) -> usize {
    (get64(image, 1536) & 0x00FF_FFFF_FFFF_FE00) as usize
}

fn set_l2(image: &mut [u8], index: usize, entry: u64) {
    let at = l2_at(image) + 8 * index;
    put64(image, at, entry);
}

/// Under every number that a new image is advised for.
#[test]
fn what_the_new_one_lacks() {
    let cases: [(&str, bool, Change); 7] = [
        ("(5)", true, &|_| ()),
        ("(19)", false, &|image| (image[14], image[15]) = (1, 0x40)),
        ("(7)", false, &|image| image[79] = 1),
        ("(9)", false, &|image| image.resize((1 << 23) + 512, 0)),
        ("(10)", false, &|image| image[518] = 5),
        ("damaged", false, &|image| image[1025] = 0),
        ("damaged", false, &|image| set_l2(image, 1, 1 << 63)),
    ];
    for (number, long, change) in cases {
        let bitmaps = with("lacks-bitmaps", &|image| (image[95] = 1, change(image)).1);
        let extension = with("lacks-extension", &|image| {
            image[104..108].copy_from_slice(&0x2385_2875u32.to_be_bytes());
            change(image);
        });
        for copy in [bitmaps, extension] {
            if long {
                too_long(&copy);
            }
            let text = said(&copy);
            assert!(text.contains(number), "{number}: {text}");
            assert!(text.contains("lacks the persistent bitmaps: keep the old one"), "{text}");
            assert!(!text.contains("until"), "{text}");
        }
    }
    // With both, and a snapshot comes before most other numbers.
    let copy = with("lacks-snapshots", &|image| (image[63], image[95]) = (65, 1));
    too_long(&copy);
    let text = said(&copy);
    assert!(text.contains("refused (5)"), "{text}");
    assert!(text.contains("lacks the snapshots (it has the active disk alone) and the persistent"));
    let plain = with("lacks-nothing", &|_| ());
    too_long(&plain);
    let text = said(&plain);
    assert!(text.contains("Keep the old one until `qemu-img compare -f qcow2 -F qcow2 "), "{text}");
    assert!(text.contains("The entries of its tables were not looked at"), "{text}");
}

/// A comparison says nothing of an image and a copy that was read by the same
/// bad entries, whatever the number is.
#[test]
fn bad_entries() {
    let reserved: Change = &|image| set_l2(image, 0, 1 << 63 | 0x1300);
    let no_place: Change = &|image| set_l2(image, 1, 1 << 63);
    let past: Change = &|image| set_l2(image, 1, 1 << 63 | 1 << 20);
    for (change, cut) in [(reserved, false), (no_place, false), (past, true)] {
        for (number, more) in [("damaged", 0), ("refused (7)", 1)] {
            let copy = with("bad-entries", &|image| (image[79] = more, change(image)).1);
            let text = said(&copy);
            assert!(text.contains(number) && text.contains("Keep this file for good"), "{text}");
            assert!(text.contains("`qemu-img convert --salvage -f qcow2 "), "{text}");
            assert!(!text.contains("qemu-img compare"), "{text}");
            assert_eq!(text.contains("cut short: look for a whole copy first"), cut, "{text}");
        }
    }
    // Short counts: all bytes are there, and a comparison says so.
    let short = with("bad-short", &|image| image[1025] = 0);
    let text = said(&short);
    assert!(text.contains("The disk's bytes are all there") && text.contains("qemu-img compare"));
    // A wrong bit 63 is nothing to who reads.
    let clear: Change = &|image| {
        let at = l2_at(image);
        image[at] = 0;
    };
    let text = said(&with("bad-clear", clear));
    assert!(text.starts_with("damaged: mark of L2 entry 0 below L1 entry 0: bit 63 is"), "{text}");
    assert!(!text.contains("--salvage") && text.contains("qemu-img compare"), "{text}");
}

/// What only a snapshot names past the end: the file is cut short too, and a copy
/// of the disk needs no salvage.
#[test]
fn cut_short_for_a_snapshot() {
    let mut made = copied();
    made.put64(TABLE + 8, 15 * 512);
    made.set_count(15, 1);
    for (length, cut) in [(15 * 512 + 1, false), (14 * 512 + 1, true), (7 * 512 + 1, true)] {
        let mut image = made.bytes.clone();
        image.truncate(length);
        let text = said(&Copy::with(&image, "cut-kept"));
        assert!(text.contains("refused (5)"), "{text}");
        let advised = text.contains("It seems to be cut short: look for a whole copy first.");
        assert_eq!(advised, cut, "{length}: {text}");
        assert_eq!(text.contains("`truncate -s %512 "), !cut, "{length}: {text}");
        assert_eq!(text.contains("--salvage"), length < 8 * 512, "{length}: {text}");
    }
    // Its table and its L1 table, where the file ends before them.
    let mut made = kept(1);
    made.put64(64, 13 * 512);
    made.bytes.copy_within(6 * 512..7 * 512, 13 * 512);
    made.put64(13 * 512, 14 * 512);
    for (length, sentence) in [
        (13 * 512, "entry 0 of the snapshot table at 6656 runs past the file's end at 6656"),
        (14 * 512, "stands at 7168 and has 16 bytes, so it runs past the file's end at 7168"),
    ] {
        let mut image = made.bytes.clone();
        image.truncate(length);
        let text = said(&Copy::with(&image, "cut-table"));
        assert!(text.contains("refused (21)") && text.contains(sentence), "{text}");
        assert!(
            text.contains("look for a whole copy first") && text.contains("lacks the snapshots")
        );
    }
}

/// Padding is not advised apart from the copy, which may have failed.
#[test]
fn a_copy_is_one_command() {
    let text = said(&with("one-command", &|image| image[63] = 65));
    let command = text.split('`').nth(1).unwrap();
    assert!(command.starts_with("qemu-img convert -f qcow2 -O qcow2 "), "{text}");
    assert!(command.contains(".new && truncate -s %65536 "), "{text}");
    assert_eq!(text.matches("truncate").count(), 1, "{text}");
}

#[test]
fn the_format_is_named() {
    let cases: [(&[u8], &str); 9] = [
        (b"QED\0", "qed"),
        (b"WithoutFreeSpace", "parallels"),
        (b"WithouFreSpacExt", "parallels"),
        (b"KDMV", "vmdk"),
        (b"vhdxfile", "vhdx"),
        (b"conectix", "vpc"),
        (b"<<< Oracle", "vdi"),
        (b"# Disk DescriptorFile", "raw"),
        (b"QFI\xFB\0\0\0\x01", "qcow"),
    ];
    for (magic, format) in cases {
        let text = said(&with("format", &|image| image[..magic.len()].copy_from_slice(magic)));
        assert!(text.contains(&format!("`qemu-img convert -f {format} -O qcow2 ")), "{text}");
        assert!(text.contains(&format!("`qemu-img compare -f {format} -F qcow2 ")), "{text}");
        let fits = !["raw", "qcow"].contains(&format);
        assert_eq!(text.contains("only if the file was made as one"), fits, "{text}");
    }
}

/// The disk is lengthened before it is copied.
#[test]
fn whole_sectors_first() {
    let first = |copy: &Copy| {
        let text = copy.run("info IMAGE").text;
        let (resize, convert) = (text.find("`qemu-img resize "), text.find("`qemu-img convert "));
        assert!(resize.is_some() && resize < convert, "{text}");
        assert_eq!(text.matches("`qemu-img resize ").count(), 1, "{text}");
        assert!(!text.contains("The new one lacks"), "{text}");
        text
    };
    let copy = with("sectors-first", &|image| (image[103], image[31], image[39]) = (120, 1, 3));
    let text = first(&copy);
    assert!(text.contains("refused (6)") && text.contains("refused (18)"), "{text}");
    assert!(text.contains("The command that (6) begins with takes this away."), "{text}");
    assert!(said(&copy).contains("`qemu-img resize -f qcow2 "));
    // 18 comes first by itself.
    let copy = with("sectors-then", &|image| (image[31], image[39], image[518]) = (1, 3, 5));
    let text = first(&copy);
    assert!(text.find("refused (18)") < text.find("refused (10)"), "{text}");
}

#[test]
fn names_that_cannot_be_printed() {
    let copy = with("name", &|image| image[63] = 65);
    for name in [&b"name-\xFF"[..], b"name-\x1B[2J"] {
        let mut path = copy.path.clone().into_os_string().into_vec();
        path.extend(name);
        let path = std::ffi::OsString::from_vec(path);
        fs::copy(&copy.path, &path).unwrap();
        for command in ["check", "info"] {
            let output = Command::new(env!("CARGO_BIN_EXE_qstore"))
                .arg(command)
                .arg(&path)
                .output()
                .unwrap();
            let text =
                String::from_utf8_lossy(&[output.stdout, output.stderr].concat()).into_owned();
            assert!(text.contains("The file's name cannot be printed"), "{text}");
            assert!(!text.contains('`') && !text.contains("qemu-img"), "{text}");
        }
        fs::remove_file(Path::new(&path)).unwrap();
    }
}

/// No command where qemu refuses the image too, whatever the number is.
#[test]
fn what_qemu_refuses() {
    let cases: [(&str, Change); 10] = [
        ("such a compression type", &|image| image[79] = 8),
        ("such a compression type", &|image| (image[79], image[103], image[104]) = (8, 112, 0)),
        ("such a compression type", &|image| (image[103], image[104]) = (112, 1)),
        ("such a crypt_method", &|image| image[35] = 3),
        ("such a refcount_order", &|image| image[99] = 7),
        ("such a header_length", &|image| image[103] = 96),
        ("such tables", &|image| (image[63], image[24]) = (65, 1)),
        ("such a snapshot table", &|image| (image[63], image[71]) = (65, 1)),
        ("such a snapshot table", &|image| (image[61], image[63]) = (1, 1)),
        ("Only a program that knows all bits", &|image| (image[63], image[79]) = (65, 32)),
    ];
    for (reason, change) in cases {
        let (copy, long) = (with("refuses", change), with("refuses-long", change));
        too_long(&long);
        for text in [said(&copy), said(&long), copy.run("info IMAGE").text] {
            assert!(text.contains(reason), "{reason}: {text}");
            assert!(!text.contains('`') && !text.contains("with the key"), "{text}");
        }
    }
    // A snapshot with more extra data than qemu takes, whether or not it is there.
    for (extra, refuses) in [(1024u32, false), (1025, true), (u32::MAX, true)] {
        let copy = with("refuses-extra", &|image| {
            (image[63], image[69], image[70]) = (1, 0, 28);
            image[7168 + 36..7168 + 40].copy_from_slice(&extra.to_be_bytes());
        });
        let text = said(&copy);
        assert!(text.contains("refused (21): entry 0 of the snapshot table at 7168"), "{text}");
        assert_eq!(text.contains("such a snapshot table"), refuses, "{text}");
        assert_eq!(text.contains('`'), !refuses, "{text}");
    }
    let text = said(&with("encrypted", &|image| image[35] = 2));
    assert!(text.contains("Only qemu with the key can read it"), "{text}");
    // zstd, and a data file, which qemu needs, under any number.
    let text = said(&with("zstd", &|image| (image[79], image[103], image[104]) = (8, 112, 1)));
    assert!(text.contains("`qemu-img convert "), "{text}");
    let copy = with("data-file", &|image| (image[79], image[103]) = (4, 112));
    let text = said(&copy);
    assert!(text.contains("(6)") && text.contains("could name any file of yours"), "{text}");
}

/// A block past the end that is in use: the image would be damaged.
#[test]
fn blocks_that_are_in_use() {
    let Made { image, block_at, l1_at, .. } = made(3, 9, 300, 1 << 20);
    let cut = |mut image: Vec<u8>, second: usize| {
        image.truncate(200 * 512);
        put64(&mut image, 512 + 8, second as u64);
        said(&Copy::with(&image, "block-in-use"))
    };
    // A snapshot with its L1 table in cluster 150 and its entry in cluster 151.
    let mut kept = image.clone();
    (kept[63], kept[151 * 512 + 11]) = (1, 1);
    put64(&mut kept, 64, 151 * 512);
    put64(&mut kept, 151 * 512, 150 * 512);
    for image in [image, kept] {
        let text = cut(image.clone(), block_at + 512);
        assert!(text.contains("`truncate -s +"), "{text}");
        let more = if image[63] == 0 { vec![] } else { vec![150 * 512, 151 * 512] };
        for second in [block_at, 512, l1_at].into_iter().chain(more) {
            let text = cut(image.clone(), second);
            assert!(text.contains("refused (10)") && !text.contains("`truncate -s +"), "{text}");
            assert!(text.contains("`qemu-img convert "), "{text}");
        }
    }
}
