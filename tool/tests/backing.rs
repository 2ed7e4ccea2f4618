//! Every command over a backing file: the bytes that are read, written and
//! discarded, and what is said. The backing file is left alone by all of them.

mod common;

use std::fs;

use ::made::backing::add;
use ::made::drive;
use ::made::image::Made;
use ::made::plan::Plan;
use ::made::rng::Rng;
use ::made::snapshot_drive;
use common::drive::{open_over, Drive};
use common::made::over;
use common::promise::{guest_over, kept_over, verdict_over};
use common::{bench_image, beneath, guest, images, Copy, Pair};
use qcow2_core::{Outcome, Verdict};
use qstore::call::writes;
use qstore::commands::{repair, write};
use qstore::layout::Layout;
use qstore::report::{self, Failure};

/// Images of qemu over its backing files.
const OF_QEMU: [&str; 3] =
    ["23-v3-512-backing.qcow2", "24-v2-1024-backing.qcow2", "25-v3-512-backing-snapshot.qcow2"];

fn disk(pair: &Pair) -> Vec<u8> {
    let answer = pair.run("read IMAGE 0 64k");
    assert_eq!(answer.exit, 0, "{}", answer.error);
    answer.out
}

/// Sound, with these guest bytes.
fn holds(pair: &Pair, wanted: &[u8]) {
    assert_eq!(pair.run("check IMAGE").text, "sound\n");
    assert!(disk(pair) == wanted);
}

#[test]
fn looks_at_images_of_qemu() {
    for name in OF_QEMU {
        let pair = Pair::of(name, "over-looks");
        let (before, wanted) = (pair.image.bytes(), guest(name));
        holds(&pair, &wanted);
        for (offset, length) in [(0, 1), (511, 2), (9_999, 2), (39_499, 2), (30_000, 20_000)] {
            let answer = pair.run(&format!("read IMAGE {offset} {length}"));
            assert!(answer.out == wanted[offset..offset + length], "{name}: {offset}");
            let json = pair.run(&format!("read IMAGE {offset} {length} --json")).text;
            let hex: String =
                wanted[offset..offset + length].iter().map(|byte| format!("{byte:02x}")).collect();
            assert!(json.contains(&format!("\"data\": \"{hex}\"")), "{json}");
        }
        let info = pair.run("info IMAGE");
        assert!(info.exit == 0 && info.error.is_empty(), "{}", info.error);
        assert!(info.text.contains("\nbacking file: \"base.raw\"\n"), "{}", info.text);
        assert!(info.text.contains("\nbacking file's format: \"raw\"\n"), "{}", info.text);
        let length = beneath(name).len();
        assert!(info.text.contains(&format!(" ({length} bytes)\n")), "{}", info.text);
        let json = pair.run("info IMAGE --json").text;
        let given = format!("-beneath-{}.qcow2\", \"length\": {length}}}", std::process::id());
        for member in ["\"backing_file\": \"base.raw\"", "\"backing_format\": \"raw\"", &given] {
            assert!(json.contains(member), "{json}");
        }
        assert!(pair.image.bytes() == before);
    }
}

/// The map's runs are the image's own: what they do not have lies underneath.
#[test]
fn maps_leave_the_rest_to_the_backing_file() {
    for name in OF_QEMU {
        let pair = Pair::of(name, "over-maps");
        let (image, mut shown) = (pair.image.bytes(), beneath(name));
        shown.resize(65_536, 0);
        for line in pair.run("map IMAGE").text.lines().skip(1) {
            let fields: Vec<&str> = line.split('\t').collect();
            let number = |text: &str| text.parse::<usize>().expect(text);
            let (start, length) = (number(fields[0]), number(fields[1]));
            match fields[2] {
                "host" => shown[start..start + length]
                    .copy_from_slice(&image[number(fields[3])..][..length]),
                "zeros" => shown[start..start + length].fill(0),
                kind => assert_eq!(kind, "absent"),
            }
        }
        assert!(shown == guest(name), "{name}");
    }
}

#[test]
fn snapshots_read_the_backing_file_too() {
    let name = OF_QEMU[2];
    let pair = Pair::of(name, "over-snapshot");
    let wanted = guest("25-v3-512-backing-snapshot.0.qcow2");
    for word in ["s1", "1", "#0"] {
        let answer = pair.run(&format!("read IMAGE 0 64k --snapshot {word}"));
        assert!(answer.exit == 0 && answer.out == wanted, "{}", answer.error);
    }
    assert!(pair.run("read IMAGE 8190 1000 --snapshot s1").out == wanted[8190..9190]);
}

#[test]
fn writes_copy_what_lies_around() {
    for name in OF_QEMU {
        let mut image = fs::read(images().join(name)).unwrap();
        image.resize(image.len() + 10 * 1024, 0);
        let pair = Pair::with(&image, &beneath(name), "over-writes");
        let mut wanted = guest(name);
        // In place, over a zero mark, into a new cluster, past the backing file's
        // end, across both, and with a new table.
        for (offset, length) in [(1010, 20), (5121, 7), (12_345, 10), (39_490, 20), (50_000, 1)] {
            let data: Vec<u8> = (0..length).map(|k| 0xC0 | k as u8).collect();
            let answer = pair.feed(&format!("write IMAGE {offset}"), &data);
            if answer.exit != 0 {
                assert!(answer.error.contains("refused (22)"), "{}", answer.error);
                continue;
            }
            wanted[offset..offset + length].copy_from_slice(&data);
            holds(&pair, &wanted);
        }
        assert!(wanted != guest(name));
    }
}

#[test]
fn discards_let_nothing_show() {
    let pair = Pair::of(OF_QEMU[0], "over-discards");
    let mut wanted = guest(OF_QEMU[0]);
    // Data; zero marks and what is not allocated, one unit for each of the latter.
    for (offset, length) in [(1024, 512), (4608, 2048), (0, 32_768)] {
        let answer = pair.run(&format!("discard IMAGE {offset} {length}"));
        assert!(answer.text.starts_with(&format!("discarded {length} bytes")), "{}", answer.error);
        wanted[offset..offset + length].fill(0);
        holds(&pair, &wanted);
    }
    let answer = pair.run("discard IMAGE 0 32768");
    assert!(answer.text.contains(": 0 units ("), "{}", answer.text);
    let map = pair.run("map IMAGE").text;
    assert!(map.starts_with("guest\tlength\tkind\thost\n0\t32768\tzeros\t-\n"), "{map}");
}

/// Number 20: nothing is changed, also where only a part of the range would show.
#[test]
fn discards_that_would_let_it_show() {
    let refused = |pair: &Pair, line: &str, sentences: &[&str]| {
        let before = pair.image.bytes();
        let answer = pair.run(line);
        assert!(answer.exit == 1 && pair.image.bytes() == before, "{line}");
        assert!(answer.error.contains("refused (20): "), "{}", answer.error);
        sentences.iter().for_each(|it| assert!(answer.error.contains(it), "{}", answer.error));
        assert!(pair.run(&format!("{line} --json")).text.contains("\"refused\": 20, "));
    };
    let two = Pair::of(OF_QEMU[1], "over-shows-two");
    for line in ["discard IMAGE 0 1024", "discard IMAGE 1k 1k", "discard IMAGE 0 64k"] {
        let command = "`qemu-img amend --image-opts -o compat=1.1 driver=qcow2,";
        refused(&two, line, &["version 2 has no mark for zeros", "Write zeros there", command]);
    }
    let mut image = bench_image();
    over(&mut image, b"b.raw", None);
    let three = Pair::with(&image, &[7; 40_000], "over-shows-three");
    let table = "makes the table for the 32768 bytes from guest offset 32768 on";
    refused(&three, "discard IMAGE 32768 512", &["there is no L2 table", table]);
    assert_eq!(three.feed("write IMAGE 33000", &[0]).exit, 0);
    assert_eq!(three.run("discard IMAGE 32768 32768").exit, 0);
    refused(
        &three,
        "discard IMAGE 0 64k",
        &["guest offset 0 would show", "from guest offset 0 on"],
    );
    let mut wanted = vec![7; 32_768];
    wanted.resize(65_536, 0);
    holds(&three, &wanted);
}

#[test]
fn repairs() {
    for name in OF_QEMU {
        let pair = Pair::of(name, "over-repairs");
        if pair.run("info IMAGE --json").text.contains("\"clusters_free\": 0,") {
            continue;
        }
        let answer = pair.feed("write IMAGE 12000 --allowance 1", b"x");
        assert!(answer.text.starts_with("stopped after 1 of "), "{}", answer.error);
        assert!(pair.run("check IMAGE").text.starts_with("leaks 1 "));
        assert!(disk(&pair) == guest(name));
        assert!(pair.run("repair IMAGE").text.starts_with("repaired: 1 counts set"));
        holds(&pair, &guest(name));
    }
}

/// Number 19, from every command, and the name in it.
#[test]
fn without_a_backing_file() {
    let pair = Pair::of(OF_QEMU[0], "over-none");
    let empty = Copy::with(b"", "over-empty");
    let empty = empty.path.to_str().unwrap();
    let before = pair.image.bytes();
    for line in ["check", "map", "read 0 1", "write 0", "discard 0 512", "repair", "info"] {
        let (command, rest) = line.split_once(' ').unwrap_or((line, ""));
        let line = format!("{command} IMAGE {rest}").trim_end().to_string();
        let answer = pair.image.feed(&line, b"x");
        let said = answer.text + &answer.error;
        assert!(answer.exit == 1 && said.contains("refused (19): "), "{line}: {said}");
        assert!(said.contains("over a backing file, \"base.raw\", and none is given"), "{said}");
        assert!(said.contains("--backing FILE") && said.contains("not opened by itself"), "{said}");
        let answer = pair.image.feed(&format!("{line} --backing {empty}"), b"x");
        let said = answer.text + &answer.error;
        assert!(answer.exit == 1 && said.contains("refused (19): "), "{line}: {said}");
        assert!(said.contains("has no bytes, and counts as none"), "{said}");
    }
    assert!(pair.image.bytes() == before);
}

/// 19 comes before 21: which of them it is depends on whether a file is given.
#[test]
fn refused_for_something_else() {
    let mut image = bench_image();
    over(&mut image, b"b.raw", None);
    (image[63], image[71]) = (1, 1);
    let pair = Pair::with(&image, &[7; 9], "over-refused");
    for line in ["check IMAGE", "map IMAGE", "write IMAGE 0", "repair IMAGE"] {
        assert!(pair.image.feed(line, b"x").error.contains("refused (19): "));
        assert!(pair.feed(line, b"x").error.contains("refused (21): "));
    }
    let numbers = |text: String| text.matches("\nrefused (").count();
    assert_eq!(numbers(pair.image.run("info IMAGE").text), 2);
    let info = pair.run("info IMAGE").text;
    assert!(info.contains(" (9 bytes)\n") && numbers(info.clone()) == 1, "{info}");
}

/// An image that names none: what is given is not used, and nothing changes.
#[test]
fn images_without_a_backing_file() {
    let image = fs::read(images().join("03-v3-512-data.qcow2")).unwrap();
    let wanted = guest("03-v3-512-data.qcow2");
    for backing in [&[][..], &[9; 100_000], b"QFI\xfb\0\0\0\x03 an image of qcow2"] {
        let pair = Pair::with(&image, backing, "over-nothing");
        let answer = pair.run("read IMAGE 0 64k");
        assert!(answer.exit == 0 && answer.out == wanted);
        let note = "note: the image names no backing file, so \"";
        assert!(answer.error.contains(note) && answer.error.ends_with("\" is not used\n"));
        let json = pair.run("info IMAGE --json").text;
        assert!(json.contains("\"backing_given\": null") && json.contains("is not used\"]"));
        // A discard without anything underneath leaves no mark.
        let plain = Copy::with(&image, "over-plain");
        assert_eq!(pair.run("discard IMAGE 0 4096").exit, 0);
        assert_eq!(plain.run("discard IMAGE 0 4096").exit, 0);
        assert!(plain.bytes() == pair.image.bytes());
    }
    // A length of a name without a place for it is none.
    let pair = Pair::with(&image, &[9; 9], "over-length");
    let mut image = image.clone();
    image[16..20].fill(0xFF);
    fs::write(&pair.image.path, &image).unwrap();
    assert!(pair.run("check IMAGE").error.contains("names no backing file"));
}

/// What an image that qemu made lacks is told before a backing file is asked for.
#[test]
fn as_if_mended() {
    let mut image = fs::read(images().join(OF_QEMU[0])).unwrap();
    image.push(0);
    let pair = Pair::with(&image, &beneath(OF_QEMU[0]), "over-mended");
    assert!(pair.run("check IMAGE").error.contains("refused (5)"));
    let answer = pair.run("read IMAGE 0 64k --as-if-mended");
    assert!(answer.exit == 0 && answer.out == guest(OF_QEMU[0]), "{}", answer.error);
    assert!(pair.image.bytes() == image);
}

/// A small image, over a backing file or not.
fn drawn(turn: usize, rng: &mut Rng) -> Option<Made> {
    let mut made = match turn % 2 {
        0 => drive::usable_of(Plan::random_with(9, rng), rng),
        _ => snapshot_drive::usable(rng),
    };
    made.set_name(0, 0);
    made.backing.clear();
    if !turn.is_multiple_of(5) {
        add(&mut made, rng);
    }
    (0 < made.size && made.size <= 1 << 20).then_some(made)
}

/// What the program reads by runs is what the core reads.
#[test]
fn reads_are_those_of_the_core() {
    let mut rng = Rng::from_env("reads over a backing file", 29);
    let mut read = 0;
    for turn in 0..60 {
        let Some(made) = drawn(turn, &mut rng) else { continue };
        let pair = Pair::with(&made.bytes, &made.backing, "over-reads");
        let wanted = guest_over(&made.bytes, &made.backing);
        let (start, end) = (rng.below(made.size), rng.below(made.size + 1));
        for (from, to) in [(0, made.size), (start.min(end), start.max(end))] {
            let answer = pair.run(&format!("read IMAGE {from} {}", to - from));
            assert_eq!(answer.exit, 0, "{}", answer.error);
            assert!(answer.out == wanted[from as usize..to as usize], "turn {turn}");
        }
        for (number, kept) in kept_over(&made.bytes, &made.backing).iter().enumerate() {
            if kept.len() <= 1 << 20 {
                let line = format!("read IMAGE 0 {} --snapshot #{number}", kept.len());
                assert!(pair.run(&line).out == *kept, "turn {turn}");
            }
        }
        read += 1;
    }
    assert!(read > 20, "{read}");
}

/// The commands that change an image do what the calls do one after the other.
#[test]
fn writes_are_those_of_the_core() {
    let mut rng = Rng::from_env("writes over a backing file", 31);
    let (mut written, mut refused) = (0, 0);
    for turn in 0..300 {
        let Some(made) = drawn(turn, &mut rng) else { continue };
        let offset = rng.below(made.size);
        let length = 1 + rng.below((made.size - offset).min(5000));
        let data = rng.bytes(length as usize);
        let mut drive = Drive::with(&made.bytes);
        let opened = open_over(&mut drive, &made.backing).ok().expect("an accepted image");
        let report = write::run(opened, offset, &mut &data[..], u64::MAX);
        let (mut image, mut units, mut number) = (made.bytes.clone(), 0, None);
        for call in writes(offset, &data, made.cluster_bits) {
            match call.run(&mut image, &made.backing, u64::MAX) {
                Outcome::Finished(more) => units += more,
                Outcome::Refused(it) => number = number.or(Some(it)),
                Outcome::Stopped(_) => panic!("stopped"),
            }
        }
        match (report, number) {
            (Ok(report), None) => {
                assert!(report.text.contains(&format!(": {}\n", report::units(units))));
                assert!(drive.cache == image && drive.open.is_empty());
                written += 1;
            }
            (Err(Failure::Refused(refusal)), Some(number)) => {
                assert!(refusal.number == number && drive.cache == made.bytes);
                refused += 1;
            }
            (report, number) => panic!("{:?} for {number:?}", report.map(|it| it.text).ok()),
        }
    }
    assert!(written > 80 && refused > 20, "{written} {refused}");
}

#[test]
fn repairs_are_those_of_the_core() {
    let mut rng = Rng::from_env("repairs over a backing file", 37);
    let mut repaired = 0;
    for turn in 0..200 {
        let Some(made) = drawn(turn, &mut rng) else { continue };
        if !matches!(verdict_over(&made.bytes, &made.backing), Verdict::Leaks(_)) {
            continue;
        }
        let mut drive = Drive::with(&made.bytes);
        let opened = open_over(&mut drive, &made.backing).ok().expect("an accepted image");
        assert!(repair::run(opened, u64::MAX, true).is_ok());
        let scratch = &mut vec![0; Layout::of(&made.bytes).unwrap().scratch()];
        let mut image = made.bytes.clone();
        qcow2_core::repair(&mut image, &made.backing, scratch, u64::MAX);
        assert!(drive.cache == image);
        assert_eq!(verdict_over(&image, &made.backing), Verdict::Sound);
        repaired += 1;
    }
    assert!(repaired > 20, "{repaired}");
}
