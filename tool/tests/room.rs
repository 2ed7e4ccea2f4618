//! Number 14: what is advised once is enough for the whole write, and no more
//! than that.

mod common;

use std::fs::OpenOptions;
use std::path::Path;

use common::drive::Random;
use common::made::{made, made_at, over, put_count, Made};
use common::Copy;
use qstore::backing::Backing;
use qstore::sentences::{refusal, Request, Subject};

fn data(len: usize, seed: usize) -> Vec<u8> {
    (0..len).map(|k| ((k * 31 + seed) % 255) as u8 + 1).collect()
}

/// The bytes to append that the refusal names.
fn advised(error: &str) -> u64 {
    assert!(error.contains("refused (14): "), "{error}");
    assert_eq!(error.matches('`').count(), 2, "one command: {error}");
    let figure = error.split("`truncate -s +").nth(1).expect("a command to append");
    figure.split(' ').next().unwrap().parse().expect("a number")
}

fn append(copy: &Copy, bytes: u64) {
    let file = OpenOptions::new().write(true).open(&copy.path).unwrap();
    let length = file.metadata().unwrap().len();
    file.set_len(length.checked_add_signed(bytes as i64).unwrap()).unwrap();
}

/// A write that finds no room does so once its advice was followed, and did not
/// with one cluster less.
fn follow(test: &str, image: &[u8], cluster: u64, offset: usize, input: &[u8]) {
    let copy = Copy::with(image, test);
    let line = format!("write IMAGE {offset}");
    let bytes = advised(&copy.feed(&line, input).error);
    append(&copy, bytes - cluster);
    assert!(copy.feed(&line, input).error.contains("refused (14): "), "too much at {offset}");
    append(&copy, cluster);
    let answer = copy.feed(&line, input);
    assert_eq!(answer.exit, 0, "{}", answer.error);
    assert!(copy.run(&format!("read IMAGE {offset} {}", input.len())).out == input);
    assert!([0, 3].contains(&copy.run("check IMAGE").exit));
}

#[test]
fn input_longer_than_the_image() {
    for (bits, clusters, size, offset, len) in [
        (9, 16, 65_536, 0, 65_536),
        (9, 16, 65_536, 300, 60_000),
        (9, 300, 1 << 20, 1000, 150_000),
        (10, 20, 1 << 20, 131_000, 100_000),
        (12, 10, 8 << 20, 2_097_000, 300_000),
        (16, 6, 64 << 20, 65_000, 2_000_000),
    ] {
        let made = made(3, bits, clusters, size);
        assert!(len > made.image.len() || bits == 9);
        follow("room-longer", &made.image, 1 << bits, offset, &data(len, offset));
    }
}

#[test]
fn partly_allocated_ranges() {
    let mut random = Random(5);
    for version in [2, 3] {
        let mut image = made(version, 9, 120, 1 << 20).image;
        for _ in 0..30 {
            let offset = 512 * random.below(300) as u64;
            assert!(matches!(
                qcow2_core::write(&mut image, &[], offset, &[3; 512], u64::MAX),
                qcow2_core::Outcome::Finished(_)
            ));
        }
        if version == 3 {
            // A zero mark with a place needs no cluster, one without does.
            let table = common::made::get64(&image, 40) as usize;
            let l2_at = common::made::get64(&image, table) as usize & 0x00FF_FFFF_FFFF_FE00;
            (0..64).for_each(|index| image[l2_at + 8 * index + 7] |= 1);
        }
        for (offset, len) in [(0, 70_000), (511, 60_000), (7000, 80_000)] {
            follow("room-partly", &image, 512, offset, &data(len, offset));
        }
    }
}

/// Counts past the file's end are not looked at until it is lengthened.
#[test]
fn counts_past_the_end() {
    let mut made = made(3, 9, 40, 65_536);
    for cluster in [41, 43, 44, 60] {
        made.image[made.block_at + 2 * cluster + 1] = 1;
    }
    follow("room-past", &made.image, 512, 0, &data(30_000, 1));
    follow("room-past", &made.image, 512, 0, &data(18_000, 1));
}

/// Where the counts end, the file is extended, just so far that the write finds room.
#[test]
fn where_the_counts_end() {
    let mut random = Random(6);
    for (order, clusters, len) in
        [(4, 250, 200_000), (4, 30, 400_000), (6, 40, 90_000), (6, 64, 200_000), (5, 100, 70_000)]
    {
        let Made { mut image, block_at, .. } = made_at(order, 3, 9, clusters, 1 << 20);
        // Some counts past the end are taken.
        for cluster in clusters..clusters.next_multiple_of(4096 >> order) {
            put_count(&mut image[block_at..], order, cluster, random.below(2) as u64);
        }
        let copy = Copy::with(&image, "room-counts");
        let error = copy.feed("write IMAGE 300", &data(len, 1)).error;
        assert!(error.contains("refused (14): ") && error.matches('`').count() == 2, "{error}");
        let command = error.split('`').nth(1).expect("a command");
        let bytes = command.rsplit(' ').next().and_then(|word| word.parse().ok());
        let bytes: u64 = bytes.filter(|_| command.starts_with("qstore extend ")).expect(command);
        assert_eq!(copy.run(&format!("extend IMAGE {}", bytes - 512)).exit, 0);
        let error = copy.feed("write IMAGE 300", &data(len, 1)).error;
        assert!(error.contains("refused (14): "), "too much: {error}");
        assert_eq!(copy.run(&format!("extend IMAGE {bytes}")).exit, 0);
        // The whole write is tried first.
        let answer = copy.feed("write IMAGE 300 --allowance 1", &data(len, 1));
        assert!(answer.text.starts_with("stopped after 1 of "), "{}", answer.error);
        assert_eq!(copy.run("check IMAGE").exit, 3);
    }
}

/// The refcount table is full.
#[test]
fn where_the_file_cannot_be_lengthened_enough() {
    let mut made = made_at(6, 3, 9, 4030, 1 << 22);
    let copy = Copy::with(&made.image, "room-table");
    let answer = copy.feed("write IMAGE 0", &data(3 << 20, 1));
    assert!(answer.error.contains("The stored counts end at cluster 4032, "), "{}", answer.error);
    assert!(answer.error.contains("`qemu-img convert "), "{}", answer.error);
    // Every count past the end is taken, and one block more is not enough.
    (4030..4032).for_each(|cluster| put_count(&mut made.image[made.block_at..], 6, cluster, 1));
    let copy = Copy::with(&made.image, "room-taken");
    let answer = copy.feed("write IMAGE 0", &data(2_050_000, 1));
    assert!(answer.error.contains("The stored counts end at cluster 4032, "), "{}", answer.error);
}

/// What is said of a write of that length, without its bytes.
fn said(image: &[u8], length: u64) -> String {
    said_over(image, Backing::default(), length)
}

fn said_over(image: &[u8], backing: Backing, length: u64) -> String {
    let subject = Subject::of(Path::new("a"), image, &backing);
    refusal(14, &subject, Request::Write { offset: 0, length, whole: true }).advice
}

/// A new image has the backing file's bytes too, as far as the disk goes and they
/// are not zeros.
#[test]
fn room_beside_the_backing_file() {
    let mut image = made(3, 9, 1200, 1 << 30).image;
    over(&mut image, b"b.raw", Some(b"raw"));
    let beneath = |filled: usize, length: usize| {
        let mut bytes = vec![0; length];
        bytes[..filled].fill(1);
        let mut backing = Backing::named(Some(Path::new("b")));
        backing.bytes = bytes;
        said_over(&image, backing, 1 << 29)
    };
    let fits = beneath(1 << 28, 3 << 29);
    assert!(fits.contains("`qemu-img convert --image-opts "), "{fits}");
    assert!(fits.contains(",backing.file.filename=b a.new "), "{fits}");
    let most = beneath((1 << 29) + (1 << 20), 1 << 30);
    assert!(most.contains("does not fit") && !most.contains('`'), "{most}");
}

#[test]
fn the_limit_of_a_file() {
    // The tables do not find room beside the bytes.
    let large = made(3, 16, 8, 1 << 40).image;
    assert!(said(&large, (1 << 30) - (10 << 16)).contains("`truncate -s +"));
    let most = said(&large, (1 << 30) - (5 << 16));
    assert!(most.contains("does not fit") && !most.contains('`'), "{most}");
    // Nor do they in an image with larger clusters.
    let small = made(3, 9, 1200, 1 << 30).image;
    assert!(said(&small, 1 << 29).contains("`qemu-img convert "));
    let most = said(&small, (1 << 30) - (4 << 16));
    assert!(most.contains("The stored counts end at cluster 1280"), "{most}");
    assert!(most.contains("does not fit") && !most.contains('`'), "{most}");
}

/// Long disks: more than a file can have is not read to its end.
#[test]
fn more_than_a_file_can_have() {
    let copy = Copy::with(&made(3, 16, 8, 1 << 40).image, "room-limit");
    let image = copy.path.to_str().unwrap();
    let line = format!("{} write {image} 0 < /dev/zero", env!("CARGO_BIN_EXE_qstore"));
    let output = std::process::Command::new("sh").args(["-c", &line]).output().unwrap();
    let error = String::from_utf8_lossy(&output.stderr);
    assert!(error.contains("refused (14): the write has more than 1073741824 bytes"), "{error}");
    assert!(error.contains("does not fit") && !error.contains('`'), "{error}");
}
