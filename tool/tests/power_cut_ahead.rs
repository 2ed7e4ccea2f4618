//! A cache that is ahead of the drive when a command begins, since a program
//! was killed before its flush; and flushes, stores and loads that fail.

mod common;

use std::fs;
use std::io;
use std::path::Path;
use std::sync::atomic::{AtomicUsize, Ordering};

use common::drive::{all_torn, open, put, sectors, torn, usable, Drive, Random, Stores};
use common::made::made_at;
use common::promise::{guest, kept, verdict};
use common::{bench_image, images};
use qcow2_core::{write, Outcome, Verdict};
use qstore::call::Call;
use qstore::commands::{self, discard, repair};
use qstore::disk::Disk;
use qstore::image_file::{Access, ImageFile, View};
use qstore::layout::Layout;
use qstore::report::Failure;

/// The states that a cut may leave: each is usable, each guest byte is as the
/// drive had it, as the cache had it, or as it is in the end, and snapshots stay.
fn follow(image: &[u8], ahead: &Stores, drive: &Drive, random: &mut Random) {
    let mut cache = image.to_vec();
    put(&mut cache, &sectors(ahead));
    let known = [image, &cache, &drive.cache].map(guest);
    let snapshots = kept(image);
    let states = all_torn(image, drive, random);
    for state in &states {
        assert!(verdict(state).is_usable(), "{:?}", verdict(state));
        let seen = guest(state);
        assert!((0..seen.len()).all(|at| known.iter().any(|known| known[at] == seen[at])));
        assert!(kept(state) == snapshots);
    }
    assert!(drive.open.is_empty() && states.last() == Some(&drive.cache));
}

/// The bench image with one written cluster, and the first store of its discard.
fn half_discarded() -> (Vec<u8>, Stores) {
    let mut image = bench_image();
    assert_eq!(write(&mut image, &[], 33_285, b"hello", u64::MAX), Outcome::Finished(1028));
    (image, vec![(2056, vec![0; 8])])
}

/// A discard killed between the entry and its flush, then a repair that frees
/// the cluster.
#[test]
fn a_killed_discard_then_a_repair() {
    let (image, ahead) = half_discarded();
    let mut drive = Drive::behind(&image, ahead.clone());
    assert_eq!(verdict(&drive.cache), Verdict::Leaks(1));
    let report = repair::run(open(&mut drive).ok().unwrap(), u64::MAX, false).ok().unwrap();
    assert!(report.text.starts_with("repaired: 1 counts set"), "{}", report.text);
    let mut random = Random(1);
    follow(&image, &ahead, &drive, &mut random);
    assert_eq!(drive.epochs.len(), 2);
    assert_eq!(verdict(&drive.cache), Verdict::Sound);
    // Both in one flush would not do: the count alone may reach the drive.
    assert_eq!(drive.epochs[0], ahead);
    let states = torn(&image, &drive.epochs.concat(), &mut random);
    assert!(states.iter().any(|state| !verdict(state).is_usable()));
}

/// Calls that are killed before one of their flushes, each followed by another
/// call or a repair.
#[test]
fn killed_calls_then_others() {
    let mut random = Random(2);
    let names = [
        "03-v3-512-data.qcow2",
        "09-v2-4096-data.qcow2",
        "10-v3-512-zero.qcow2",
        "22-v3-512-snapshot.qcow2",
    ];
    let files = names.into_iter().map(|name| fs::read(images().join(name)).unwrap());
    for mut image in files.chain((0..=6).map(filled)) {
        let layout = Layout::of(&image).unwrap();
        for turn in 0..60 {
            if layout.version == 3 && turn % 4 == 0 {
                image[88 + random.below(8)] = 1 + random.below(255) as u8;
            }
            let mut ordered = usable(Drive::with(&image));
            let killed = ordered.call(&call(&layout, &mut random), u64::MAX).unwrap();
            let epochs = ordered.into_disk().epochs;
            let lost = random.below(epochs.len() + 1);
            epochs[..lost].iter().for_each(|stores| put(&mut image, &sectors(stores)));
            let ahead = epochs.get(lost).cloned().unwrap_or_default();
            let mut drive = Drive::behind(&image, ahead.clone());
            if turn % 3 == 0 {
                let opened = open(&mut drive).ok().unwrap();
                assert!(repair::run(opened, u64::MAX, true).is_ok());
            } else {
                let mut ordered = usable(&mut drive);
                let next = ordered.call(&call(&layout, &mut random), u64::MAX).unwrap();
                assert!(ordered.is_in_step().unwrap(), "{killed:?}, {next:?}");
            }
            follow(&image, &ahead, &drive, &mut random);
            image = drive.cache;
        }
    }
}

/// An image with counts of 2^order bits and with data in both tables.
fn filled(order: u32) -> Vec<u8> {
    let mut image = made_at(order, 3, 9, 150, 65_536).image;
    for guest in [0, 1, 5, 63, 64, 70, 127] {
        assert!(matches!(
            write(&mut image, &[], 512 * guest, &[7; 512], u64::MAX),
            Outcome::Finished(_)
        ));
    }
    image
}

/// A write or a discard somewhere.
fn call(layout: &Layout, random: &mut Random) -> Call<'static> {
    let cluster = random.below(layout.guest_clusters() as usize) as u64;
    match random.below(2) {
        0 => Call::Discard { cluster },
        _ => Call::Write { offset: cluster << layout.bits, data: &[0x5A; 300] },
    }
}

fn text(failure: Failure) -> String {
    match failure {
        Failure::Other(text) => text,
        _ => panic!("another kind of failure"),
    }
}

fn says_no_more_than_is_known(text: &str) {
    assert!(text.contains("What reached the drive is not known."), "{text}");
    assert!(!text.contains("heck it") && !text.contains("repair"), "{text}");
}

#[test]
fn a_failed_first_flush() {
    let (image, ahead) = half_discarded();
    let mut drive = Drive { left: Some(0), ..Drive::behind(&image, ahead.clone()) };
    let failure = text(open(&mut drive).err().unwrap());
    assert!(failure.starts_with("not changed: flushing failed: no more."), "{failure}");
    says_no_more_than_is_known(&failure);
    assert!(drive.epochs.is_empty() && drive.open == ahead);
    // Looking needs no flush.
    let looked = ImageFile::read(Path::new("drive"), &mut drive, Access::Look, View::AsItIs, None);
    assert!(looked.ok().unwrap().bytes == drive.cache);
}

/// Flush, entry, flush, count, flush.
#[test]
fn failed_stores_are_told_from_failed_flushes() {
    let (image, _) = half_discarded();
    for left in 1..5 {
        let drive = Drive { left: Some(left), ..Drive::with(&image) };
        let failure = text(discard::run(open(drive).ok().unwrap(), 33_280, 512, 2).err().unwrap());
        assert!(failure.starts_with("broken off after 0 units or more: "), "{failure}");
        if left % 2 == 1 {
            assert!(
                failure.contains("no more. The file holds what a power cut would"),
                "{failure}"
            );
        } else {
            says_no_more_than_is_known(&failure);
        }
    }
    let drive = Drive { left: Some(5), ..Drive::with(&image) };
    let report = discard::run(open(drive).ok().unwrap(), 33_280, 512, 2);
    let said = report.ok().unwrap().text;
    assert!(said.starts_with("discarded 512 bytes at 33280: 2 units ("), "{said}");
    // A repair: flush, count, flush.
    let (image, ahead) = half_discarded();
    for left in 1..3 {
        let drive = Drive { left: Some(left), ..Drive::behind(&image, ahead.clone()) };
        let failure = text(repair::run(open(drive).ok().unwrap(), 9, false).err().unwrap());
        assert_eq!(failure.contains("What reached the drive is not known."), left == 2);
    }
}

/// A drive that can be read a number of times.
struct Failing<'a> {
    drive: &'a mut Drive,
    loads: AtomicUsize,
}

impl Disk for Failing<'_> {
    fn length(&self) -> io::Result<u64> {
        self.drive.length()
    }

    fn load(&self, at: u64, bytes: &mut [u8]) -> io::Result<()> {
        let left = self.loads.load(Ordering::Relaxed);
        self.loads
            .store(left.checked_sub(1).ok_or(io::Error::other("no more"))?, Ordering::Relaxed);
        self.drive.load(at, bytes)
    }

    fn store(&mut self, at: u64, bytes: &[u8]) -> io::Result<()> {
        self.drive.store(at, bytes)
    }

    fn lengthen(&mut self, length: u64) -> io::Result<()> {
        self.drive.lengthen(length)
    }

    fn flush(&mut self) -> io::Result<()> {
        self.drive.flush()
    }
}

/// Reading fails at the start, after the trial that an allowance asks for, before the
/// stores of two writes in place, which are one batch, and at the last comparison.
#[test]
fn failed_loads() {
    let mut image = bench_image();
    for offset in [32_768, 33_280] {
        assert!(matches!(write(&mut image, &[], offset, b"x", u64::MAX), Outcome::Finished(_)));
    }
    let mut kinds = vec![];
    for loads in 0.. {
        let mut drive = Drive::with(&image);
        let disk = Failing { drive: &mut drive, loads: AtomicUsize::new(loads) };
        let result = open(disk)
            .and_then(|opened| commands::write::run(opened, 32_768, &mut &[7; 1024][..], 1024));
        let Err(failure) = result else { break };
        let failure = text(failure);
        let (kind, _) = failure.split_once("no more").expect("the drive's words");
        assert!(verdict(&drive.cache).is_usable() && drive.open.is_empty());
        let kept = kind.is_empty() || kind.starts_with("not changed");
        assert!(!kept || drive.cache == image, "{kind}");
        kinds.push(kind.to_string());
    }
    kinds.dedup();
    let wanted = [
        "",
        "not changed: ",
        "broken off after 0 units or more: ",
        "all 1024 units are stored and flushed, but the file could not be read again to compare it: ",
    ];
    assert_eq!(kinds, wanted);
}
