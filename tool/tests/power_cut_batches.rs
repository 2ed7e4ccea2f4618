//! Calls that are stored together, on a drive that forgets: whatever sectors of the
//! phase at work a power cut leaves, the image is sound or leaks, and every guest
//! cluster is as after some of the calls.

mod common;

use std::fs;

use ::made::backing::add;
use ::made::rng::Rng;
use ::made::snapshot_drive;
use common::batches::{batches, first, Together};
use common::drive::{accepted, all_torn, usable, Drive, Random};
use common::kinds::{discard_of, image, write_to, TABLE};
use common::made::{largest, made_at, put_count};
use common::{beneath, images};
use qcow2_core::Outcome;
use qstore::call::{writes, Call};
use qstore::layout::Layout;
use qstore::ordered::Fault;

#[test]
fn a_cut_anywhere_leaves_a_promised_image() {
    let names = [
        "01-v3-512-empty.qcow2",
        "03-v3-512-data.qcow2",
        "05-v3-1024-data.qcow2",
        "09-v2-4096-data.qcow2",
        "10-v3-512-zero.qcow2",
        "12-v3-512-prealloc-metadata.qcow2",
        "18-v3-4096-odd-size.qcow2",
        "31-leak-two-v2.qcow2",
    ];
    let mut random = Random(31);
    for name in names {
        batches(fs::read(images().join(name)).unwrap(), &[], 6, &mut random);
    }
}

/// Where counts share a byte, and where each has eight of its own; some leak.
#[test]
fn every_width() {
    let mut random = Random(32);
    for order in 0..=6 {
        for (bits, clusters, size) in [(9, 61, 65_536), (12, 31, 1 << 16)] {
            let mut made = made_at(order, 3, bits, clusters, size);
            for cluster in [clusters - 1, clusters - 3, clusters - 8] {
                put_count(&mut made.image[made.block_at..], order, cluster, largest(order));
            }
            let changed = batches(made.image.clone(), &[], 6, &mut random);
            assert!(changed != made.image);
        }
    }
}

/// Snapshots keep every byte, and what lies underneath shows where it has to.
#[test]
fn beside_snapshots_and_over_backing_files() {
    let mut random = Random(33);
    let mut rng = Rng::from_env("batches beside snapshots", 47);
    let (mut tried, mut changed) = (0, 0);
    while tried < 40 {
        let mut made = snapshot_drive::usable(&mut rng);
        if tried % 2 == 0 {
            add(&mut made, &mut rng);
        }
        let layout = Layout::of(&made.bytes).unwrap();
        let trees = layout.with_snapshots(&made.bytes);
        if layout.size == 0 || trees.iter().any(|tree| tree.size > 1 << 18) {
            continue;
        }
        tried += 1;
        let backing = if tried % 2 == 1 { &made.backing[..] } else { &[] };
        let after = batches(made.bytes.clone(), backing, 3, &mut random);
        changed += usize::from(after != made.bytes);
    }
    assert!(changed > 20, "{changed}");
}

/// As qemu made them.
#[test]
fn images_of_qemu() {
    let mut random = Random(34);
    for name in ["23-v3-512-backing", "24-v2-1024-backing", "25-v3-512-backing-snapshot"] {
        let name = format!("{name}.qcow2");
        let mut image = fs::read(images().join(&name)).unwrap();
        image.resize(image.len() + 20 * 1024, 0);
        batches(image, &beneath(&name), 6, &mut random);
    }
    let image = fs::read(images().join("22-v3-512-snapshot.qcow2")).unwrap();
    batches(image, &[], 10, &mut random);
}

/// A call of each kind that may stand in one batch.
fn kinds() -> [Call<'static>; 6] {
    [
        // In place; under a zero mark; a new cluster; a new table too; one more there.
        write_to(TABLE),
        write_to(TABLE + 1),
        write_to(TABLE + 3),
        write_to(0),
        write_to(1),
        // A cluster that was there before.
        discard_of(TABLE + 1),
    ]
}

/// Each phase with its flush, and a drive that does not make one of them is found out.
#[test]
fn each_flush_is_needed() {
    for bits in [0, 1] {
        let image = image(bits).bytes;
        let promise = Together::of(&image, &[], &kinds());
        assert_eq!(first(&image, &[], &kinds()), 6);
        let all = 3 + bits as usize;
        // The first flush comes before all else.
        for deaf in (1..all).map(Some).chain([None]) {
            let mut ordered = usable(Drive { deaf, ..Drive::with(&image) });
            let outcome = ordered.calls(kinds().into_iter(), u64::MAX, |_| ());
            assert!(matches!(outcome, Ok(Outcome::Finished(_))), "{outcome:?}");
            let drive = ordered.into_disk();
            assert_eq!((drive.flushes, drive.open.len()), (1 + all, 0));
            let states = all_torn(&image, &drive, &mut Random(35));
            let faults = states.iter().filter(|state| promise.fault(state).is_some());
            assert_eq!(faults.count() > 0, deaf.is_some(), "bits {bits}, {deaf:?} of {all}");
        }
    }
}

/// Store or flush, one after the other.
#[test]
fn a_drive_that_fails() {
    let image = image(1).bytes;
    let promise = Together::of(&image, &[], &kinds());
    for left in 0.. {
        let drive = Drive { left: Some(left), ..Drive::with(&image) };
        let mut ordered = accepted(drive, image.clone());
        let mut flushed = 0;
        let ended = ordered.calls(kinds().into_iter(), u64::MAX, |done| flushed = done);
        for state in all_torn(&image, &ordered.into_disk(), &mut Random(left as u64)) {
            assert_eq!(promise.fault(&state), None);
        }
        match ended {
            Err(Fault::Store(_) | Fault::Flush(_)) => assert_eq!(flushed, 0),
            ended => {
                assert!(matches!(ended, Ok(Outcome::Finished(units)) if units == flushed));
                assert!(left > 8, "{left}");
                break;
            }
        }
    }
}

/// An allowance that stops one of the calls anywhere: the file holds all before it and
/// its first units, as if each were made by itself.
#[test]
fn every_allowance() {
    let image = image(1).bytes;
    for allowance in (0..).step_by(41).chain([299, 300, 301, 302]) {
        let (mut wanted, mut spent, mut finished) = (image.clone(), 0, true);
        for call in kinds() {
            match call.run(&mut wanted, &[], allowance - spent) {
                Outcome::Finished(units) => spent += units,
                Outcome::Stopped(units) => (spent, finished) = (spent + units, false),
                other => panic!("{other:?}"),
            }
            if !finished {
                break;
            }
        }
        let mut ordered = usable(Drive::with(&image));
        let outcome = ordered.calls(kinds().into_iter(), allowance, |_| ()).unwrap();
        let ended = if finished { Outcome::Finished(spent) } else { Outcome::Stopped(spent) };
        assert_eq!((outcome, spent), (ended, spent.min(allowance)));
        assert!(ordered.is_in_step().unwrap() && ordered.image() == wanted);
        assert!(ordered.into_disk().open.is_empty());
        if finished {
            break;
        }
    }
}

/// What came before a call that is refused is in the file.
#[test]
fn refused_on_the_way() {
    let image = image(0).bytes;
    let past = Call::Discard { cluster: 128 };
    let calls = [write_to(TABLE), write_to(0), past, write_to(1)];
    let mut ordered = usable(Drive::with(&image));
    let mut flushed = 0;
    let outcome = ordered.calls(calls.into_iter(), u64::MAX, |done| flushed = done);
    assert_eq!(outcome.unwrap(), Outcome::Refused(11));
    assert_eq!(flushed, 300 + 1028);
    assert!(ordered.is_in_step().unwrap());
    assert!(ordered.image() == Together::of(&image, &[], &calls[..2]).memory());
}

/// A long write in several batches, each finished before the next; then a discard of
/// all of it, and what is freed is taken again.
#[test]
fn batches_in_a_row() {
    for order in [0, 4] {
        let image = made_at(order, 3, 9, 1100, 1 << 19).image;
        let data: Vec<u8> = (0..1 << 19).map(|k| (k % 251) as u8).collect();
        let mut ordered = usable(Drive::with(&image));
        let mut batches = 0;
        let calls: Vec<Call> = writes(0, &data, 9).collect();
        let outcome = ordered.calls(calls.iter().copied(), u64::MAX, |_| batches += 1).unwrap();
        assert!(matches!(outcome, Outcome::Finished(_)) && batches > 2, "{batches}");
        assert!(ordered.is_in_step().unwrap());
        let drive = ordered.into_disk();
        assert_eq!(drive.flushes, 1 + 2 * batches);
        let promise = Together::of(&image, &[], &calls[..1]);
        assert!(promise.fault(&drive.cache).is_some());
        let mut ordered = usable(drive);
        let discards = (0..1024).map(|cluster| Call::Discard { cluster });
        let again = [Call::Write { offset: 5, data: &[9; 7] }];
        let outcome = ordered.calls(discards.chain(again), u64::MAX, |_| ());
        assert_eq!(outcome.unwrap(), Outcome::Finished(2 * 1024 + 514));
        assert!(ordered.is_in_step().unwrap());
    }
}
