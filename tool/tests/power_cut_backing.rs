//! Power cuts over a backing file: whatever of the stores since the last flush a cut
//! leaves, the image is sound or leaks, and every guest byte is as the plain disk
//! has it, with the backing file's bytes underneath.

mod common;

use std::fs;

use ::made::backing::add;
use ::made::image::Made;
use ::made::rng::Rng;
use ::made::snapshot_drive;
use common::drive::{all_torn, open_over, usable_over, Drive, Random};
use common::kinds::{self, discard_of, write_to, TABLE};
use common::made::{made_at, put64};
use common::promise::{guest_over, Promise};
use common::series::series;
use common::{beneath, images};
use qcow2_core::Outcome;
use qstore::call::Call;
use qstore::commands::{discard, write};
use qstore::layout::Layout;
use qstore::ordered::Fault;

/// Puts an image over a backing file with a name inside its header.
fn over(image: &mut [u8]) {
    put64(image, 8, 200);
    image[16..20].copy_from_slice(&[0, 0, 0, 5]);
}

fn bytes(length: usize) -> Vec<u8> {
    (0..length).map(|k| (k % 251) as u8 + 1).collect()
}

/// Backing files that end before the first cluster, inside the disk and past it.
#[test]
fn a_cut_anywhere_leaves_a_promised_image() {
    let names = [
        "01-v3-512-empty.qcow2",
        "03-v3-512-data.qcow2",
        "09-v2-4096-data.qcow2",
        "10-v3-512-zero.qcow2",
        "12-v3-512-prealloc-metadata.qcow2",
        "18-v3-4096-odd-size.qcow2",
        "31-leak-two-v2.qcow2",
    ];
    let mut random = Random(21);
    for name in names {
        let mut image = fs::read(images().join(name)).unwrap();
        over(&mut image);
        let size = Layout::of(&image).unwrap().size as usize;
        for length in [1, size / 2 + 7, size + 5000] {
            series(image.clone(), &bytes(length), 10, &mut random);
        }
    }
}

/// As qemu made them.
#[test]
fn images_of_qemu() {
    let mut random = Random(22);
    for name in ["23-v3-512-backing", "24-v2-1024-backing", "25-v3-512-backing-snapshot"] {
        let name = format!("{name}.qcow2");
        let mut image = fs::read(images().join(&name)).unwrap();
        image.resize(image.len() + 20 * 1024, 0);
        series(image, &beneath(&name), 30, &mut random);
    }
}

/// Where counts share a byte, and where each has eight of its own.
#[test]
fn every_width() {
    let mut random = Random(23);
    for order in 0..=6 {
        let mut image = made_at(order, 3, 9, 45, 65_536).image;
        over(&mut image);
        let changed = series(image.clone(), &bytes(40_000), 14, &mut random);
        assert!(changed != image);
    }
}

#[test]
fn beside_snapshots() {
    let mut random = Random(24);
    let mut rng = Rng::from_env("cuts over a backing file", 41);
    let (mut tried, mut changed) = (0, 0);
    while tried < 40 {
        let mut made = snapshot_drive::usable(&mut rng);
        add(&mut made, &mut rng);
        let layout = Layout::of(&made.bytes).unwrap();
        let trees = layout.with_snapshots(&made.bytes);
        if layout.size == 0 || trees.iter().any(|tree| tree.size > 1 << 19) {
            continue;
        }
        tried += 1;
        let after = series(made.bytes.clone(), &made.backing, 5, &mut random);
        changed += usize::from(after != made.bytes);
    }
    assert!(changed > 20, "{changed}");
}

/// The image of each kind of entry, over a backing file that ends in guest cluster 67.
fn image(bits: u64) -> Made {
    let mut made = kinds::image(bits);
    made.set_name(200, 5);
    made.backing = bytes(34_700);
    made
}

/// Each kind of call with its units and its flushes.
fn calls() -> [(Call<'static>, u64, usize); 10] {
    [
        // In place; under a zero mark; a new cluster under a mark, over the backing
        // file, at its end and past it; a new table too.
        (write_to(TABLE), 300, 1),
        (write_to(TABLE + 1), 513, 2),
        (write_to(TABLE + 2), 514, 2),
        (write_to(TABLE + 3), 514, 2),
        (write_to(TABLE + 20), 514, 2),
        (write_to(0), 1028, 2),
        // Data; a zero mark and a place; a zero mark; nothing, which is marked.
        (discard_of(TABLE), 2, 2),
        (discard_of(TABLE + 1), 2, 2),
        (discard_of(TABLE + 2), 0, 0),
        (discard_of(TABLE + 3), 1, 1),
    ]
}

/// The flushes of each call; without any of them but the last a cut may leave what is
/// not promised.
#[test]
fn flushes() {
    let mut random = Random(25);
    for bits in [0, 1] {
        for (call, units, flushes) in calls() {
            let Made { bytes: image, backing, .. } = image(bits);
            let clears = bits != 0 && flushes > 0;
            let (units, all) = (units + u64::from(clears), flushes + usize::from(clears));
            let promise = Promise::over(&image, &backing, &call);
            // The first flush comes before all else.
            for deaf in (1..all).map(Some).chain([None]) {
                let drive = Drive { deaf, ..Drive::with(&image) };
                let mut ordered = usable_over(drive, &backing);
                assert_eq!(ordered.call(&call, u64::MAX).unwrap(), Outcome::Finished(units));
                let drive = ordered.into_disk();
                assert_eq!((drive.flushes, drive.open.len()), (1 + all, 0));
                let states = all_torn(&image, &drive, &mut random);
                let faults = states.iter().filter(|state| promise.fault(state).is_some());
                assert_eq!(faults.count() > 0, deaf.is_some(), "bits {bits}, {deaf:?} of {all}");
            }
        }
    }
}

/// Every allowance, and every store and flush that fails.
#[test]
fn stopped_and_broken_off() {
    for (call, units, _) in calls() {
        let Made { bytes: image, backing, .. } = image(1);
        let promise = Promise::over(&image, &backing, &call);
        let few = [0, 1, 2, 3, 4, 300, 511, 512, 513, 514, 515, 516, 1027, 1028, 1029, u64::MAX];
        for allowance in few {
            let mut ordered = usable_over(Drive::with(&image), &backing);
            let outcome = ordered.call(&call, allowance).unwrap();
            let mut wanted = image.clone();
            assert_eq!(call.run(&mut wanted, &backing, allowance), outcome);
            assert!(ordered.is_in_step().unwrap() && ordered.image() == wanted);
            for state in all_torn(&image, &ordered.into_disk(), &mut Random(allowance)) {
                assert_eq!(promise.fault(&state), None);
            }
        }
        for left in 1.. {
            let mut drive = Drive::with(&image);
            drive.left = Some(left);
            let mut ordered = usable_over(drive, &backing);
            let ended = ordered.call(&call, u64::MAX);
            for state in all_torn(&image, &ordered.into_disk(), &mut Random(left as u64)) {
                assert_eq!(promise.fault(&state), None);
            }
            match ended {
                Err(Fault::Store(_) | Fault::Flush(_)) => {}
                other => {
                    let clears = u64::from(units > 0);
                    assert_eq!(other.unwrap(), Outcome::Finished(units + clears));
                    break;
                }
            }
        }
    }
}

/// The commands on ranges: three clusters written and discarded again, beside what
/// lies underneath.
#[test]
fn commands() {
    let Made { bytes: image, backing, .. } = image(1);
    let mut drive = Drive::with(&image);
    let before = guest_over(&image, &backing);
    let input = vec![7; 3 * 512];
    let opened = open_over(&mut drive, &backing).ok().unwrap();
    assert!(write::run(opened, 33_000, &mut &input[..], u64::MAX).is_ok());
    // The first flush, that of the bits, and four clusters at once, one of them in place.
    assert_eq!(drive.flushes, 1 + 1 + 2);
    let mut wanted = before.clone();
    wanted[33_000..33_000 + 1536].fill(7);
    assert!(guest_over(&drive.cache, &backing) == wanted);
    let opened = open_over(&mut drive, &backing).ok().unwrap();
    let report = discard::run(opened, 32_768, 32_768, u64::MAX).ok().unwrap();
    // Four clusters with a place, and sixty to be marked.
    assert!(report.text.contains(": 68 units ("), "{}", report.text);
    assert_eq!(drive.flushes, 4 + 1 + 2);
    wanted[32_768..].fill(0);
    assert!(guest_over(&drive.cache, &backing) == wanted);
}
