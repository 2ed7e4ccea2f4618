//! A drive that forgets: whatever of the stores since the last flush a power
//! cut leaves, sector by sector, the image is sound or leaks, and every guest
//! byte is as the plain disk has it.

mod common;

use std::fs;

use ::made::rng::Rng;
use ::made::snapshot_drive;
use common::drive::{accepted, all_torn, put, sectors, usable, Drive, Random};
use common::made::{get_count, largest, made_at, put_count, Made};
use common::promise::{verdict, Promise};
use common::series::series;
use common::{bench_image, images};
use qcow2_core::{Outcome, Verdict};
use qstore::call::Call;
use qstore::layout::Layout;
use qstore::ordered::Fault;

#[test]
fn a_cut_anywhere_leaves_a_promised_image() {
    let names = [
        "01-v3-512-empty.qcow2",
        "03-v3-512-data.qcow2",
        "05-v3-1024-data.qcow2",
        "09-v2-4096-data.qcow2",
        "10-v3-512-zero.qcow2",
        "12-v3-512-prealloc-metadata.qcow2",
        "18-v3-4096-odd-size.qcow2",
        "31-leak-two-v2.qcow2",
    ];
    let mut random = Random(1);
    for name in names {
        series(fs::read(images().join(name)).unwrap(), &[], 24, &mut random);
    }
}

/// The same at every width of the counts. Counts past the image's end, which
/// may share a byte with others, are none of the store's business.
#[test]
fn a_cut_anywhere_at_every_width() {
    let mut random = Random(2);
    for order in 0..=6 {
        for (bits, clusters, size) in [(9, 45, 65_536), (9, 141, 1 << 17), (12, 21, 1 << 16)] {
            let Made { mut image, block_at, .. } = made_at(order, 3, bits, clusters, size);
            let all = clusters.next_multiple_of(8);
            let past = |image: &[u8]| -> Vec<u64> {
                (clusters..all).map(|at| get_count(&image[block_at..], order, at)).collect()
            };
            for cluster in clusters..all {
                put_count(&mut image[block_at..], order, cluster, random.below(2) as u64);
            }
            // Some clusters leak.
            for cluster in [clusters - 1, clusters - 3, clusters - 8] {
                put_count(&mut image[block_at..], order, cluster, largest(order));
            }
            let before = past(&image);
            let image = series(image, &[], 16, &mut random);
            assert_eq!(past(&image), before);
        }
    }
}

/// The same beside snapshots, which keep every byte.
#[test]
fn a_cut_anywhere_beside_snapshots() {
    let mut random = Random(3);
    let mut rng = Rng::from_env("cuts beside snapshots", 17);
    let (mut tried, mut changed) = (0, 0);
    while tried < 50 {
        let made = snapshot_drive::usable(&mut rng);
        let layout = Layout::of(&made.bytes).unwrap();
        let trees = layout.with_snapshots(&made.bytes);
        if layout.size == 0 || trees.iter().any(|tree| tree.size > 1 << 19) {
            continue;
        }
        tried += 1;
        changed += usize::from(series(made.bytes.clone(), &[], 6, &mut random) != made.bytes);
    }
    assert!(changed > 30, "{changed}");
    let image = fs::read(images().join("22-v3-512-snapshot.qcow2")).unwrap();
    series(image, &[], 40, &mut random);
}

/// The two counts of a list, which may share a byte: they are in one epoch, in
/// any order, and what shares a byte with them is kept.
#[test]
fn counts_of_one_byte() {
    // For 1, 2 and 4 bits clusters 4 and 5 share a byte, and for 1 and 2 bits
    // with those before.
    let bytes: [&[(usize, u8)]; 7] = [
        &[(1024, 0b0011_1111)],
        &[(1025, 0b0000_0101)],
        &[(1026, 0x11)],
        &[(1028, 1), (1029, 1)],
        &[(1033, 1), (1035, 1)],
        &[(1043, 1), (1047, 1)],
        &[(1063, 1), (1071, 1)],
    ];
    for (order, counts) in (0..).zip(bytes) {
        let image = made_at(order, 3, 9, 16, 65_536).image;
        let mut ordered = usable(Drive::with(&image));
        let call = Call::Write { offset: 33_285, data: b"h" };
        assert_eq!(ordered.call(&call, u64::MAX).unwrap(), Outcome::Finished(1028));
        let epochs = ordered.into_disk().epochs;
        // The bytes that are new, whichever are stored together.
        let stores = |epoch: usize| -> Vec<(usize, u8)> {
            let bytes = |(at, bytes): &(usize, Vec<u8>)| (*at..).zip(bytes.clone()).collect();
            let bytes = epochs[epoch].iter().flat_map::<Vec<_>, _>(bytes);
            bytes.filter(|(at, byte)| image[*at] != *byte).collect()
        };
        // The L2 entry comes with its table.
        let mut wanted = counts.to_vec();
        wanted.extend([(2056, 0x80), (2062, 0x0A), (2565, b'h')]);
        wanted.sort_unstable();
        let mut first = stores(1);
        first.sort_unstable();
        assert_eq!((epochs.len(), first, stores(2)), (3, wanted, vec![(1544, 0x80), (1550, 8)]));
        let mut state = image;
        put(&mut state, &sectors(&epochs[1]));
        assert_eq!(verdict(&state), Verdict::Leaks(2));
    }
}

/// The stores of the first write on the bench image.
#[test]
fn epochs_are_flushed_in_order() {
    for bits in [0, 1] {
        let mut image = bench_image();
        image[95] = bits;
        let mut ordered = usable(Drive::with(&image));
        let call = Call::Write { offset: 33_285, data: b"hello" };
        let units = 1028 + u64::from(bits);
        assert_eq!(ordered.call(&call, u64::MAX).unwrap(), Outcome::Finished(units));
        let mut epochs = ordered.into_disk().epochs;
        assert!(epochs.remove(0).is_empty());
        let places = |stores: &Vec<(usize, Vec<u8>)>| stores.iter().map(|it| it.0).collect();
        let stores: Vec<Vec<usize>> = epochs.iter().map(places).collect();
        // Autoclear bits; both counts, the table with the data; L1 entry.
        let wanted = [vec![88], vec![1024 + 8, 2048], vec![1544]];
        assert_eq!(stores, wanted[usize::from(bits == 0)..]);
    }
}

/// Store or flush, one after the other, for counts that share a byte and others.
#[test]
fn a_drive_that_fails_leaves_the_first_units() {
    for order in 0..=6 {
        let mut image = made_at(order, 3, 9, 16, 65_536).image;
        image[95] = 1;
        let call = Call::Write { offset: 33_285, data: b"hello" };
        let promise = Promise::of(&image, &call);
        // The bits; the counts, table and data; the L1 entry.
        let kinds = "SF SSF SF".replace(' ', "");
        for (left, kind) in kinds.chars().enumerate() {
            let drive = Drive { left: Some(left), ..Drive::with(&image) };
            let mut ordered = accepted(drive, image.clone());
            match ordered.call(&call, u64::MAX) {
                Err(Fault::Store(_)) => assert_eq!(kind, 'S'),
                Err(Fault::Flush(_)) => assert_eq!(kind, 'F'),
                other => panic!("{left}: {other:?}"),
            }
            let drive = ordered.into_disk();
            for state in all_torn(&image, &drive, &mut Random(left as u64)) {
                assert_eq!(promise.fault(&state), None);
            }
        }
        let drive = Drive { left: Some(kinds.len()), ..Drive::with(&image) };
        let mut ordered = accepted(drive, image.clone());
        assert_eq!(ordered.call(&call, u64::MAX).unwrap(), Outcome::Finished(1029));
    }
}

/// An allowance that stops a call anywhere: the file holds just the first units,
/// and what a cut leaves on the way there is promised too.
#[test]
fn every_allowance() {
    let mut image = made_at(0, 3, 9, 16, 65_536).image;
    let new = Call::Write { offset: 33_285, data: b"hello" };
    let discard = Call::Discard { cluster: 65 };
    for (call, units) in [(new, 1029), (new, 6), (discard, 3)] {
        image[90] = 7;
        let promise = Promise::of(&image, &call);
        for allowance in 0..=units + 1 {
            let mut ordered = usable(Drive::with(&image));
            let outcome = ordered.call(&call, allowance).unwrap();
            let mut wanted = image.clone();
            assert_eq!(call.run(&mut wanted, &[], allowance), outcome);
            assert_eq!(outcome == Outcome::Finished(units), allowance >= units);
            assert!(ordered.is_in_step().unwrap() && ordered.image() == wanted);
            let drive = ordered.into_disk();
            assert!(drive.open.is_empty());
            let states = all_torn(&image, &drive, &mut Random(allowance));
            assert!(states.iter().all(|state| promise.fault(state).is_none()));
        }
        call.run(&mut image, &[], u64::MAX);
    }
}

/// A trial leaves memory as the drive has it, whatever it came to.
#[test]
fn a_trial_stores_nothing() {
    let data = [1; 512];
    let write = |guest: u64| Call::Write { offset: 512 * guest, data: &data };
    for image in (0..=6).map(|order| made_at(order, 3, 9, 16, 65_536).image) {
        for (guests, refused) in [(0..10, None), (0..12, Some((11, 14))), (60..70, None)] {
            let mut ordered = usable(Drive::with(&image));
            let calls = guests.clone().map(write);
            let discards = guests.take(3).map(|cluster| Call::Discard { cluster });
            let trial = ordered.trial(calls.chain(discards), |_| ()).unwrap();
            assert_eq!(trial.err(), refused);
            assert!(ordered.image() == image && ordered.is_in_step().unwrap());
            assert!(ordered.into_disk().epochs.iter().all(|stores| stores.is_empty()));
        }
    }
}

/// What memory has and the drive does not is found.
#[test]
fn what_is_out_of_step_is_found() {
    for at in [0, 100, 4000, 8191] {
        let image = bench_image();
        let mut drive = Drive::with(&image);
        drive.cache[at] ^= 1;
        let ordered = accepted(drive, image);
        assert!(!ordered.is_in_step().unwrap());
    }
}
