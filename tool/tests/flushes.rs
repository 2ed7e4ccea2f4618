//! How often a change is flushed, and that none of these flushes can be spared:
//! a drive that does not make one of them is found out.

mod common;

use common::drive::{accepted, all_torn, open, usable, Drive, Random};
use common::growing::{extend, Growing};
use common::kinds::{discard_of, image, write_to, TABLE};
use common::made::made;
use common::promise::Promise;
use qcow2_core::Outcome;
use qstore::call::Call;
use qstore::commands::{discard, repair, write};
use qstore::image_file::ImageFile;
use qstore::report::{Failure, Report};

/// Each kind of call with its flushes.
fn calls() -> [(Call<'static>, usize); 9] {
    [
        // In place; under a zero mark; a new cluster, twice; a new table too.
        (write_to(TABLE), 1),
        (write_to(TABLE + 1), 2),
        (write_to(TABLE + 2), 2),
        (write_to(TABLE + 3), 2),
        (write_to(0), 2),
        // Data; a zero mark and a place; a zero mark; nothing.
        (discard_of(TABLE), 2),
        (discard_of(TABLE + 1), 2),
        (discard_of(TABLE + 2), 1),
        (discard_of(TABLE + 3), 0),
    ]
}

#[test]
fn flushes_of_calls() {
    for bits in [0, 1] {
        for (call, flushes) in calls() {
            let image = image(bits).bytes;
            let mut ordered = accepted(Drive::with(&image), image);
            assert!(matches!(ordered.call(&call, u64::MAX), Ok(Outcome::Finished(_))));
            let wanted = flushes + usize::from(bits != 0 && flushes > 0);
            let drive = ordered.into_disk();
            assert_eq!((drive.flushes, drive.open.len()), (wanted, 0));
        }
    }
}

/// What is there already is not stored and not flushed, and neither is a refusal.
#[test]
fn nothing_to_store() {
    let image = image(0).bytes;
    let mut ordered = accepted(Drive::with(&image), image);
    let past = Call::Discard { cluster: 128 };
    for (call, flushes) in [(write_to(TABLE), 1), (write_to(TABLE), 1), (past, 1)] {
        let _ = ordered.call(&call, u64::MAX).unwrap();
        ordered.trial([write_to(3), discard_of(TABLE)].into_iter(), |_| ()).unwrap().unwrap();
        let drive = ordered.into_disk();
        assert_eq!((drive.flushes, drive.open.len()), (flushes, 0));
        let cache = drive.cache.clone();
        ordered = accepted(drive, cache);
    }
}

#[test]
fn flushes_of_a_repair() {
    for bits in [0, 1] {
        let mut made = image(bits);
        [8, 9, 12, 15].into_iter().for_each(|cluster| made.set_count(cluster, 3));
        let mut ordered = accepted(Drive::with(&made.bytes), made.bytes);
        let units = 4 + bits;
        assert_eq!(ordered.repair(u64::MAX, |_, _| ()).unwrap(), Outcome::Finished(units));
        assert_eq!(ordered.into_disk().flushes, 1 + bits as usize);
    }
}

/// The commands, each with the flush before it judges: three clusters written at once,
/// the first with a table and the autoclear bits; discarded; one leak repaired.
#[test]
fn flushes_of_commands() {
    let mut made = image(1);
    made.set_count(15, 1);
    let mut drive = Drive::with(&made.bytes);
    let input = vec![7; 3 * 512];
    assert!(write::run(open(&mut drive).ok().unwrap(), 0, &mut &input[..], u64::MAX).is_ok());
    assert_eq!(drive.flushes, 1 + 1 + 2);
    assert!(discard::run(open(&mut drive).ok().unwrap(), 0, 32_768, u64::MAX).is_ok());
    assert_eq!(drive.flushes, 4 + 1 + 2);
    assert!(repair::run(open(&mut drive).ok().unwrap(), u64::MAX, false).is_ok());
    assert_eq!(drive.flushes, 7 + 1 + 1);
    assert!(repair::run(open(&mut drive).ok().unwrap(), u64::MAX, false).is_ok());
    assert_eq!(drive.flushes, 9 + 1);
}

/// Clusters written to new places, written in place and discarded: a batch holds 1,024
/// rows, of which a new cluster takes three, one in place one, and a discard two.
#[test]
fn flushes_of_many_clusters() {
    for (clusters, batches) in [(1, [1, 1, 1]), (64, [1, 1, 1]), (1000, [3, 1, 2])] {
        // One L2 table has all entries.
        let mut drive = Drive::with(&made(3, 13, 1100, 8 << 20).image);
        let (input, length) = (|byte| vec![byte; clusters << 13], (clusters as u64) << 13);
        assert_eq!(flushed(&mut drive, |image| write_all(image, &input(1))), 1 + 2 * batches[0]);
        assert_eq!(flushed(&mut drive, |image| write_all(image, &input(2))), 1 + batches[1]);
        let discard = |image: ImageFile<&mut Drive>| discard::run(image, 0, length, u64::MAX);
        assert_eq!(flushed(&mut drive, discard), 1 + 2 * batches[2]);
        assert_eq!(flushed(&mut drive, discard), 1);
    }
}

/// A batch that stores 16 MiB is long enough.
#[test]
fn flushes_of_many_bytes() {
    let mut drive = Drive::with(&made(3, 16, 310, 32 << 20).image);
    let input = vec![1; 300 << 16];
    assert_eq!(flushed(&mut drive, |image| write_all(image, &input)), 1 + 2 * 2);
}

fn write_all(image: ImageFile<&mut Drive>, bytes: &[u8]) -> Result<Report, Failure> {
    write::run(image, 0, &mut &bytes[..], u64::MAX)
}

/// The flushes of a command that is finished.
fn flushed(
    drive: &mut Drive,
    command: impl FnOnce(ImageFile<&mut Drive>) -> Result<Report, Failure>,
) -> usize {
    let before = drive.flushes;
    assert!(command(open(&mut *drive).ok().unwrap()).is_ok());
    drive.flushes - before
}

/// A longer file: the length, the autoclear bits, and two for each block.
#[test]
fn flushes_of_extending() {
    for bits in [0, 1] {
        let image = image(bits).bytes;
        for (bytes, blocks) in [(8192, 0), (131_072, 0), (131_584, 1), (1 << 20, 7)] {
            let mut drive = Growing::with(&image);
            assert!(extend(&mut drive, &[], bytes, u64::MAX).is_ok());
            let length = usize::from(bytes > 8192);
            let clearing = usize::from(bits != 0 && blocks > 0);
            assert_eq!(drive.flushes, 1 + length + clearing + 2 * blocks);
        }
    }
}

/// For each call and each of its flushes but the last: without it a cut may leave
/// what is not promised.
#[test]
fn a_flush_that_is_not_made() {
    let mut random = Random(4);
    for bits in [0, 1] {
        for (call, flushes) in calls() {
            let image = image(bits).bytes;
            let promise = Promise::of(&image, &call);
            let all = flushes + usize::from(bits != 0 && flushes > 0);
            // The first flush comes before all else.
            for deaf in 1..all {
                let drive = Drive { deaf: Some(deaf), ..Drive::with(&image) };
                let mut ordered = usable(drive);
                assert!(matches!(ordered.call(&call, u64::MAX), Ok(Outcome::Finished(_))));
                let states = all_torn(&image, &ordered.into_disk(), &mut random);
                let faults = states.iter().filter(|state| promise.fault(state).is_some());
                assert!(faults.count() > 0, "bits {bits}, flush {deaf} of {all}");
            }
        }
    }
}

/// What is seen without the flush: damage, and bytes that are neither old nor
/// new.
#[test]
fn faults_without_the_flush() {
    let image = image(0).bytes;
    let seen = |call: Call| -> Vec<String> {
        let mut ordered = usable(Drive { deaf: Some(1), ..Drive::with(&image) });
        ordered.call(&call, u64::MAX).unwrap();
        let promise = Promise::of(&image, &call);
        let states = all_torn(&image, &ordered.into_disk(), &mut Random(5));
        states.iter().filter_map(|state| promise.fault(state)).collect()
    };
    let has = |faults: &[String], start: &str| faults.iter().any(|it| it.starts_with(start));
    let new = seen(write_to(TABLE + 3));
    assert!(has(&new, "Short(7)") && has(&new, "guest byte"), "{new:?}");
    let table = seen(write_to(0));
    assert!(has(&table, "BadL2(0, 0)") || has(&table, "Short"), "{table:?}");
    let marked = seen(write_to(TABLE + 1));
    assert!(has(&marked, "guest byte"), "{marked:?}");
    let freed = seen(discard_of(TABLE));
    assert!(has(&freed, "Short(5)"), "{freed:?}");
}
