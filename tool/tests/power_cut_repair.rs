//! Repairs of many leaks: one flush for all counts, whichever sectors of them a
//! power cut leaves, and one more for the autoclear bits.

mod common;

use ::made::rng::Rng;
use ::made::snapshot_drive;
use common::drive::{accepted, all_torn, Drive, Random};
use common::made::{get_count, largest, made_at, put_count, Made};
use common::promise::{verdict, Promise};
use qcow2_core::{repair, Outcome, Verdict};

/// Clusters of 1,024 bytes, every third free one leaks. Those past the end have
/// counts too, which are not looked at.
fn leaking(order: u32, clusters: usize) -> (Vec<u8>, u64) {
    let Made { mut image, block_at, l1_at, .. } = made_at(order, 3, 10, clusters, 65_536);
    let mut leaks = 0;
    for cluster in (l1_at / 1024 + 1..clusters).filter(|cluster| cluster % 3 == 0) {
        let count = 1 + (cluster as u64).wrapping_mul(u64::MAX / 7) % largest(order);
        put_count(&mut image[block_at..], order, cluster, count);
        leaks += 1;
    }
    for cluster in clusters..clusters.next_multiple_of(8) {
        put_count(&mut image[block_at..], order, cluster, largest(order));
    }
    (image, leaks)
}

/// An order, and clusters that take five sectors of counts and more.
const MANY: [(u32, usize); 4] = [(0, 17_003), (2, 5_001), (4, 1200), (6, 333)];

#[test]
fn any_sectors_of_many_leaks() {
    for (order, clusters) in MANY {
        let (image, leaks) = leaking(order, clusters);
        for allowance in [u64::MAX, leaks, leaks - 1, leaks / 2, 1, 0] {
            assert_eq!(flushes(&image, leaks, leaks, allowance), (allowance > 0).into());
        }
    }
}

/// A part of the counts of one byte, at every width: the others stay.
#[test]
fn a_cut_among_the_counts_of_a_byte() {
    for order in 0..=6 {
        let (image, leaks) = leaking(order, 45);
        let Made { block_at, .. } = made_at(order, 3, 10, 45, 65_536);
        for allowance in 0..=leaks {
            let state = repaired(&image, allowance).cache;
            let counts = |image: &[u8]| -> Vec<u64> {
                (0..48).map(|at| get_count(&image[block_at..], order, at)).collect()
            };
            let (before, after) = (counts(&image), counts(&state));
            let set = (0..48).filter(|&at| before[at] != after[at]).collect::<Vec<usize>>();
            let leaked: Vec<usize> = (0..45).filter(|at| at % 3 == 0 && *at > 4).collect();
            assert_eq!(set, leaked[..allowance as usize]);
            assert!(set.iter().all(|&at| after[at] == 0));
        }
    }
}

/// The autoclear bits are cleared first, by a flush of their own.
#[test]
fn the_clearing_unit_is_the_first() {
    for (order, clusters) in MANY {
        let (mut image, leaks) = leaking(order, clusters);
        image[90] = 5;
        for allowance in [u64::MAX, leaks + 1, leaks, 2, 1, 0] {
            let wanted = allowance.min(2) as usize;
            assert_eq!(flushes(&image, leaks, leaks + 1, allowance), wanted);
        }
        // A drive that does not make that flush is found out.
        let drive = Drive { deaf: Some(0), ..Drive::with(&image) };
        let mut ordered = accepted(drive, image.clone());
        assert_eq!(ordered.repair(u64::MAX, |_, _| ()).unwrap(), Outcome::Finished(leaks + 1));
        let promise = Promise::of_repair(&image, &[]);
        let states = all_torn(&image, &ordered.into_disk(), &mut Random(order.into()));
        assert!(states.iter().any(|state| promise.fault(state).is_some()));
    }
}

/// Beside snapshots, whose references count too.
#[test]
fn leaks_beside_snapshots() {
    let mut rng = Rng::from_env("repairs cut beside snapshots", 19);
    let mut images = 0;
    while images < 60 {
        let mut made = snapshot_drive::sound(&mut rng);
        let mut leaks = 0;
        for cluster in 0..made.clusters() {
            let more = made.count(cluster).saturating_add(1 + rng.below(300)).min(made.most());
            if rng.once_in(3) && more > made.count(cluster) {
                made.set_count(cluster, more);
                leaks += 1;
            }
        }
        let per_table = made.per_table() << made.cluster_bits;
        let long = made.snapshots.iter().any(|it| it.l1_size * per_table > 1 << 19);
        if leaks == 0 || long || made.size > 1 << 19 {
            continue;
        }
        images += 1;
        let units = leaks + made.clearing();
        for allowance in [u64::MAX, units, units - 1, units / 2, rng.below(units), 1, 0] {
            let wanted = allowance.min(1 + made.clearing()) as usize;
            assert_eq!(flushes(&made.bytes, leaks, units, allowance), wanted);
        }
    }
}

/// A drive after a repair, which did what the core does.
fn repaired(image: &[u8], allowance: u64) -> Drive {
    let mut ordered = accepted(Drive::with(image), image.to_vec());
    let outcome = ordered.repair(allowance, |_, _| ()).unwrap();
    let (mut wanted, mut scratch) = (image.to_vec(), vec![0; image.len() / 256]);
    assert_eq!(outcome, repair(&mut wanted, &[], &mut scratch, allowance));
    assert!(ordered.is_in_step().unwrap() && ordered.image() == wanted);
    ordered.into_disk()
}

/// Repairs an image with these leaks by a list of these units, and looks at all
/// that a cut may leave; how many flushes there were.
fn flushes(image: &[u8], leaks: u64, units: u64, allowance: u64) -> usize {
    assert_eq!(verdict(image), Verdict::Leaks(leaks));
    let drive = repaired(image, allowance);
    assert!(drive.open.is_empty());
    let promise = Promise::of_repair(image, &[]);
    for state in all_torn(image, &drive, &mut Random(allowance)) {
        assert_eq!(promise.fault(&state), None);
    }
    let sound = verdict(&drive.cache) == Verdict::Sound;
    assert_eq!(sound, allowance >= units);
    drive.flushes
}

/// What is said of the way: units that are flushed, of all.
#[test]
fn progress() {
    let (mut image, leaks) = leaking(4, 45);
    image[90] = 5;
    for (allowance, wanted) in [(u64::MAX, vec![1, leaks + 1]), (3, vec![1, 3]), (1, vec![1])] {
        let mut ordered = accepted(Drive::with(&image), image.clone());
        let mut said = vec![];
        let outcome = ordered.repair(allowance, |done, total| {
            assert_eq!(total, leaks + 1);
            said.push(done);
        });
        assert!(outcome.is_ok());
        assert_eq!(said, wanted);
    }
}

#[test]
fn a_sound_image_is_left_alone() {
    let image = common::bench_image();
    let mut ordered = accepted(Drive::with(&image), image);
    let outcome = ordered.repair(u64::MAX, |_, _| panic!("nothing to do"));
    assert_eq!(outcome.unwrap(), Outcome::Finished(0));
    assert_eq!(ordered.into_disk().flushes, 0);
}
