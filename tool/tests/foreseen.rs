//! What is clear without a trial, against the trial: where it says that calls will all
//! be made, the trial makes them, with as many units.

mod common;

use std::collections::BTreeSet;

use ::made::drive;
use ::made::image::Made;
use ::made::plan::Plan;
use ::made::rng::Rng;
use ::made::{backing_drive, snapshot_drive};
use common::drive::{usable_over, Drive};
use qstore::call::{writes, Call};
use qstore::layout::Layout;

/// What was met: calls that are foreseen, refused by number 14, and refused by another.
#[derive(Debug, Default)]
struct Met {
    foreseen: u64,
    no_room: u64,
    others: u64,
    /// Made by the trial alone, since others of them give clusters back.
    missed: u64,
}

/// Writes alone are foreseen just where the trial makes them.
fn compare(made: &Made, calls: &[Call], met: &mut Met) {
    let mut ordered = usable_over(Drive::with(&made.bytes), &made.backing);
    let foreseen = ordered.foreseen(calls.iter().copied());
    assert!(ordered.image() == made.bytes, "nothing is made for it");
    let trial = ordered.trial(calls.iter().copied(), |_| ()).unwrap();
    let gives = calls.iter().any(|call| matches!(call, Call::Discard { .. }));
    match (foreseen, trial) {
        (Some(units), trial) => {
            assert_eq!(trial, Ok(units));
            met.foreseen += 1;
        }
        (None, Err((_, 14))) => met.no_room += 1,
        (None, Err(_)) => met.others += 1,
        (None, Ok(_)) => {
            assert!(gives, "writes alone need what they take");
            met.missed += 1;
        }
    }
}

fn image(turn: u64, rng: &mut Rng) -> Made {
    match turn % 4 {
        0 | 1 => drive::usable_of(Plan::random_with(9, rng), rng),
        2 => snapshot_drive::usable(rng),
        _ => backing_drive::usable(rng),
    }
}

/// Guest clusters, few or many, side by side or anywhere.
fn guests(guests: u64, rng: &mut Rng) -> BTreeSet<u64> {
    let count = rng.pick(&[1, 2, 5, 20, 100]);
    let first = rng.below(guests);
    match rng.once_in(2) {
        true => (first..guests.min(first + count)).collect(),
        false => (0..count).map(|_| rng.below(guests)).collect(),
    }
}

#[test]
fn never_other_than_the_trial() {
    let mut rng = Rng::from_env("foreseen", 31);
    let data = vec![7; 1 << 21];
    let mut met = Met::default();
    for turn in 0..1200 {
        let made = image(turn, &mut rng);
        if made.guest_clusters() == 0 {
            continue;
        }
        let discards = rng.pick(&[0, 0, 2, 5]);
        let calls = guests(made.guest_clusters(), &mut rng).into_iter().map(|cluster| {
            let offset = cluster << made.cluster_bits;
            let len = (made.size - offset).min(1 << made.cluster_bits) as usize;
            match discards > 0 && rng.once_in(discards) {
                true => Call::Discard { cluster },
                false => Call::Write { offset, data: &data[..1 + rng.index(len)] },
            }
        });
        let calls: Vec<Call> = calls.collect();
        compare(&made, &calls, &mut met);
    }
    let Met { foreseen, no_room, others, missed } = met;
    assert!(foreseen > 300 && no_room > 50 && others > 50 && missed > 0, "{met:?}");
}

/// A write from the disk's start that takes each free cluster but some, and that takes
/// one more than there are.
#[test]
fn the_last_free_cluster() {
    let mut rng = Rng::from_env("the last free cluster", 37);
    let mut met = Met::default();
    for _ in 0..200 {
        let made = drive::usable_of(Plan::random_with(9, &mut rng), &mut rng);
        let free = Layout::of(&made.bytes).unwrap().free(&made.bytes) as u64;
        let data = vec![7; made.size.min((free + 9) << 9) as usize];
        for clusters in free.saturating_sub(3)..free + 9 {
            let part = &data[..data.len().min((clusters << 9) as usize)];
            let calls: Vec<Call> = writes(0, part, 9).collect();
            compare(&made, &calls, &mut met);
        }
    }
    assert!(met.foreseen > 100 && met.no_room > 100 && met.missed == 0, "{met:?}");
}
