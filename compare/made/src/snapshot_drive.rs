//! Random images that all have snapshots.

use crate::backing;
use crate::breaks::break_header;
use crate::damage;
use crate::drive::without_snapshots;
use crate::image::Made;
use crate::plan::Plan;
use crate::rng::Rng;
use crate::snapshots::{add, MAX_SNAPSHOTS};

/// What random runs have to meet.
pub const WANTED: [&str; 19] = [
    "read_snapshot Ok",
    "read_snapshot Refused(11)",
    "read_snapshot Refused(12)",
    "read_snapshot Refused(13)",
    "read_snapshot Refused(21)",
    "write Finished",
    "write Refused(22)",
    "discard Finished",
    "discard Refused(22)",
    "repair Finished",
    "check Sound",
    "check Leaks",
    "check Shared",
    "check Short",
    "check MarkL1",
    "check MarkL2",
    "check SnapshotBadL1",
    "check SnapshotBadL2",
    "check Refused(21)",
];

/// A sound image with snapshots, mostly few.
pub fn sound(rng: &mut Rng) -> Made {
    loop {
        let cluster_bits = rng.pick(&[9, 9, 9, 9, 10, 11, 12]);
        let mut plan = Plan::random_with(cluster_bits, rng);
        plan.spare += 10 + rng.index(30);
        let few = 1 + rng.index(4);
        let many = 1 + rng.index(MAX_SNAPSHOTS);
        let count = rng.pick(&[few, few, few, few, few, few, few, few, few, many]);
        let mut made = without_snapshots(plan, rng);
        add(&mut made, count, rng);
        if !made.snapshots.is_empty() {
            return made;
        }
    }
}

/// Sound or leaking.
pub fn usable(rng: &mut Rng) -> Made {
    let mut made = sound(rng);
    if rng.once_in(3) {
        damage::leak(&mut made, rng);
    }
    made
}

/// The same, at times over a backing file.
pub fn usable_over(rng: &mut Rng) -> Made {
    backing::maybe(usable(rng), rng)
}

/// Usable, damaged or refused for its snapshot table.
pub fn any(rng: &mut Rng) -> Made {
    damaged(usable(rng), rng)
}

/// The same, at times over a backing file.
pub fn any_over(rng: &mut Rng) -> Made {
    damaged(usable_over(rng), rng)
}

/// At times so.
fn damaged(mut made: Made, rng: &mut Rng) -> Made {
    match rng.below(12) {
        0..=3 => {}
        4 => _ = break_header(&mut made, 21, rng),
        5..=7 => {
            let each: [damage::Damage; 5] = [
                damage::wrong_mark,
                damage::one_less,
                damage::bad_l1,
                damage::bad_l2,
                damage::compress,
            ];
            rng.pick(&each)(&mut made, rng);
        }
        _ => {
            for _ in 0..1 + rng.below(3) {
                rng.pick(&damage::ALL)(&mut made, rng);
            }
        }
    }
    made
}
