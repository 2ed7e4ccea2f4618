//! A discard asks the core for some of a range's guest clusters alone: what is
//! left and what is refused is as if it had asked for each.

mod common;

use ::made::backing;
use ::made::drive;
use ::made::image::Made;
use ::made::plan::Plan;
use ::made::rng::Rng;
use ::made::snapshot_drive;
use common::drive::{open_over, Drive};
use common::kept;
use qcow2_core::Outcome;
use qstore::commands::discard;
use qstore::report::{self, Failure};

/// Each guest cluster in turn: the image afterwards and the units, or the first
/// refusal.
fn one_by_one(made: &Made, clusters: std::ops::Range<u64>) -> Result<(Vec<u8>, u64), u32> {
    let (mut image, mut units) = (made.bytes.clone(), 0);
    for cluster in clusters {
        match qcow2_core::discard(&mut image, &made.backing, cluster, u64::MAX) {
            Outcome::Finished(made) => units += made,
            Outcome::Stopped(_) => panic!("stopped"),
            Outcome::Refused(number) => return Err(number),
        }
    }
    Ok((image, units))
}

fn compare(made: &Made, first: u64, last: u64) -> Option<u32> {
    let (offset, end) = (first << made.cluster_bits, (last << made.cluster_bits).min(made.size));
    let mut drive = Drive::with(&made.bytes);
    let opened = open_over(&mut drive, &made.backing).ok().expect("an accepted image");
    let report = discard::run(opened, offset, end - offset, u64::MAX);
    match (one_by_one(made, first..last), report) {
        (Ok((image, units)), Ok(report)) => {
            assert!(report.text.contains(&format!(": {}\n", report::units(units))));
            assert!(drive.cache == image && drive.open.is_empty());
            None
        }
        (Err(number), Err(Failure::Refused(refusal))) => {
            assert_eq!(refusal.number, number);
            assert!(drive.cache == made.bytes);
            Some(number)
        }
        (wanted, report) => panic!("{:?} for {:?}", report.map(|it| it.text).ok(), wanted.err()),
    }
}

#[test]
fn as_if_each_were_asked_for() {
    let mut rng = Rng::from_env("discards", 23);
    let (mut changed, mut held, mut shows) = (0, 0, 0);
    for turn in 0..400 {
        let mut made = match turn % 2 {
            0 => drive::usable_of(Plan::random_with(9, &mut rng), &mut rng),
            _ => snapshot_drive::usable(&mut rng),
        };
        // Only where the image is over a backing file any bytes are lent.
        made.set_name(0, 0);
        made.backing.clear();
        if turn % 4 < 2 {
            backing::add(&mut made, &mut rng);
        }
        let guests = made.guest_clusters();
        if guests == 0 || guests > 20_000 {
            continue;
        }
        for _ in 0..4 {
            let first = rng.below(guests);
            let few = first + 1 + rng.below((guests - first).min(9));
            let any = first + 1 + rng.below(guests - first);
            let last = rng.pick(&[few, few, any, guests]);
            match compare(&made, first, last) {
                None => changed += 1,
                Some(22) => held += 1,
                Some(20) if made.is_backed() => shows += 1,
                Some(number) => panic!("{number}"),
            }
        }
    }
    assert!(changed > 100 && held > 100 && shows > 100, "{changed} {held} {shows}");
}

/// Nothing is at guest cluster 65, but the table that says so is a snapshot's.
#[test]
fn nothing_below_a_table_that_a_snapshot_holds() {
    let made = kept::kept(1);
    assert_eq!(compare(&made, 65, 66), Some(22));
    assert_eq!(compare(&made, 65, 128), Some(22));
    assert_eq!(compare(&made, 0, 64), None);
    assert_eq!(compare(&made, 0, 128), Some(22));
    assert_eq!(compare(&made, 3, 3), None);
}
