//! The steps of the core's calls: the same rows as the plain implementation's,
//! and what a drive holds after a power cut.
#![forbid(unsafe_code)]

use made::drive;
use made::pair::Pair;
use made::plan::{Plan, LONG_BITS, MAX_BITS, MAX_ORDER};
use made::rng::{setting, Rng};
use made::steps::{any_usable, follow, follow_on, Met};
use made::widths;
use plain::Plain;
use qcow2_core::Core;

/// What random runs have to meet.
const WANTED: [&str; 14] = [
    "geometry Ok",
    "geometry Refused(21)",
    "write_steps Ok",
    "write_steps Refused(11)",
    "write_steps Refused(12)",
    "write_steps Refused(14)",
    "write_steps Refused(22)",
    "discard_steps Ok",
    "discard_steps Refused(11)",
    "discard_steps Refused(16)",
    "discard_steps Refused(22)",
    "repair_steps Ok",
    "repair_steps Refused(15)",
    "repair_steps Refused(17)",
];

/// Random images, damaged ones too, with room for 0 to 31 numbers.
#[test]
fn rows() {
    let mut rng = Rng::from_env("rows", 121);
    let mut pair = Pair::new(&Core, &Plain);
    drive::compare_steps(&mut pair, &mut rng, setting("CALLS", 200_000));
    println!("{:#?}", pair.tally);
    let missing = WANTED.iter().find(|kind| !pair.tally.contains_key(**kind));
    assert!(pair.calls < 200_000 || missing.is_none(), "{missing:?}");
}

/// Lists with two counts in one byte, and structures that are free.
#[test]
fn rows_of_each_width() {
    let mut rng = Rng::from_env("rows of each width", 122);
    widths::compare_steps(&mut Pair::new(&Core, &Plain), &mut rng);
}

#[test]
fn lost_sectors() {
    let mut rng = Rng::from_env("lost sectors", 123);
    all_met(&follow(&Core, &mut rng, setting("CALLS", 6000), any_usable));
}

#[test]
fn lost_sectors_at_each_width() {
    let mut rng = Rng::from_env("lost sectors at each width", 124);
    for order in 0..=MAX_ORDER {
        let mut met = Met::default();
        while met.calls < setting("CALLS", 7000) / 7 {
            let plan = Plan { version: 3, order, ..Plan::random_with(9, &mut rng) };
            let made = drive::usable_over(plan, &mut rng);
            follow_on(&Core, &made, &mut rng, &mut met);
        }
        all_met(&met);
    }
}

#[test]
fn lost_sectors_of_long_clusters() {
    let mut rng = Rng::from_env("lost sectors of long clusters", 125);
    let mut met = Met::default();
    for cluster_bits in LONG_BITS..=MAX_BITS {
        let plan = Plan::random_with(cluster_bits, &mut rng);
        let made = drive::usable_over(plan, &mut rng);
        follow_on(&Core, &made, &mut rng, &mut met);
    }
    println!("{met:?}");
}

fn all_met(met: &Met) {
    println!("{met:?}");
    assert!(met.refused > 0 && met.cuts.iter().all(|&cuts| cuts > 0), "{met:?}");
}
