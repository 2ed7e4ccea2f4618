//! Calls planned into batches by the core, against plain and by what a drive holds
//! after a power cut.
#![forbid(unsafe_code)]

use made::batch_rows::compare;
use made::batches::follow;
use made::rng::{setting, Rng};
use made::steps::any_usable;
use plain::Plain;
use qcow2_core::Core;

/// What the comparison has to meet beside the refusals of the header.
const WANTED: [&str; 16] = [
    "write Rows",
    "write Ends",
    "write Refused(11)",
    "write Refused(12)",
    "write Refused(13)",
    "write Refused(14)",
    "write Refused(22)",
    "discard Rows",
    "discard Ends",
    "discard Refused(11)",
    "discard Refused(12)",
    "discard Refused(20)",
    "discard Refused(22)",
    "repair Rows",
    "repair Ends",
    "repair Refused(17)",
];

#[test]
fn rows() {
    let mut rng = Rng::from_env("rows of batches", 221);
    let calls = setting("CALLS", 100_000);
    let tally = compare(&Core, &Plain, &mut rng, calls);
    println!("{tally:#?}");
    let missing = WANTED.iter().find(|kind| !tally.contains_key(**kind));
    assert!(calls < 100_000 || missing.is_none(), "{missing:?}");
}

#[test]
fn power_cuts() {
    let mut rng = Rng::from_env("batches", 222);
    let met = follow(&Core, &mut rng, setting("CALLS", 3000), any_usable);
    println!("{met:?}");
    assert!(met.refused > 0 && met.full > 0 && met.clashes > 0, "{met:?}");
    assert!(met.cuts.iter().all(|&cuts| cuts > 0), "{met:?}");
}
