//! Counts of each width, in the core and in the plain implementation.
#![forbid(unsafe_code)]

use made::pair::Pair;
use made::plan::MAX_ORDER;
use made::rng::{setting, Rng};
use made::widths;
use plain::Plain;
use qcow2_core::Core;

/// What random runs have to meet with each width.
const WANTED: [&str; 14] = [
    "check Sound",
    "check Leaks",
    "check Shared",
    "check Short",
    "check BadL2",
    "write Finished",
    "write Stopped",
    "write Refused(14)",
    "discard Finished",
    "discard Stopped",
    "discard Refused(16)",
    "repair Finished",
    "repair Stopped",
    "repair Refused(17)",
];

#[test]
fn lists() {
    let mut rng = Rng::from_env("lists", 91);
    let lists = widths::compare_lists(&mut Pair::new(&Core, &Plain), &mut rng);
    assert!(lists > 200, "{lists} lists");
}

#[test]
fn block_ends() {
    let mut rng = Rng::from_env("block ends", 93);
    widths::compare_block_ends(&mut Pair::new(&Core, &Plain), &mut rng);
}

#[test]
fn random() {
    let mut rng = Rng::from_env("random", 92);
    let calls = setting("CALLS", 70_000) / 7;
    for order in 0..=MAX_ORDER {
        let mut pair = Pair::new(&Core, &Plain);
        widths::compare_random(&mut pair, order, &mut rng, calls);
        let missing = WANTED.iter().find(|kind| !pair.tally.contains_key(**kind));
        assert!(calls < 10_000 || missing.is_none(), "order {order}: {missing:?}");
    }
}

#[test]
fn series_at_every_unit() {
    widths::series_at_every_unit(&Core);
}
