//! The check in portions: worked cases, any cutting of made images of every kind, and
//! anything changed between two portions.
#![forbid(unsafe_code)]

use std::collections::BTreeSet;

use made::drive::any_image_of;
use made::pair::Pair;
use made::plan::{Plan, MAX_ORDER};
use made::portion_drive::{self, WANTED};
use made::portion_suite;
use made::rng::{setting, Rng};
use plain::Plain;

#[test]
fn worked_cases() {
    portion_suite::all(&Plain);
}

/// Images of every kind, with counts of each width: what the check says, and its scratch.
#[test]
fn any_cutting() {
    let mut rng = Rng::from_env("any cutting", 165);
    let mut pair = Pair::new(&Plain, &Plain);
    let mut met = BTreeSet::new();
    for order in 0..=MAX_ORDER {
        for _ in 0..400 {
            let plan = Plan { version: 3, order, ..Plan::random(&mut rng) };
            let made = any_image_of(plan, &mut rng);
            let verdict = format!("{:?}", portion_drive::cut(&mut pair, &made, &mut rng));
            met.insert((order, verdict.split('(').next().unwrap_or_default().to_string()));
        }
    }
    for kind in ["Sound", "Leaks", "BadL1", "BadL2", "Shared", "Short"] {
        let lacks = |order: &u32| !met.contains(&(*order, kind.into()));
        assert_eq!((0..=MAX_ORDER).find(lacks), None, "{kind}");
    }
    for kind in ["MarkL1", "MarkL2", "SnapshotBadL1", "SnapshotBadL2"] {
        assert!(met.iter().any(|(_, of)| of == kind), "{kind}");
    }
}

#[test]
fn random() {
    let mut rng = Rng::from_env("portions", 161);
    let mut pair = Pair::new(&Plain, &Plain);
    portion_drive::compare(&mut pair, &mut rng, setting("CALLS", 40_000));
    println!("{:#?}", pair.tally);
    let missing = WANTED.iter().find(|kind| !pair.tally.contains_key(**kind));
    assert!(pair.calls < 40_000 || missing.is_none(), "{missing:?}");
}
