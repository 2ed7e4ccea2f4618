//! Images over a backing file, in the core and in the plain implementation.
#![forbid(unsafe_code)]

use made::backing_drive::{self, WANTED};
use made::backing_edges;
use made::drive;
use made::pair::Pair;
use made::requests::Request;
use made::rng::{setting, Rng};
use made::steps::follow;
use plain::Plain;
use qcow2_core::Core;

#[test]
fn names() {
    let mut pair = Pair::new(&Core, &Plain);
    backing_edges::each(|made, _| {
        pair.load(made);
        for request in [
            Request::Geometry,
            Request::BackingName,
            Request::Check { scratch: made.scratch() },
            Request::Read { offset: 0, len: 3 },
            Request::Discard { cluster: 0, allowance: u64::MAX },
        ] {
            pair.run(&request);
        }
    });
}

#[test]
fn lists() {
    let mut rng = Rng::from_env("lists over a backing file", 131);
    let lists = backing_drive::compare_lists(&mut Pair::new(&Core, &Plain), &mut rng);
    assert!(lists > 1000, "{lists} lists");
}

#[test]
fn requests() {
    let mut rng = Rng::from_env("requests over a backing file", 132);
    let mut pair = Pair::new(&Core, &Plain);
    drive::compare_such(&mut pair, &mut rng, setting("CALLS", 60_000), backing_drive::any);
    println!("{:#?}", pair.tally);
    let missing = WANTED.iter().find(|kind| !pair.tally.contains_key(**kind));
    assert!(pair.calls < 60_000 || missing.is_none(), "{missing:?}");
}

#[test]
fn series() {
    let mut rng = Rng::from_env("series over a backing file", 133);
    let ended =
        drive::series_such(&Core, &mut rng, setting("CALLS", 20_000), backing_drive::usable);
    println!("finished, stopped, refused: {ended:?}");
    assert!(ended.iter().all(|&count| count > 0));
}

#[test]
fn power_cuts() {
    let mut rng = Rng::from_env("power cuts over a backing file", 134);
    let met = follow(&Core, &mut rng, setting("CALLS", 3000), backing_drive::usable);
    println!("{met:?}");
    assert!(met.refused > 0 && met.cuts.iter().all(|&cuts| cuts > 0), "{met:?}");
}

#[test]
fn qemu() {
    made::qemu_suite::backing(&Core);
}
