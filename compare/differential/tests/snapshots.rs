//! Images with snapshots, in the core and in the plain implementation.
#![forbid(unsafe_code)]

use made::drive;
use made::hostile;
use made::pair::Pair;
use made::requests::Request;
use made::rng::{setting, Rng};
use made::snapshot_drive::{self, WANTED};
use plain::Plain;
use qcow2_core::Core;

#[test]
fn requests() {
    let mut rng = Rng::from_env("requests beside snapshots", 101);
    let mut pair = Pair::new(&Core, &Plain);
    drive::compare_such(&mut pair, &mut rng, setting("CALLS", 60_000), snapshot_drive::any_over);
    println!("{:#?}", pair.tally);
    let missing = WANTED.iter().find(|kind| !pair.tally.contains_key(**kind));
    assert!(pair.calls < 60_000 || missing.is_none(), "{missing:?}");
}

/// No snapshot's byte changes, wherever a call is cut.
#[test]
fn series() {
    let mut rng = Rng::from_env("series beside snapshots", 102);
    let ended =
        drive::series_such(&Core, &mut rng, setting("CALLS", 20_000), snapshot_drive::usable_over);
    println!("finished, stopped, refused: {ended:?}");
    assert!(ended.iter().all(|&count| count > 0));
}

/// Every entry of all 65 L1 tables names one L2 table.
#[test]
fn hostile_images() {
    let mut pair = Pair::new(&Core, &Plain);
    for (cluster_bits, l1_size, snapshots) in [(9, 2000, 64), (9, 65_536, 1), (10, 600, 64)] {
        let made = hostile::one_table(cluster_bits, l1_size, snapshots);
        pair.load(&made);
        pair.run(&Request::Check { scratch: made.scratch() });
        pair.run(&Request::Repair { scratch: made.scratch(), allowance: u64::MAX });
        pair.run(&Request::Read { offset: 0, len: 70_000 });
        pair.run(&Request::ReadSnapshot { snapshot: 0, offset: 32_700, len: 70_000 });
        pair.run(&Request::Write { offset: 1, data: vec![1; 3], allowance: 2 });
    }
}

#[test]
fn qemu() {
    made::qemu_suite::snapshots(&Core);
}
