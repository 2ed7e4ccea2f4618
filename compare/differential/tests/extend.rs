//! Appended clusters taken in, by the core and by the plain implementation.
#![forbid(unsafe_code)]

use answers::Outcome;
use made::extend_drive::{self, WANTED};
use made::longer;
use made::pair::Pair;
use made::plan::MAX_IMAGE;
use made::rng::{setting, Rng};
use plain::Plain;
use qcow2_core::Core;

const ALL: u64 = u64::MAX;

/// Any images, old lengths and allowances: every answer, unit and byte.
#[test]
fn requests() {
    let mut rng = Rng::from_env("longer images", 151);
    let mut pair = Pair::new(&Core, &Plain);
    extend_drive::compare(&mut pair, &mut rng, setting("CALLS", 60_000));
    println!("{:#?}", pair.tally);
    let missing = WANTED.iter().find(|kind| !pair.tally.contains_key(**kind));
    assert!(pair.calls < 60_000 || missing.is_none(), "{missing:?}");
}

/// Runs that are cut, smoothly and roughly, until the work is done; then calls go on.
#[test]
fn series() {
    let mut rng = Rng::from_env("series on longer images", 152);
    let met = extend_drive::follow(&Core, &mut rng, setting("CALLS", 6000));
    println!("{met:?}");
    assert!(met.calls < 6000 || met.everything(), "{met:?}");
}

/// Up to the greatest length, from a few clusters on; and one cluster more.
#[test]
fn longest_images() {
    for (cluster_bits, order) in [(9, 0), (9, 4), (9, 6), (12, 5), (16, 6), (21, 6)] {
        let made = || longer::empty(cluster_bits, order, MAX_IMAGE);
        let mut longer = [(); 2].map(|()| longer::with_zeros(made(), MAX_IMAGE));
        let (old, blocks) = (longer[0].old as u64, longer[0].new_blocks().len() as u64);
        // A third of the blocks, some bytes of the next, and then all others.
        let (block, first) = (1 + (1 << cluster_bits), blocks / 3);
        for (allowance, wanted) in [
            (first * block + 7, Outcome::Stopped(first * block + 7)),
            (0, Outcome::Stopped(0)),
            (ALL, Outcome::Finished((blocks - first) * block)),
            (ALL, Outcome::Finished(0)),
        ] {
            let wanted = if blocks == 0 { Outcome::Finished(0) } else { wanted };
            let [core, plain] = &mut longer;
            assert_eq!(qcow2_core::extend(&mut core.made.bytes, old, allowance), wanted);
            assert_eq!(plain::extend(&mut plain.made.bytes, old, allowance), wanted);
        }
        assert!(longer[0].made.bytes == longer[1].made.bytes);
        let mut scratch = vec![0; longer[0].made.scratch()];
        let verdict = qcow2_core::check(&longer[0].made.bytes, &[], &mut scratch);
        assert!(verdict.is_usable(), "{verdict:?}");
    }
}
