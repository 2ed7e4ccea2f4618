//! The check in portions, by the core and by the plain implementation.
#![forbid(unsafe_code)]

use answers::{Calls, CheckBytes, Portion, Verdict};
use made::hostile;
use made::image::Made;
use made::longest;
use made::pair::Pair;
use made::plan::bench_image;
use made::portion_drive::{self, WANTED};
use made::portion_suite;
use made::portions::{l1_sizes, Kept};
use made::real;
use made::rng::{setting, Rng};
use made::windows;
use plain::Plain;
use qcow2_core::Core;

#[test]
fn worked_cases() {
    portion_suite::all(&Core);
}

/// Any images, states and cuttings, with anything changed between two portions.
#[test]
fn random() {
    let mut rng = Rng::from_env("portions", 171);
    let mut pair = Pair::new(&Core, &Plain);
    portion_drive::compare(&mut pair, &mut rng, setting("CALLS", 60_000));
    println!("{:#?}", pair.tally);
    let missing = WANTED.iter().find(|kind| !pair.tally.contains_key(**kind));
    assert!(pair.calls < 60_000 || missing.is_none(), "{missing:?}");
}

/// Every entry of all L1 tables names one L2 table, with more references than a figure
/// has room for.
#[test]
fn hostile_images() {
    let mut rng = Rng::from_env("hostile images", 172);
    let mut pair = Pair::new(&Core, &Plain);
    for (cluster_bits, l1_size, snapshots) in [(9, 2000, 64), (9, 65_536, 1), (10, 600, 64)] {
        let made = hostile::one_table(cluster_bits, l1_size, snapshots);
        let sizes = l1_sizes(&made.bytes);
        pair.load(&made);
        for may in [u64::MAX, 65_536, 9999] {
            let mut kept = Kept::new(&made, &mut rng);
            let (mut scratch, under) = (kept.scratch.clone(), made.over(&Core));
            let told = portion_drive::cut_by(&mut pair, &mut kept, &sizes, || may);
            assert_eq!(told, under.check(&made.bytes, &mut scratch));
            assert!(kept.scratch == scratch);
        }
    }
}

/// Images of an independent program.
#[test]
fn real_images() {
    let mut rng = Rng::from_env("real images", 173);
    let mut pair = Pair::new(&Core, &Plain);
    for real in real::all() {
        let made = Made { bytes: real.bytes, backing: real.backing, ..bench_image() };
        portion_drive::cut(&mut pair, &made, &mut rng);
    }
}

/// The longest images, which take little memory, with the longest L1 tables: 20,000 of
/// their entries at a time.
#[test]
fn longest_images() {
    for (cluster_bits, order) in [(9, 4), (14, 1), (21, 0)] {
        let made = longest::last_two_free(cluster_bits, order);
        let mut whole = vec![7; made.scratch()];
        let verdict = qcow2_core::check(&made.bytes, &[], &mut whole);
        let mut kept = [(); 2].map(|()| (CheckBytes::NEW, vec![7; made.scratch()]));
        for turn in 0..4 {
            let [core, plain] = &mut kept;
            let answer =
                qcow2_core::check_portion(&made.bytes, &[], &mut core.0, &mut core.1, 20_000);
            let other = plain::check_portion(&made.bytes, &[], &mut plain.0, &mut plain.1, 20_000);
            assert_eq!(answer, if turn < 3 { Portion::More } else { Portion::Told(verdict) });
            assert_eq!(answer, other);
            assert!(core == plain);
        }
        assert!(kept[0].1 == whole);
    }
}

/// The last portion alone, of a state that has passed all tables: what it answers, and the
/// state after it.
fn last(side: &dyn Calls, made: &Made) -> (Portion, CheckBytes) {
    let mut state = CheckBytes::of_numbers([1, 65, 0, 0, 0, 0, 0]);
    let mut scratch = vec![0; made.scratch()];
    let answer = made.over(side).check_portion(&made.bytes, &mut state, &mut scratch, 1);
    assert!(scratch.iter().all(|&byte| byte == 0));
    (answer, state)
}

/// Sharing is judged in parts of the image.
#[test]
fn windows_of_clusters() {
    let mut shown = 0;
    windows::each(|made, shared| {
        let [core, plain] = [last(&Core, made), last(&Plain, made)];
        assert_eq!(core, plain);
        match (shared, core.0) {
            (Some(cluster), told) => {
                assert_eq!(told, Portion::Told(Verdict::Shared(cluster as u64)));
            }
            (None, told) => assert!(matches!(told, Portion::Told(Verdict::Leaks(_))), "{told:?}"),
        }
        shown += 1;
    });
    assert!(shown > 150, "{shown} images");
}
