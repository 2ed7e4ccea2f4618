//! Drivers of checks in portions, for two implementations: cut anyhow, which has to give
//! what the check gives, and from any state, with anything changed between two portions.

use answers::{CheckBytes, Portion, Verdict};
use plain::Plain;

use crate::damage;
use crate::image::Made;
use crate::pair::Pair;
use crate::portions::{any, any_may, any_row, any_state, change, l1_sizes, refused, usable, Kept};
use crate::requests::Requests;
use crate::rng::Rng;

/// What a random comparison has to meet.
pub const WANTED: [&str; 13] = [
    "check_portion More",
    "check_portion Sound",
    "check_portion Leaks",
    "check_portion BadL1",
    "check_portion BadL2",
    "check_portion SnapshotBadL1",
    "check_portion SnapshotBadL2",
    "check_portion Shared",
    "check_portion Short",
    "check_portion MarkL1",
    "check_portion MarkL2",
    "check_portion Refused(15)",
    "check_portion Refused(255)",
];

/// Feeds both sides checks of every kind, until so many calls were made.
pub fn compare(pair: &mut Pair, rng: &mut Rng, calls: u64) {
    let stop = pair.calls + calls;
    while pair.calls < stop {
        match rng.below(4) {
            0 => _ = cut(pair, &any(rng), rng),
            1 => ended(pair, &usable(rng), rng),
            _ => changed(pair, &usable(rng), rng),
        }
    }
}

/// Cuts a check of this image anyhow, twice; what the check says.
pub fn cut(pair: &mut Pair, made: &Made, rng: &mut Rng) -> Verdict {
    let kept = Kept::new(made, rng);
    let mut scratch = kept.scratch.clone();
    let verdict = made.over(&Plain).check(&made.bytes, &mut scratch);
    pair.load(made);
    if let Verdict::Refused(number) = verdict {
        assert_eq!(pair.portion(&mut kept.clone(), any_may(1, rng)), Portion::Refused(number));
        return verdict;
    }
    let sizes = l1_sizes(&made.bytes);
    let entries = sizes.iter().sum();
    // At most 40 portions, so that the longest tables take no longer than others.
    let least = entries as u64 / 40;
    for _ in 0..2 {
        let mut kept = kept.clone();
        let told = cut_by(pair, &mut kept, &sizes, || any_may(entries, rng).max(least));
        assert_eq!(told, verdict);
        assert!(kept.scratch == scratch, "not the check's scratch");
        assert_eq!(pair.portion(&mut kept, any_may(entries, rng)), Portion::Told(verdict));
    }
    verdict
}

/// Portions until the check is finished, of as many entries as `may` says: each leaves the
/// place after so many, and the last one comes as soon as that is all. What was told.
pub fn cut_by(
    pair: &mut Pair,
    kept: &mut Kept,
    sizes: &[usize],
    mut may: impl FnMut() -> u64,
) -> Verdict {
    let (mut taken, entries) = (0u64, sizes.iter().sum::<usize>() as u64);
    loop {
        let (may, before) = (may(), kept.state);
        let answer = pair.portion(kept, may);
        taken = taken.saturating_add(may);
        match answer {
            Portion::Told(verdict) => {
                assert!(may > 0 && taken >= entries, "told after {taken} of {entries}");
                return verdict;
            }
            Portion::More if may == 0 => assert_eq!(kept.state, before),
            Portion::More => {
                assert!(taken < entries, "not told after {taken} of {entries}");
                let [stage, root, row, ..] = kept.state.numbers();
                assert_eq!((stage, root, row), place(sizes, taken), "{taken} of {sizes:?}");
            }
            refused => panic!("{refused:?}"),
        }
    }
}

/// A going state's place after so many entries: after the last one of them.
fn place(sizes: &[usize], taken: u64) -> (u64, u64, u64) {
    let mut left = taken;
    for (root, &size) in (0..).zip(sizes) {
        match size as u64 {
            size if left <= size => return (1, root, left),
            size => left -= size,
        }
    }
    unreachable!("more than there are");
}

/// The last portion alone, after most entries or all of them: with the figures of an image
/// that was damaged since, so that all that is judged by them is met.
pub fn ended(pair: &mut Pair, original: &Made, rng: &mut Rng) {
    let kept = &mut Kept::new(original, rng);
    original.over(&Plain).check(&original.bytes, &mut kept.scratch);
    for _ in 0..4 {
        let mut made = original.clone();
        for _ in 0..1 + rng.below(3) {
            rng.pick(&damage::ALL)(&mut made, rng);
        }
        let root = (made.snapshots.len() + rng.index(2)) as u64;
        let row = any_row(&made, root, rng);
        kept.state = CheckBytes::of_numbers([1, root, row, 0, 0, 0, 0]);
        pair.load(&made);
        pair.portion(&mut kept.clone(), any_may(1, rng));
    }
}

/// From a new or any other state on, with image, scratch and state changed between two
/// portions, by calls that store too.
pub fn changed(pair: &mut Pair, original: &Made, rng: &mut Rng) {
    let (mut made, mut requests) = (original.clone(), Requests::new(original));
    let mut kept = Kept::new(&made, rng);
    if rng.once_in(2) {
        kept.state = any_state(&made, rng);
    }
    pair.load(&made);
    for _ in 0..4 + rng.below(10) {
        let entries = made.l1_size + made.snapshots.iter().map(|of| of.l1_size).sum::<usize>();
        pair.portion(&mut kept, any_may(entries, rng));
        match rng.below(16) {
            0..=3 => {
                change(&mut made, original, rng);
                pair.load(&made);
            }
            4 => _ = pair.run(&requests.storing(rng)),
            5..=6 => kept.change_scratch(&made, rng),
            7..=9 => kept.change_state(&made, rng),
            10 => {
                pair.load(&refused(&made, rng));
                pair.portion(&mut kept, any_may(entries, rng));
                pair.load(&made);
            }
            11 => kept.state = CheckBytes::NEW,
            _ => {}
        }
    }
}
