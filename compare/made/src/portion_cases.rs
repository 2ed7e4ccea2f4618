//! Worked cases of the check in portions, for one implementation: images that change
//! between two portions, states that no portion has made, and what the last one judges.

use answers::{Calls, Portion, Verdict};

use crate::image::USED;
use crate::portion_suite::{image, kept, owned, with_l1, Going};

const ALL: u64 = u64::MAX;

/// Runs every case.
pub fn all(calls: &dyn Calls) {
    for case in [
        moved_on,
        moved_back,
        other_tables,
        first_bad_entry,
        bad_in_a_snapshot,
        found_stays,
        sharing_by_the_image,
        counts_by_the_scratch,
        greatest_figures,
        bad_entries_at_the_end,
    ] {
        case(calls);
    }
}

/// The first table was moved to the second entry when it was counted: it counts twice, and
/// nothing is shared.
fn moved_on(calls: &dyn Calls) {
    let (made, mut check) = (image(), Going::new(calls));
    assert_eq!(check.portion(&made, 1, [1, 0, 1, 0, 0, 0, 0]), Portion::More);
    let moved = with_l1(with_l1(made, 0, 0), 1, owned(4));
    assert_eq!(check.last(&moved), Verdict::Short(4));
    check.figures(&[1, 1, 1, 1, 2, 2]);
}

/// The second table was moved to the first entry when that was passed: it does not count,
/// so the entry's mark is wrong, which comes before the leaks.
fn moved_back(calls: &dyn Calls) {
    let (made, mut check) = (with_l1(image(), 0, 0), Going::new(calls));
    assert_eq!(check.portion(&made, 1, [1, 0, 1, 0, 0, 0, 0]), Portion::More);
    let moved = with_l1(with_l1(made, 1, 0), 0, owned(6));
    assert_eq!(check.last(&moved), Verdict::MarkL1(0));
    check.figures(&[1, 1, 1, 1]);
    let mut check = Going::from(calls, [1, 0, 2, 0, 0, 0, 0]);
    check.set_figures(&moved);
    check.set_figure(6, 1);
    check.set_figure(7, 0);
    assert_eq!(check.last(&moved), Verdict::MarkL2(0, 3));
}

/// Tables and indices that are not there are passed over.
fn other_tables(calls: &dyn Calls) {
    let made = kept();
    for (root, row, next) in
        [(0, 2, (1, 1)), (1, 2, (2, 1)), (1, ALL, (2, 1)), (0, 1 << 61, (1, 1))]
    {
        let mut check = Going::from(calls, [1, root, row, 0, 0, 0, 0]);
        let wanted = [1, next.0, next.1, 0, 0, 0, 0];
        assert_eq!(check.portion(&made, 1, wanted), Portion::More);
    }
    for (root, row) in [(2, 2), (2, ALL), (3, 0), (4, 1), (1 << 32, 0), (ALL, 0), (ALL, ALL)] {
        let mut check = Going::from(calls, [1, root, row, 0, 0, 0, 0]);
        check.set_figures(&made);
        assert_eq!(check.last(&made), Verdict::Sound, "{root}, {row}");
    }
    // The snapshots go when half of the first one is counted.
    let mut check = Going::new(calls);
    assert_eq!(check.portion(&made, 3, [1, 1, 1, 0, 0, 0, 0]), Portion::More);
    check.figures(&[1, 1, 1, 1, 2, 2, 1, 1, 1, 1, 1]);
    let mut without = image();
    (8..11).for_each(|cluster| without.set_count(cluster, 1));
    without.set_count(4, 2);
    assert_eq!(check.last(&without), Verdict::Short(5));
    // The active table gets a third entry when its two are counted.
    let mut check = Going::new(calls);
    assert_eq!(check.portion(&made, 2, [1, 0, 2, 0, 0, 0, 0]), Portion::More);
    let mut longer = made;
    longer.put32(36, 3);
    assert_eq!(check.portion(&longer, 1, [1, 0, 3, 0, 0, 0, 0]), Portion::More);
}

/// It is told, also when it is good again; one that became bad when it was counted is not.
fn first_bad_entry(calls: &dyn Calls) {
    let (good, mut check) = (image(), Going::new(calls));
    let bad = with_l1(good.clone(), 0, owned(4) | 2);
    assert_eq!(check.portion(&bad, 1, [1, 0, 1, 2, 0, 0, 0]), Portion::More);
    check.figures(&[1; 4]);
    assert_eq!(check.last(&good), Verdict::BadL1(0));
    let mut check = Going::new(calls);
    assert_eq!(check.portion(&good, 1, [1, 0, 1, 0, 0, 0, 0]), Portion::More);
    assert_eq!(check.last(&bad), Verdict::Sound);
    let mut check = Going::new(calls);
    let mut bad = good;
    bad.put64(4 * 512 + 8 * 63, 2);
    bad.put64(4 * 512 + 8 * 9, USED | 512 << 8 | 1 << 62);
    assert_eq!(check.portion(&bad, 1, [1, 0, 1, 3, 0, 0, 9]), Portion::More);
    assert_eq!(check.last(&with_l1(bad, 1, 1)), Verdict::BadL2(0, 9));
}

/// The table is counted from 1 on in the state, and told as the snapshot's number.
fn bad_in_a_snapshot(calls: &dyn Calls) {
    let (mut made, mut check) = (kept(), Going::new(calls));
    made.put64(9 * 512 + 8, 1);
    made.put64(10 * 512, 1);
    assert_eq!(check.portion(&made, 4, [1, 1, 2, 2, 1, 1, 0]), Portion::More);
    let told = [2, 0, 0, 2, 1, 1, 0];
    assert_eq!(check.portion(&made, 2, told), Portion::Told(Verdict::SnapshotBadL1(1, 0)));
    // A table of its own for the second one, in cluster 11.
    let (mut made, mut check) = (kept(), Going::new(calls));
    made.put64(10 * 512 + 8, 11 * 512);
    made.put64(11 * 512 + 8 * 5, 2);
    let told = [2, 0, 0, 3, 2, 1, 5];
    assert_eq!(check.portion(&made, 6, told), Portion::Told(Verdict::SnapshotBadL2(1, 5, 1)));
}

/// Whatever a state was made to have found is told in the end; numbers that say nothing
/// become 0.
fn found_stays(calls: &dyn Calls) {
    let bad = with_l1(image(), 0, 1);
    for (found, stored, told) in [
        ([1, 9, 8, 7], [1, 9, 0, 0], Portion::Told(Verdict::Leaks(9))),
        ([1, 0, 8, 7], [1, 0, 0, 0], Portion::Told(Verdict::Leaks(0))),
        ([2, 0, 8, 7], [2, 0, 8, 0], Portion::Told(Verdict::BadL1(8))),
        ([2, ALL, 8, 7], [2, ALL, 8, 0], Portion::Told(Verdict::SnapshotBadL1(8, ALL - 1))),
        ([3, 0, 8, 7], [3, 0, 8, 7], Portion::Told(Verdict::BadL2(8, 7))),
        ([3, 9, ALL, 7], [3, 9, ALL, 7], Portion::Told(Verdict::SnapshotBadL2(ALL, 7, 8))),
        ([4, ALL, 8, 7], [4, ALL, 0, 0], Portion::Told(Verdict::Shared(ALL))),
        ([5, 9, 8, 7], [5, 9, 0, 0], Portion::Told(Verdict::Short(9))),
        ([6, 9, 8, 7], [6, 9, 0, 0], Portion::Told(Verdict::MarkL1(9))),
        ([7, 9, 8, 7], [7, 9, 8, 0], Portion::Told(Verdict::MarkL2(9, 8))),
        ([8, 15, 8, 7], [8, 15, 0, 0], Portion::Refused(15)),
        ([ALL, 256 + 3, 8, 7], [8, 3, 0, 0], Portion::Refused(3)),
        ([9, 512, 8, 7], [8, 0, 0, 0], Portion::Told(Verdict::Sound)),
    ] {
        let with = |place: [u64; 3], [tag, a, b, c]: [u64; 4]| {
            let [stage, root, row] = place;
            [stage, root, row, tag, a, b, c]
        };
        let mut check = Going::from(calls, with([1, 0, 0], found));
        assert_eq!(check.portion(&bad, 1, with([1, 0, 1], stored)), Portion::More);
        assert_eq!(check.portion(&bad, 1, with([2, 0, 0], stored)), told);
        for (stage, may) in [(2, 0), (3, 1), (ALL, ALL)] {
            let numbers = with([stage, 5, 6], found);
            assert_eq!(Going::from(calls, numbers).portion(&bad, may, numbers), told);
        }
    }
}

/// Whatever the figures are.
fn sharing_by_the_image(calls: &dyn Calls) {
    let mut shared = image();
    shared.put64(6 * 512 + 8 * 60, owned(5));
    for row in [2, 9] {
        let mut check = Going::from(calls, [1, 0, row, 0, 0, 0, 0]);
        check.set_figures(&shared);
        assert_eq!(check.last(&shared), Verdict::Shared(5));
        // Two references where there is one.
        let (made, mut check) = (image(), Going::from(calls, [1, 0, row, 0, 0, 0, 0]));
        check.set_figures(&made);
        check.set_figure(5, 2);
        assert_eq!(check.last(&made), Verdict::Short(5));
    }
    // Two disks may share data, but not with the block.
    let (mut made, mut check) = (kept(), Going::from(calls, [1, 3, 0, 0, 0, 0, 0]));
    check.set_figures(&made);
    made.put64(6 * 512 + 8 * 60, 2 * 512);
    assert_eq!(check.last(&made), Verdict::Shared(2));
}

fn counts_by_the_scratch(calls: &dyn Calls) {
    let made = image();
    for (cluster, figure, wanted) in [
        (5, 0, Verdict::MarkL2(0, 3)),
        (6, 0, Verdict::MarkL1(1)),
        (0, 0, Verdict::Leaks(1)),
        (15, 1, Verdict::Short(15)),
        (1, 256, Verdict::Short(1)),
        (4, 0, Verdict::MarkL1(0)),
    ] {
        let mut check = Going::from(calls, [1, 1, 0, 0, 0, 0, 0]);
        check.set_figures(&made);
        check.set_figure(cluster, figure);
        assert_eq!(check.last(&made), wanted);
    }
}

fn greatest_figures(calls: &dyn Calls) {
    let (made, mut check) = (image(), Going::from(calls, [1, 0, 0, 0, 0, 0, 0]));
    check.scratch[..32].fill(0);
    check.set_figure(4, 65_534);
    check.set_figure(5, 65_535);
    check.set_figure(7, 255);
    assert_eq!(check.last(&made), Verdict::Short(4));
    check.figures(&[0, 0, 0, 0, 65_535, 65_535, 1, 256]);
}

/// Those that no portion has taken are passed over, with all below them.
fn bad_entries_at_the_end(calls: &dyn Calls) {
    let good = image();
    let mut without = good.clone();
    [4, 5].into_iter().for_each(|cluster| without.set_count(cluster, 0));
    for bad in [1, 2, 256, 1 << 62] {
        let made = with_l1(without.clone(), 0, owned(4) | bad);
        let mut check = Going::from(calls, [1, 0, 2, 0, 0, 0, 0]);
        check.set_figures(&made);
        assert_eq!(check.last(&made), Verdict::Sound, "{bad}");
    }
    for bad in [2, 256, 1 << 62, 1 << 56] {
        let mut made = good.clone();
        made.put64(4 * 512 + 8 * 3, owned(5) | bad);
        made.set_count(5, 0);
        let mut check = Going::from(calls, [1, 0, 2, 0, 0, 0, 0]);
        check.set_figures(&made);
        assert_eq!(check.last(&made), Verdict::Sound, "{bad}");
    }
}
