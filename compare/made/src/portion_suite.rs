//! Worked cases of the check in portions, for one implementation, on the bench image with
//! a few entries: how it is cut, and when nothing changes.

use answers::{Calls, CheckBytes, Over, Portion, Verdict};

use crate::breaks::{break_header, ORDER};
use crate::image::{Kind, Made, USED};
use crate::plan::{bench_image_of, MAX_ORDER};
use crate::portion_cases;
use crate::rng::Rng;
use crate::snapshots::keep_all;

const ALL: u64 = u64::MAX;
/// What the scratch holds before the first portion.
const HELD: u8 = 0x5A;

/// Runs every case.
pub fn all(calls: &dyn Calls) {
    (0..=MAX_ORDER).for_each(|order| one_by_one(calls, order));
    every_cutting(calls);
    no_entry(calls);
    finished(calls);
    refusals(calls);
    portion_cases::all(calls);
}

/// A check in portions.
pub(crate) struct Going<'c> {
    side: Over<'c>,
    state: CheckBytes,
    pub scratch: [u8; 34],
}

impl<'c> Going<'c> {
    pub fn new(calls: &'c dyn Calls) -> Going<'c> {
        Going::from(calls, [0; 7])
    }

    pub fn from(calls: &'c dyn Calls, numbers: [u64; 7]) -> Going<'c> {
        let state = CheckBytes::of_numbers(numbers);
        Going { side: Over::none(calls), state, scratch: [HELD; 34] }
    }

    fn next(&mut self, made: &Made, may: u64) -> Portion {
        self.side.check_portion(&made.bytes, &mut self.state, &mut self.scratch, may)
    }

    /// The next portion, which leaves the state with these numbers.
    pub fn portion(&mut self, made: &Made, may: u64, wanted: [u64; 7]) -> Portion {
        let answer = self.next(made, may);
        assert_eq!(self.state.numbers(), wanted, "after {answer:?}");
        assert_eq!(self.scratch[32..], [HELD; 2]);
        answer
    }

    /// The next one is the last; what it tells.
    pub fn last(&mut self, made: &Made) -> Verdict {
        let answer = self.next(made, ALL);
        assert_eq!(self.state.numbers()[..3], [2, 0, 0]);
        match answer {
            Portion::Told(verdict) => verdict,
            other => panic!("{other:?}"),
        }
    }

    /// The figures of the first clusters; those after them are 0.
    pub fn figures(&self, wanted: &[u16]) {
        let figures = self.scratch[..32].as_chunks().0.iter().map(|&two| u16::from_be_bytes(two));
        let rest = std::iter::repeat(&0);
        assert!(figures.clone().eq(wanted.iter().chain(rest).copied().take(16)), "{wanted:?}");
    }

    /// The figures that each cluster's stored count is.
    pub fn set_figures(&mut self, made: &Made) {
        for cluster in 0..16 {
            self.set_figure(cluster, made.count(cluster) as u16);
        }
    }

    pub fn set_figure(&mut self, cluster: usize, figure: u16) {
        self.scratch[2 * cluster..][..2].copy_from_slice(&figure.to_be_bytes());
    }
}

/// Two L2 tables with an entry each: in clusters 4 and 6, their data in 5 and 7.
fn two_tables(order: u32) -> Made {
    let (mut made, mut rng) = (bench_image_of(order), Rng::new(9));
    for l1_index in 0..2 {
        let table = made.add_table(l1_index).expect("room for a table");
        assert!(made.add_entry(table, 3, Kind::Data, &mut rng));
    }
    made
}

pub(crate) fn image() -> Made {
    two_tables(4)
}

/// An entry that names a cluster, with bit 63.
pub(crate) fn owned(cluster: u64) -> u64 {
    USED + 512 * cluster
}

/// The same with another L1 entry.
pub(crate) fn with_l1(mut made: Made, l1_index: usize, entry: u64) -> Made {
    made.put64(made.l1_entry(l1_index), entry);
    made
}

/// The same with two snapshots of it: their table in cluster 8, their L1 tables in 9 and 10.
pub(crate) fn kept() -> Made {
    let mut made = image();
    keep_all(&mut made, 2);
    assert_eq!((made.snapshots[0].l1_at, made.snapshots[1].l1_at), (9 * 512, 10 * 512));
    made
}

fn one_by_one(calls: &dyn Calls, order: u32) {
    let (made, mut check) = (two_tables(order), Going::new(calls));
    assert_eq!(check.portion(&made, 0, [0; 7]), Portion::More);
    assert_eq!(check.scratch, [HELD; 34]);
    let after_one = [1, 0, 1, 0, 0, 0, 0];
    assert_eq!(check.portion(&made, 1, after_one), Portion::More);
    check.figures(&[1; 6]);
    assert_eq!(check.portion(&made, 0, after_one), Portion::More);
    check.figures(&[1; 6]);
    let sound = [2, 0, 0, 0, 0, 0, 0];
    assert_eq!(check.portion(&made, 1, sound), Portion::Told(Verdict::Sound));
    check.figures(&[1; 8]);
    for may in [2, 3, 1 << 32, ALL] {
        let mut check = Going::new(calls);
        assert_eq!(check.portion(&made, may, sound), Portion::Told(Verdict::Sound));
        check.figures(&[1; 8]);
    }
}

/// A change of [`kept`], and what the check says then.
type Change = (fn(&mut Made), Verdict);

/// Images of six entries, and what the check says of them: each verdict.
fn six_entries() -> Vec<(Made, Verdict)> {
    let changes: [Change; 10] = [
        (|_| {}, Verdict::Sound),
        (|made| made.set_count(15, 1), Verdict::Leaks(1)),
        (|made| made.put64(made.l1_entry(1), 1), Verdict::BadL1(1)),
        (|made| made.put64(4 * 512, 2), Verdict::BadL2(0, 0)),
        (|made| made.put64(9 * 512, USED), Verdict::SnapshotBadL1(0, 0)),
        (|made| made.put64(10 * 512 + 8, 2 * 512), Verdict::SnapshotBadL2(1, 0, 1)),
        (|made| made.put64(4 * 512, 10 * 512), Verdict::Shared(10)),
        (|made| made.set_count(7, 2), Verdict::Short(7)),
        (|made| made.put64(made.l1_entry(1), owned(6)), Verdict::MarkL1(1)),
        (|made| made.put64(6 * 512 + 8 * 3, owned(7)), Verdict::MarkL2(1, 3)),
    ];
    let of = |(change, verdict): Change| {
        let mut made = kept();
        change(&mut made);
        (made, verdict)
    };
    changes.map(of).into()
}

/// Each of the 32 ways to cut six entries, with portions of none between them.
fn every_cutting(calls: &dyn Calls) {
    for (made, verdict) in six_entries() {
        let mut wanted = [HELD; 34];
        assert_eq!(made.over(calls).check(&made.bytes, &mut wanted), verdict);
        for cuts in 0..32u32 {
            let (mut check, mut may, mut portions) = (Going::new(calls), 0, 0);
            for entry in 0..6 {
                may += 1;
                if entry < 5 && cuts >> entry & 1 == 0 {
                    continue;
                }
                let answer = check.next(&made, may);
                assert_eq!(answer == Portion::More, entry < 5, "{answer:?}");
                assert_eq!(check.next(&made, 0), answer);
                (may, portions) = (0, portions + 1);
                if entry == 5 {
                    assert_eq!(answer, Portion::Told(verdict));
                }
            }
            assert_eq!(portions, 1 + cuts.count_ones());
            assert!(check.scratch == wanted, "not the check's scratch");
        }
    }
}

/// The first portion is the last one. The count of what was the L1 table is too high.
fn no_entry(calls: &dyn Calls) {
    let mut made = bench_image_of(4);
    made.put64(24, 0);
    made.put32(36, 0);
    for may in [1, ALL] {
        let mut check = Going::new(calls);
        assert_eq!(check.portion(&made, 0, [0; 7]), Portion::More);
        let leaks = [2, 0, 0, 1, 1, 0, 0];
        assert_eq!(check.portion(&made, may, leaks), Portion::Told(Verdict::Leaks(1)));
        check.figures(&[1, 1, 1]);
    }
}

/// It answers as before, whatever the image has become.
fn finished(calls: &dyn Calls) {
    let (made, mut check) = (image(), Going::new(calls));
    assert_eq!(check.last(&made), Verdict::Sound);
    let bad = with_l1(made, 0, 1);
    let numbers = check.state.numbers();
    for may in [0, 1, ALL] {
        assert_eq!(check.portion(&bad, may, numbers), Portion::Told(Verdict::Sound));
    }
    check.figures(&[1; 8]);
}

/// For every state and number of entries: nothing changes, and it can go on.
fn refusals(calls: &dyn Calls) {
    let mut rng = Rng::from_env("refused portions", 7);
    for number in ORDER.into_iter().flat_map(|number| [number; 12]) {
        let mut made = image();
        if break_header(&mut made, number, &mut rng) {
            refused(calls, &made, 34, number);
            refused(calls, &made, 0, number);
        }
    }
    for length in [0, 1, 31] {
        refused(calls, &image(), length, 15);
    }
}

fn refused(calls: &dyn Calls, made: &Made, scratch: usize, number: u32) {
    let under = made.over(calls);
    for numbers in [[0; 7], [0, 9, 9, 9, 9, 9, 9], [1, 0, 1, 0, 0, 0, 0], [2, 9, 9, 7, 1, 2, 3]] {
        for may in [0, 1, ALL] {
            let (before, held) = (CheckBytes::of_numbers(numbers), [HELD; 34]);
            let (mut state, mut lent) = (before, held);
            let answer = under.check_portion(&made.bytes, &mut state, &mut lent[..scratch], may);
            assert_eq!((answer, state, lent), (Portion::Refused(number), before, held));
        }
    }
}
