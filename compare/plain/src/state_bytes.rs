//! The state of a check as seven numbers: the stage, the place, and a verdict as its tag
//! and three numbers. What is not used is 0, and is not looked at.

use answers::{CheckBytes, Verdict};

use crate::portions::CheckState;

impl CheckState {
    /// Any bytes are a state.
    pub fn of_bytes(bytes: &CheckBytes) -> CheckState {
        let [stage, root, row, verdict @ ..] = bytes.numbers();
        match stage {
            0 => CheckState::New,
            1 => CheckState::Going { root, row, found: verdict_of(verdict) },
            _ => CheckState::Finished(verdict_of(verdict)),
        }
    }

    pub fn bytes(self) -> CheckBytes {
        let (place, verdict) = match self {
            CheckState::New => ([0, 0, 0], Verdict::Sound),
            CheckState::Going { root, row, found } => ([1, root, row], found),
            CheckState::Finished(verdict) => ([2, 0, 0], verdict),
        };
        let ([stage, root, row], [tag, a, b, c]) = (place, numbers(verdict));
        CheckBytes::of_numbers([stage, root, row, tag, a, b, c])
    }
}

/// A bad entry's table is 0 for the active one, and one more than the snapshot's number
/// for the others.
fn verdict_of([tag, a, b, c]: [u64; 4]) -> Verdict {
    match (tag, a.checked_sub(1)) {
        (0, _) => Verdict::Sound,
        (1, _) => Verdict::Leaks(a),
        (2, None) => Verdict::BadL1(b),
        (2, Some(snapshot)) => Verdict::SnapshotBadL1(b, snapshot),
        (3, None) => Verdict::BadL2(b, c),
        (3, Some(snapshot)) => Verdict::SnapshotBadL2(b, c, snapshot),
        (4, _) => Verdict::Shared(a),
        (5, _) => Verdict::Short(a),
        (6, _) => Verdict::MarkL1(a),
        (7, _) => Verdict::MarkL2(a, b),
        _ => Verdict::Refused(a as u32 % 256),
    }
}

fn numbers(verdict: Verdict) -> [u64; 4] {
    match verdict {
        Verdict::Sound => [0, 0, 0, 0],
        Verdict::Leaks(leaks) => [1, leaks, 0, 0],
        Verdict::BadL1(l1) => [2, 0, l1, 0],
        Verdict::SnapshotBadL1(l1, snapshot) => [2, snapshot + 1, l1, 0],
        Verdict::BadL2(l1, l2) => [3, 0, l1, l2],
        Verdict::SnapshotBadL2(l1, l2, snapshot) => [3, snapshot + 1, l1, l2],
        Verdict::Shared(cluster) => [4, cluster, 0, 0],
        Verdict::Short(cluster) => [5, cluster, 0, 0],
        Verdict::MarkL1(l1) => [6, l1, 0, 0],
        Verdict::MarkL2(l1, l2) => [7, l1, l2, 0],
        Verdict::Refused(number) => [8, number.into(), 0, 0],
    }
}
