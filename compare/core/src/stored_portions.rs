//! The numbers that a portion of a check stores beside each of its answers, and its state.

use answers::CheckBytes;
use made::image::{Made, USED};

use crate::ffi;
use crate::stored::{kept, sound, with_count, with_entry, Call, Lent, ALL, BAD, SCRATCH};

/// One portion of a fresh copy of the image, from this state on: its code, its numbers,
/// and the state after it.
fn portion(made: &Made, state: [u64; 7], may: u64) -> (u32, Vec<u64>, [u64; 7]) {
    let mut lent = Lent::of(made);
    lent.state = CheckBytes::of_numbers(state);
    let (code, numbers) = lent.call(Call::Portion { scratch: SCRATCH, may });
    (code, numbers, lent.state.numbers())
}

const NEW: [u64; 7] = [0; 7];

#[test]
fn not_finished() {
    let more = |state| (ffi::MORE, vec![0; 3], state);
    assert_eq!(portion(&sound(), NEW, 0), more(NEW));
    assert_eq!(portion(&sound(), NEW, 1), more([1, 0, 1, 0, 0, 0, 0]));
    let mut made = sound();
    made.put64(made.l1_entry(0), BAD);
    assert_eq!(portion(&made, NEW, 1), more([1, 0, 1, 2, 0, 0, 0]));
    let found = [1, 0, 0, 7, 1, 2, 3];
    assert_eq!(portion(&sound(), found, 0), more(found));
    assert_eq!(portion(&sound(), found, 1), more([1, 0, 1, 7, 1, 2, 0]));
}

/// As those of the check.
#[test]
fn told() {
    let mut wrong_mark = sound();
    wrong_mark.put64(4 * 512, 0);
    wrong_mark.put64(4 * 512 + 8 * 7, 5 * 512);
    let mut bad_snapshot = kept();
    bad_snapshot.put64(8 * 512, 1);
    for (made, code, numbers, verdict) in [
        (sound(), 0, [0, 0, 0], [0, 0, 0, 0]),
        (with_count(9, 3), ffi::LEAKS, [1, 0, 0], [1, 1, 0, 0]),
        (with_entry(BAD), ffi::BAD_L2, [1, 2, 0], [3, 0, 1, 2]),
        (with_entry(USED | (5 * 512)), ffi::SHARED, [5, 0, 0], [4, 5, 0, 0]),
        (with_count(5, 0), ffi::SHORT, [5, 0, 0], [5, 5, 0, 0]),
        (wrong_mark, ffi::MARK_L2, [1, 7, 0], [7, 1, 7, 0]),
        (bad_snapshot, ffi::SNAPSHOT_BAD_L1, [0, 0, 1], [2, 2, 0, 0]),
    ] {
        let [tag, a, b, c] = verdict;
        let told = (code, numbers.to_vec(), [2, 0, 0, tag, a, b, c]);
        assert_eq!(portion(&made, NEW, ALL), told);
        for may in [0, 1, ALL] {
            assert_eq!(portion(&sound(), told.2, may), told);
        }
    }
}

/// A refusal that a state was made to tell is its number, modulo 256.
#[test]
fn told_refusals() {
    for (number, code) in [(0, 0), (15, 15), (255, 255), (256, 0), (ALL, 255)] {
        let finished = [2, 3, 4, 8, number, 5, 6];
        assert_eq!(portion(&sound(), finished, 1), (code, vec![0; 3], finished));
        let going = [1, 0, 2, 9, number, 5, 6];
        let stored = [2, 0, 0, 8, code.into(), 0, 0];
        assert_eq!(portion(&sound(), going, 1), (code, vec![0; 3], stored));
    }
}
