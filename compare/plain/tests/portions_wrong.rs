//! That the tests of the check in portions can fail: implementations with one thing wrong
//! each are found out, by the comparison or beside the check done at once.
#![forbid(unsafe_code)]

use std::cell::Cell;

use made::fault::found;
use made::pair::Pair;
use made::portion_drive::{compare, cut};
use made::portions::any;
use made::rng::Rng;
use plain::{
    backing_name, check, difference, discard, discard_steps, extend, geometry, lookup, read,
    read_snapshot, repair, repair_steps, runs, translate, write, write_steps, CheckBytes,
    CheckState, Plain, Portion, Verdict,
};

/// What is wrong.
#[derive(Clone, Copy, Debug, PartialEq)]
enum Fault {
    /// Each portion clears the scratch.
    ClearsAgain,
    /// The whole of it is cleared, not its part.
    ClearsAll,
    /// One that may take none begins the check.
    BeginsWithNone,
    /// No references of cluster 0, of the tables and of the blocks.
    NotFixed,
    /// The last entry of a portion is taken once more.
    EntryTwice,
    /// Counts and marks are judged by the image's references, whatever the scratch has.
    NotByTheScratch,
    /// Nothing is shared where the figures say so.
    SharingByTheScratch,
    /// A finished check is made anew.
    AnswersAnew,
    /// A finished check answers before the header and the scratch are judged.
    AnswersFirst,
    /// Only a bad entry that was found before is kept.
    ForgetsFound,
    /// An index past a table's end is one of the table.
    NotPassedOver,
    /// Numbers of the state that say nothing stay.
    StaleNumbers,
}

const FAULTS: [Fault; 12] = [
    Fault::ClearsAgain,
    Fault::ClearsAll,
    Fault::BeginsWithNone,
    Fault::NotFixed,
    Fault::EntryTwice,
    Fault::NotByTheScratch,
    Fault::SharingByTheScratch,
    Fault::AnswersAnew,
    Fault::AnswersFirst,
    Fault::ForgetsFound,
    Fault::NotPassedOver,
    Fault::StaleNumbers,
];

thread_local!(static FAULT: Cell<Option<Fault>> = const { Cell::new(None) });

struct Wrong;

answers::calls!(functions Wrong "wrong");

/// Bytes of the scratch that an accepted image needs.
fn needed(image: &[u8], backing: &[u8], scratch: &[u8]) -> Option<usize> {
    let needed = geometry(image, backing).ok()?.scratch();
    (needed <= scratch.len()).then_some(needed)
}

fn check_portion(
    image: &[u8],
    backing: &[u8],
    bytes: &mut CheckBytes,
    scratch: &mut [u8],
    may: u64,
) -> Portion {
    let (fault, before) = (FAULT.get().expect("a fault"), *bytes);
    if let (Fault::AnswersFirst, CheckState::Finished(verdict)) =
        (fault, CheckState::of_bytes(bytes))
    {
        return Portion::Told(verdict);
    }
    let Some(needed) = needed(image, backing, scratch) else {
        return plain::check_portion(image, backing, bytes, scratch, may);
    };
    let may = misread(fault, image, bytes, &mut scratch[..needed], may);
    if fault == Fault::ClearsAll && before.numbers()[0] == 0 && may > 0 {
        scratch.fill(0);
    }
    let answer = plain::check_portion(image, backing, bytes, scratch, may);
    match fault {
        Fault::AnswersAnew if before.numbers()[0] > 1 => {
            Portion::Told(check(image, backing, &mut scratch.to_vec()))
        }
        _ if *bytes == before => answer,
        _ => misjudged(fault, image, backing, answer, before, bytes, &scratch[..needed]),
    }
}

/// What is wrong with the state or the scratch before the portion; how many it may take.
fn misread(
    fault: Fault,
    image: &[u8],
    bytes: &mut CheckBytes,
    scratch: &mut [u8],
    may: u64,
) -> u64 {
    let state = CheckState::of_bytes(bytes);
    match (fault, state) {
        (Fault::ClearsAgain, CheckState::Going { .. }) if may > 0 => scratch.fill(0),
        (Fault::BeginsWithNone, CheckState::New) => return may.max(1),
        (Fault::NotFixed, CheckState::New) if may > 0 => {
            scratch.fill(0);
            *bytes = CheckState::Going { root: 0, row: 0, found: Verdict::Sound }.bytes();
        }
        (Fault::ForgetsFound, CheckState::Going { root, row, found }) if may > 0 => {
            let found = match found {
                Verdict::BadL1(_) | Verdict::BadL2(..) => found,
                _ => Verdict::Sound,
            };
            *bytes = CheckState::Going { root, row, found }.bytes();
        }
        (Fault::NotPassedOver, CheckState::Going { root: 0, row, found }) if may > 0 => {
            let last = u64::from(u32::from_be_bytes(image[36..40].try_into().unwrap()));
            let row = row.min(last.saturating_sub(1));
            *bytes = CheckState::Going { root: 0, row, found }.bytes();
        }
        _ => {}
    }
    may
}

fn figure(scratch: &[u8], cluster: u64) -> Option<u16> {
    scratch.as_chunks().0.get(cluster as usize).map(|&two| u16::from_be_bytes(two))
}

/// What is wrong with the state or the answer after a portion that took its entries.
fn misjudged(
    fault: Fault,
    image: &[u8],
    backing: &[u8],
    answer: Portion,
    before: CheckBytes,
    after: &mut CheckBytes,
    scratch: &[u8],
) -> Portion {
    let (mut numbers, own) = (after.numbers(), &mut scratch.to_vec());
    let verdict = match answer {
        Portion::Told(verdict) => verdict,
        _ => Verdict::Sound,
    };
    let told = match fault {
        Fault::EntryTwice if numbers[0] == 1 && numbers[2] > 1 => {
            numbers[2] -= 1;
            *after = CheckBytes::of_numbers(numbers);
            return answer;
        }
        Fault::StaleNumbers if numbers[0] == 1 && numbers[3] == 1 => {
            numbers[6] = before.numbers()[6];
            *after = CheckBytes::of_numbers(numbers);
            return answer;
        }
        Fault::NotByTheScratch => match verdict {
            Verdict::Short(_) | Verdict::MarkL1(_) => check(image, backing, own),
            _ => return answer,
        },
        Fault::SharingByTheScratch => match verdict {
            Verdict::Shared(cluster) if figure(scratch, cluster) < Some(2) => Verdict::Sound,
            _ => return answer,
        },
        _ => return answer,
    };
    *after = CheckState::Finished(told).bytes();
    Portion::Told(told)
}

#[test]
fn each_fault_is_found_by_the_comparison() {
    for fault in FAULTS {
        FAULT.set(Some(fault));
        let work = || compare(&mut Pair::new(&Wrong, &Plain), &mut Rng::new(163), 40_000);
        let words = found(work);
        assert!(words.contains("differ"), "{fault:?}: {words}");
    }
}

/// Those that show from a new state on, with nothing changed between the portions.
#[test]
fn some_are_found_beside_the_check() {
    for fault in [
        Fault::ClearsAgain,
        Fault::ClearsAll,
        Fault::BeginsWithNone,
        Fault::NotFixed,
        Fault::EntryTwice,
        Fault::ForgetsFound,
    ] {
        FAULT.set(Some(fault));
        let (pair, rng) = (&mut Pair::new(&Wrong, &Wrong), &mut Rng::new(164));
        let words = found(|| (0..2000).for_each(|_| _ = cut(pair, &any(rng), rng)));
        let known = ["not the check's scratch", "told after", "assertion"];
        assert!(known.iter().any(|it| words.contains(it)), "{fault:?}: {words}");
    }
}
