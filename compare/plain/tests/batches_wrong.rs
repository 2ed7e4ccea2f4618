//! That the power cuts of batches can fail: planners with one thing wrong each are
//! found out.
#![forbid(unsafe_code)]

use std::cell::Cell;

use made::batches::follow;
use made::fault::found;
use made::rng::Rng;
use made::steps::any_usable;
use plain::{
    backing_name, check, check_portion, difference, discard, discard_steps, extend, geometry,
    lookup, read, read_snapshot, repair, repair_steps, runs, translate, write, write_steps,
    Planned,
};

/// What is wrong.
#[derive(Clone, Copy, Debug, PartialEq)]
enum Fault {
    /// A byte may be of phase 1 and of phase 3: a cluster that the batch has freed is
    /// taken in it.
    NoClash,
    /// Counts that fall are stored with those that rise.
    FallsWithRises,
    /// Counts that rise are stored with those that fall.
    RisesWithFalls,
    /// Entries are stored with what they lead to.
    EntriesWithBytes,
    /// Entries are stored with the counts of what they led to.
    EntriesWithFalls,
    /// The autoclear field is cleared with what follows it.
    ClearsWithBytes,
    /// Entries of tables that are new in the batch wait as all others do.
    EntriesOfNewTables,
    /// The last row of a call is left out.
    LastRow,
}

/// Each with a word of what it is found by.
const FAULTS: [(Fault, &str); 8] = [
    (Fault::NoClash, "the check says Short"),
    (Fault::FallsWithRises, "the check says Short"),
    (Fault::RisesWithFalls, "the check says Short"),
    (Fault::EntriesWithBytes, "is after no such calls"),
    (Fault::EntriesWithFalls, "is as no image had it"),
    (Fault::ClearsWithBytes, "the autoclear bits stand"),
    (Fault::EntriesOfNewTables, "other bytes than the units'"),
    (Fault::LastRow, "assertion"),
];

thread_local!(static FAULT: Cell<Option<Fault>> = const { Cell::new(None) });

struct Wrong;

answers::calls!(functions Wrong "wrong");
answers::batches!(Wrong);

fn batch_write(
    image: &[u8],
    backing: &[u8],
    offset: u64,
    len: u64,
    rows: &mut [u64],
    held: usize,
) -> Planned {
    misplanned(rows, held, |rows| plain::batch_write(image, backing, offset, len, rows, held))
}

fn batch_discard(
    image: &[u8],
    backing: &[u8],
    cluster: u64,
    rows: &mut [u64],
    held: usize,
) -> Planned {
    misplanned(rows, held, |rows| plain::batch_discard(image, backing, cluster, rows, held))
}

fn batch_repair(
    image: &[u8],
    backing: &[u8],
    scratch: &mut [u8],
    rows: &mut [u64],
    held: usize,
) -> Planned {
    misplanned(rows, held, |rows| plain::batch_repair(image, backing, scratch, rows, held))
}

/// No phase.
const NONE: u64 = 9;

fn misplanned(rows: &mut [u64], held: usize, plan: impl FnOnce(&mut [u64]) -> Planned) -> Planned {
    let fault = FAULT.get().expect("a fault");
    rows[4 * held..].fill(NONE);
    let planned = plan(rows);
    let new = rows[4 * held..].as_chunks_mut::<4>().0;
    let put = new.iter().filter(|row| row[3] != NONE).count();
    for row in &mut new[..put] {
        row[3] = match (fault, *row) {
            (Fault::FallsWithRises, [.., 3]) => 1,
            (Fault::RisesWithFalls, [_, 1 | 2, 1, 1]) => 3,
            (Fault::EntriesWithBytes, [.., 2]) => 1,
            (Fault::EntriesWithFalls, [.., 2]) => 3,
            (Fault::ClearsWithBytes, [.., 0]) => 1,
            (Fault::EntriesOfNewTables, [_, 8, 1, 1]) => 2,
            (_, [.., phase]) => phase,
        };
    }
    match planned {
        Planned::Ends if fault == Fault::NoClash && put < new.len() => Planned::Rows(held + put),
        Planned::Rows(count) if fault == Fault::LastRow && put > 0 => Planned::Rows(count - 1),
        planned => planned,
    }
}

#[test]
fn each_fault_is_found() {
    for (fault, wanted) in FAULTS {
        FAULT.set(Some(fault));
        let words = found(|| _ = follow(&Wrong, &mut Rng::new(213), 4000, any_usable));
        assert!(words.contains(wanted), "{fault:?}: {words}");
    }
}
