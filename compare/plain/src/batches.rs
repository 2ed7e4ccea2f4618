//! Calls planned into a batch: which bytes each stores, and in which of the batch's
//! phases.

use answers::{Planned, Step, STEP};

use crate::list::Store;
use crate::steps::repair_list;
use crate::storing::{discard_list, write_list};

/// A write of `len` bytes at `offset`, whatever they are.
pub fn batch_write(
    image: &[u8],
    backing: &[u8],
    offset: u64,
    len: u64,
    rows: &mut [u64],
    held: usize,
) -> Planned {
    match write_list(image, backing, (offset, len), &[]) {
        Ok(list) => plan(image, list.clears, list.stores(), rows, held),
        Err(number) => Planned::Refused(number),
    }
}

pub fn batch_discard(
    image: &[u8],
    backing: &[u8],
    cluster: u64,
    rows: &mut [u64],
    held: usize,
) -> Planned {
    match discard_list(image, backing, cluster) {
        Ok(list) => plan(image, list.clears, list.stores(), rows, held),
        Err(number) => Planned::Refused(number),
    }
}

/// `scratch` ends as the repair leaves it.
pub fn batch_repair(
    image: &[u8],
    backing: &[u8],
    scratch: &mut [u8],
    rows: &mut [u64],
    held: usize,
) -> Planned {
    match repair_list(image, backing, scratch) {
        Ok((clearing, counts)) => {
            let stores = [clearing.stores(), &counts].concat();
            plan(image, clearing.clears, &stores, rows, held)
        }
        Err(number) => Planned::Refused(number),
    }
}

/// Puts the rows of these stores after the first `held`, as many as there is room for.
fn plan(image: &[u8], clears: bool, stores: &[Store], rows: &mut [u64], held: usize) -> Planned {
    let all = rows.as_chunks_mut::<STEP>().0;
    let room = all.len();
    let (before, after) = all.split_at_mut(held.min(room));
    let new = phased(image, clears, stores, before);
    let own = new.iter().copied().filter(|step| step.epoch == 1);
    let clash = before.iter().copied().map(Step::of_row).chain(own).any(|it| clashes(&it, &new));
    after.iter_mut().zip(&new).for_each(|(row, step)| *row = step.row());
    match held.checked_add(new.len()) {
        Some(count) if count <= room && !clash => Planned::Rows(count),
        _ => Planned::Ends,
    }
}

/// Has it a byte in phase 1 that one of these has in phase 3, or the other way round?
fn clashes(one: &Step, others: &[Step]) -> bool {
    let opposite = match one.epoch {
        1 => 3,
        3 => 1,
        _ => return false,
    };
    others.iter().any(|other| other.epoch == opposite && meet(one, other))
}

/// The stores as steps, phase by phase.
fn phased(image: &[u8], clears: bool, stores: &[Store], held: &[[u64; STEP]]) -> Vec<Step> {
    let mut steps: Vec<Step> = Vec::new();
    for (index, store) in stores.iter().enumerate() {
        let step = store.step(0);
        let is_new = || {
            let own = steps.iter().copied().filter(|other| other.epoch == 1);
            in_phase(held, 1).chain(own).any(|other| meet(&step, &other))
        };
        let epoch = match *store {
            _ if clears && index == 0 => 0,
            Store::Fill { .. } => 1,
            Store::Entry { .. } if is_new() => 1,
            Store::Entry { .. } => 2,
            Store::Count { cell, value } if cell.load(image) < value => 1,
            Store::Count { .. } => 3,
        };
        steps.push(Step { epoch, ..step });
    }
    steps.sort_by_key(|step| step.epoch);
    steps
}

fn in_phase(rows: &[[u64; STEP]], phase: u64) -> impl Iterator<Item = Step> + '_ {
    rows.iter().filter(move |row| row[3] == phase).copied().map(Step::of_row)
}

/// Have they a byte in common? Any rows may be held, so no sum is formed.
fn meet(one: &Step, other: &Step) -> bool {
    let (low, high) = if one.at <= other.at { (one, other) } else { (other, one) };
    high.at - low.at < low.len && high.len > 0
}
