//! Images that were made longer, of every kind: blocks that are named already,
//! wrong entries of the refcount table, and structures where a new block goes.

use crate::breaks::{break_header, ORDER};
use crate::damage;
use crate::drive::{any_image_of, usable_over};
use crate::longer::{lengthened, plan, usable, Longer};
use crate::rng::Rng;

/// Any image that was made longer.
pub fn any(rng: &mut Rng) -> Longer {
    let mut longer = match rng.below(8) {
        0 => {
            let plan = plan(rng);
            lengthened(any_image_of(plan, rng), rng)
        }
        1..=2 => forgotten(rng),
        _ => usable(rng),
    };
    for _ in 0..rng.below(3) {
        match rng.below(6) {
            0..=1 => name_some(&mut longer, rng),
            2 => wrong_entry(&mut longer, rng),
            3..=4 => onto(&mut longer, rng),
            _ => autoclear(&mut longer, rng),
        }
    }
    if rng.once_in(5) {
        let first = rng.index(ORDER.len());
        let last = first + rng.index(ORDER.len() - first);
        break_header(&mut longer.made, ORDER[last], rng);
        break_header(&mut longer.made, ORDER[first], rng);
    }
    longer
}

/// An image that never was shorter: of its blocks only the first are left, and the
/// others are to be made where anything may lie.
pub fn forgotten(rng: &mut Rng) -> Longer {
    let mut plan = plan(rng);
    plan.spare += rng.index(400);
    let mut made = usable_over(plan, rng);
    if rng.once_in(3) {
        rng.pick(&damage::ALL)(&mut made, rng);
    }
    let kept = 1 + rng.index(made.blocks.len());
    for index in kept..made.blocks.len() {
        made.put64(made.table_at + 8 * index, 0);
    }
    let span = made.per_block() << made.cluster_bits;
    let old = (kept * span).min(made.bytes.len());
    Longer { made, old }
}

/// Some of the new blocks are named: as runs that were cut leave them, or any; with
/// their bytes or without.
pub fn name_some(longer: &mut Longer, rng: &mut Rng) {
    let new = longer.new_blocks();
    let first = new.start + rng.index(new.len() + 1);
    let (run, filled) = (rng.once_in(2), rng.once_in(2));
    for index in new {
        if if run { index >= first } else { rng.once_in(2) } {
            continue;
        }
        let (place, at) = (longer.place(index), longer.entry_at(index));
        if at + 8 > longer.made.bytes.len() {
            return;
        }
        if filled {
            let cluster = longer.made.cluster();
            longer.made.bytes[place..place + cluster].fill(0);
        }
        longer.made.put64(at, place as u64);
    }
}

/// An entry of the table that keeps its rule for the longer image alone, or breaks it.
pub fn wrong_entry(longer: &mut Longer, rng: &mut Rng) {
    let entries = longer.made.table_clusters * longer.made.cluster() / 8;
    let new = longer.new_blocks();
    let (below, within) = (rng.index(new.start.max(1)), new.start + rng.index(new.len().max(1)));
    let later = new.end + rng.index(entries.saturating_sub(new.end).max(1));
    let last = new.end.saturating_sub(1);
    let index = rng.pick(&[0, below, new.start, within, within, last, new.end, later, entries - 1]);
    let (value, at) = (some_entry(longer, index, rng), longer.entry_at(index));
    if at + 8 <= longer.made.bytes.len() {
        longer.made.put64(at, value);
    }
}

/// 0, its new place or near it, the ends of the image and of the earlier one.
fn some_entry(longer: &Longer, index: usize, rng: &mut Rng) -> u64 {
    let (n, cluster) = (longer.made.bytes.len() as u64, longer.made.cluster() as u64);
    let (place, first) = (longer.place(index) as u64, longer.place(longer.new_blocks().start));
    let appended = (longer.old as u64).min(n.saturating_sub(cluster));
    let low = 1 << rng.below(longer.made.cluster_bits.into());
    let high = 1 << (32 + rng.below(32));
    let mut values = vec![0, 1, cluster, appended, n - n.min(cluster), n, n + cluster];
    values.extend([place, place + cluster, place.wrapping_sub(cluster), first as u64]);
    values.extend([place | low, place | high, place ^ high]);
    rng.pick(&values)
}

/// A structure goes where a new block is to go, or beside it: the refcount table
/// itself, L1 tables, the snapshot table, an earlier block.
pub fn onto(longer: &mut Longer, rng: &mut Rng) {
    let new = longer.new_blocks();
    if new.is_empty() {
        return;
    }
    let index = new.start + rng.index(new.len());
    let (cluster, n) = (longer.made.cluster(), longer.made.bytes.len());
    // Of a table of several clusters any may lie there.
    let before = cluster * rng.index(longer.made.table_clusters + 1);
    let place = longer.place(index);
    let near = rng.pick(&[place, place, place - before, place + cluster, place - cluster]);
    let made = &mut longer.made;
    let fits = |length: usize| near + length <= n && near >= cluster;
    match rng.below(6) {
        0..=2 if fits(made.table_clusters * cluster) => {
            let length = made.table_clusters * cluster;
            made.bytes.copy_within(made.table_at..made.table_at + length, near);
            made.table_at = near;
            made.put64(48, near as u64);
        }
        3 if fits(8 * made.l1_size) => made.put64(40, near as u64),
        4 if made.snapshots.is_empty() => {
            let block = rng.index(new.start);
            made.put64(made.table_at + 8 * block, near.min(n - cluster) as u64);
        }
        4 if fits(cluster) => {
            made.bytes.copy_within(made.snapshots_at..made.snapshots_at + cluster, near);
            made.put64(64, near as u64);
        }
        5 if !made.snapshots.is_empty() => {
            let entry = made.snapshots[rng.index(made.snapshots.len())].entry;
            made.put64(entry, near as u64);
        }
        _ => {}
    }
}

/// Any autoclear bits, which version 2 has no field for.
fn autoclear(longer: &mut Longer, rng: &mut Rng) {
    let bits = rng.number() >> rng.below(64);
    longer.made.put64(crate::image::AUTOCLEAR, bits);
}
