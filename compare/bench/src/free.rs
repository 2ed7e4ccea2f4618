//! The search for free clusters.
//!
//! A write with allowance 0 stores nothing: its time is the header, the way to
//! the entry, and the search. The search alone is that time less the time of
//! the same call for a guest cluster that has a place, where nothing is
//! searched. With C = 65,536 that difference is lost in the header's time (64
//! KiB of refcount table against 2 KiB of counts), and is not shown.

use std::ops::Range;

use answers::{Outcome, Over};
use made::full::{self, Shape, LENGTH};
use made::image::Made;

use crate::bench::{timed, Bench, Buffers, ALL_UNITS};

/// Calls in one run.
const CALLS: usize = 50;
const LENGTHS: [usize; 3] = [LENGTH / 4, LENGTH / 2, LENGTH];

pub fn run(bench: &Bench) {
    for bits in [9, 16] {
        for length in LENGTHS {
            one_wanted(bench, length, bits);
        }
        two_wanted(bench, bits);
        none_free(bench, bits);
        no_common_bit(bench, bits);
    }
}

/// Only the last cluster free.
pub fn one_wanted(bench: &Bench, length: usize, bits: u32) {
    let (made, guest) = full::nearly_full(Shape { length, ..Shape::of(bits) }, 1);
    let name = format!("{} MiB, C = {}, the last free", length >> 20, 1 << bits);
    searches(bench, &name, &made, guest, Outcome::Stopped(0));
    let undo = [entry_of(&made, guest), count_of(&made, made.spare[0])];
    whole_write(bench, &name, &made, guest, &undo, (1 << bits) + 2);
}

/// No L2 table, and only the last two clusters free.
fn two_wanted(bench: &Bench, bits: u32) {
    let (made, guest) = full::last_two_free(Shape::of(bits));
    let name = format!("64 MiB, C = {}, two wanted, the last two free", 1 << bits);
    searches(bench, &name, &made, guest, Outcome::Stopped(0));
    let l1_at = made.l1_entry(guest as usize / made.per_table());
    let undo = [l1_at..l1_at + 8, count_of(&made, made.spare[0]), count_of(&made, made.spare[1])];
    whole_write(bench, &name, &made, guest, &undo, (2 << bits) + 4);
}

fn none_free(bench: &Bench, bits: u32) {
    let (made, guest) = full::nearly_full(Shape::of(bits), 0);
    let name = format!("64 MiB, C = {}, none free (14)", 1 << bits);
    searches(bench, &name, &made, guest, Outcome::Refused(14));
}

/// Counts of 1 and 2 in turn, as in a leaking image: no bit is set in all.
fn no_common_bit(bench: &Bench, bits: u32) {
    let (mut made, guest) = full::nearly_full(Shape::of(bits), 1);
    for cluster in (0..made.clusters() - 1).step_by(2) {
        made.set_count(cluster, 2);
    }
    let name = format!("64 MiB, C = {}, the last free, counts 1 and 2 in turn", 1 << bits);
    searches(bench, &name, &made, guest, Outcome::Stopped(0));
}

/// The call that stores nothing, and its search alone.
pub fn searches(bench: &Bench, name: &str, made: &Made, guest: u64, answer: Outcome) {
    let bits = made.cluster_bits;
    let search = |side: Over, buffers: &mut Buffers| {
        timed(|| (0..CALLS).for_each(|_| try_write(side, buffers, guest << bits, answer)))
    };
    let alone = |side: Over, buffers: &mut Buffers| {
        let idle = timed(|| {
            (0..CALLS).for_each(|_| try_write(side, buffers, 0, Outcome::Stopped(0)));
        });
        search(side, buffers).saturating_sub(idle)
    };
    bench.row(&format!("{name}: call"), made, CALLS, &search);
    if bits < 16 {
        bench.row(&format!("{name}: search alone"), made, CALLS, &alone);
    }
}

/// A write of one byte with allowance 0.
fn try_write(side: Over, buffers: &mut Buffers, offset: u64, answer: Outcome) {
    let data = &buffers.out[..1];
    assert_eq!(side.write(&mut buffers.image, offset, data, 0), answer);
}

/// The write that allots, undone after each call outside the timing.
fn whole_write(
    bench: &Bench,
    name: &str,
    made: &Made,
    guest: u64,
    undo: &[Range<usize>],
    units: u64,
) {
    let run = |side: Over, buffers: &mut Buffers| {
        let once = |_| {
            let data = &buffers.out[..1];
            let time = timed(|| {
                let offset = guest << made.cluster_bits;
                let outcome = side.write(&mut buffers.image, offset, data, ALL_UNITS);
                assert_eq!(outcome, Outcome::Finished(units));
            });
            for range in undo {
                buffers.image[range.clone()].copy_from_slice(&made.bytes[range.clone()]);
            }
            time
        };
        (0..CALLS).map(once).sum()
    };
    bench.row(&format!("{name}: whole write"), made, CALLS, &run);
}

/// Where the L2 entry of a guest cluster stands.
fn entry_of(made: &Made, guest: u64) -> Range<usize> {
    let per_table = made.per_table();
    let (_, table) = made.tables[guest as usize / per_table];
    let at = table + 8 * (guest as usize % per_table);
    at..at + 8
}

fn count_of(made: &Made, cluster: usize) -> Range<usize> {
    made.count_at(cluster)
}
