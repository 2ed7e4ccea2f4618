//! Calls that store: many writes, discards, and a repair. The image is
//! restored before each run.

use std::time::Duration;

use answers::{Outcome, Over};
use made::full;
use made::image::Made;

use crate::bench::{timed, Bench, Buffers, ALL_UNITS};

/// Calls in one run.
const CALLS: usize = 10_000;
const LEAKS: usize = 60_000;

pub fn run(bench: &Bench) {
    allot(bench, 9);
    allot(bench, 12);
    overwrite(bench, 9);
    overwrite(bench, 16);
    discard(bench, 9);
    repair(bench, 9);
}

/// Writes of 5 bytes to guest clusters with no place, and at first no L2 table.
fn allot(bench: &Bench, bits: u32) {
    let name = format!("a write that allots, C = {}", 1 << bits);
    allots(bench, &name, &full::empty(bits, CALLS), CALLS);
}

/// So many of them, one guest cluster after the other.
pub fn allots(bench: &Bench, name: &str, made: &Made, calls: usize) {
    let bits = made.cluster_bits;
    bench.row_restored(name, made, calls, &|side: Over, buffers: &mut Buffers| {
        writes(side, buffers, calls, |k| ((k << bits) + 7) as u64, 5)
    });
}

/// Writes of 512 bytes to guest clusters with a place, scattered.
fn overwrite(bench: &Bench, bits: u32) {
    let mut made = full::empty(bits, CALLS);
    let done = full::fill(&mut made, 0, CALLS);
    let name = format!("an overwrite of 512 bytes, C = {}", 1 << bits);
    bench.row_restored(&name, &made, CALLS, &|side: Over, buffers: &mut Buffers| {
        writes(side, buffers, CALLS, |k| ((k * 7919 % done) << bits) as u64, 512)
    });
}

fn writes(
    side: Over,
    buffers: &mut Buffers,
    calls: usize,
    offset: impl Fn(usize) -> u64,
    len: usize,
) -> Duration {
    let data = &buffers.out[..len];
    timed(|| {
        for k in 0..calls {
            let outcome = side.write(&mut buffers.image, offset(k), data, ALL_UNITS);
            assert!(matches!(outcome, Outcome::Finished(_)));
        }
    })
}

fn discard(bench: &Bench, bits: u32) {
    let mut made = full::empty(bits, CALLS);
    full::fill(&mut made, 0, CALLS);
    let name = format!("a discard, C = {}", 1 << bits);
    bench.row_restored(&name, &made, CALLS, &|side: Over, buffers: &mut Buffers| {
        timed(|| {
            for k in 0..CALLS as u64 {
                let outcome = side.discard(&mut buffers.image, k, ALL_UNITS);
                assert_eq!(outcome, Outcome::Finished(2));
            }
        })
    });
}

fn repair(bench: &Bench, bits: u32) {
    let mut made = full::empty(bits, CALLS);
    full::fill(&mut made, 0, CALLS);
    for cluster in made.spare.clone().into_iter().rev().step_by(2).take(LEAKS) {
        made.set_count(cluster, 1);
    }
    let name = format!("repair of 60,000 leaks, C = {}", 1 << bits);
    bench.row_restored(&name, &made, 1, &|side: Over, buffers: &mut Buffers| {
        timed(|| {
            let outcome = side.repair(&mut buffers.image, &mut buffers.scratch, ALL_UNITS);
            assert_eq!(outcome, Outcome::Finished(LEAKS as u64));
        })
    });
}
