//! Calls planned into batches, with few rows held and with many.

use std::time::Duration;

use answers::{Batches, Planned, STEP};
use made::full;
use made::image::Made;
use plain::Plain;
use qcow2_core::Core;

use crate::bench::{spread, timed, Bench};

/// Calls in one run.
const CALLS: u64 = 2000;

pub fn run(bench: &Bench) {
    let mut made = full::empty(12, 4 * CALLS as usize);
    full::fill(&mut made, 0, CALLS as usize);
    for held in [0, 1000] {
        let name = format!("a discard planned, {held} rows held");
        row(bench, &name, &made, held, |side, image, k, rows| {
            side.batch_discard(image, &[], k, rows, held)
        });
        let name = format!("a write that allots planned, {held} rows held");
        row(bench, &name, &made, held, |side, image, k, rows| {
            side.batch_write(image, &[], (CALLS + k) << 12, 4096, rows, held)
        });
    }
}

/// The image stays as it is, so that each call finds the rows that are held.
fn row(
    bench: &Bench,
    name: &str,
    made: &Made,
    held: usize,
    plan: impl Fn(&dyn Batches, &[u8], u64, &mut [u64]) -> Planned,
) {
    let work = |side: &dyn Batches| {
        let mut rows = rows(made, held);
        let calls = || {
            for k in 0..CALLS {
                let planned = plan(side, &made.bytes, k, &mut rows);
                assert!(matches!(planned, Planned::Rows(_)), "{planned:?}");
            }
        };
        [timed(calls), Duration::ZERO]
    };
    let times = bench.turns(0, &[&|_| work(&Core), &|_| work(&Plain)]);
    let [core, plain] = [0, 1].map(|side| {
        let times = &times[side][0];
        times.iter().map(|time| time / CALLS as f64).collect::<Vec<f64>>()
    });
    let ratio = |k: usize| core[k] / plain[k];
    let (core_spread, plain_spread) = (spread(&core), spread(&plain));
    println!(
        "| {name} | {core_spread} | {plain_spread} | {:.2} | {:.2} |",
        ratio(core.len() / 2),
        ratio(0)
    );
}

/// Rows as those of new clusters at the image's end: a count, data, an entry.
fn rows(made: &Made, held: usize) -> Vec<u64> {
    let (end, mut rows) = (made.bytes.len() as u64, vec![0; STEP * (held + 8)]);
    for (k, row) in (0..).zip(&mut rows.as_chunks_mut::<STEP>().0[..held]) {
        let at = end - 4096 * (1 + k);
        *row = [[at, 2, 1, 1], [at, 4096, 4096, 1], [at, 8, 1, 2]][k as usize % 3];
    }
    rows
}
