//! Appended clusters taken in: an image of a few clusters that was made as long as
//! can be. What a call has stored is undone outside the timing.

use std::time::Duration;

use answers::{Outcome, Over};
use made::longer::{self, Longer};
use made::plan::MAX_IMAGE;

use crate::bench::{timed, Bench, Buffers, ALL_UNITS};

/// The blocks that are made two calls at a time.
const STEPS: usize = 512;

pub fn run(bench: &Bench) {
    for (bits, order) in [(9, 0), (9, 4), (9, 6), (12, 4), (16, 0), (16, 4), (16, 6)] {
        let longer = longer::with_zeros(longer::empty(bits, order, MAX_IMAGE), MAX_IMAGE);
        let blocks = longer.new_blocks().len();
        let name =
            format!("1 GiB, C = {}, counts of {} bits, {blocks} blocks", 1 << bits, 1 << order);
        whole(bench, &name, &longer);
        if blocks > STEPS {
            judged(bench, &name, &longer);
            by_steps(bench, &name, &longer);
            last(bench, &name, &longer);
        }
    }
}

fn whole(bench: &Bench, name: &str, longer: &Longer) {
    let units = units(longer, longer.new_blocks().len());
    bench.row(&format!("{name}: all at once"), &longer.made, 1, &|side, buffers| {
        undone(longer, buffers, |image| {
            timed(|| {
                let outcome = side.calls.extend(image, longer.old as u64, ALL_UNITS);
                assert_eq!(outcome, Outcome::Finished(units));
            })
        })
    });
}

/// Nothing is stored.
fn judged(bench: &Bench, name: &str, longer: &Longer) {
    bench.row(&format!("{name}: allowance 0"), &longer.made, 1, &|side, buffers| {
        timed(|| {
            let outcome = side.calls.extend(&mut buffers.image, longer.old as u64, 0);
            assert_eq!(outcome, Outcome::Stopped(0));
        })
    });
}

/// As over a file: a fill, and then the fill once more with its entry.
fn by_steps(bench: &Bench, name: &str, longer: &Longer) {
    let fill = longer.made.cluster() as u64;
    let call = |side: Over, image: &mut [u8], allowance| {
        let outcome = side.calls.extend(image, longer.old as u64, allowance);
        assert_eq!(outcome, Outcome::Stopped(allowance));
    };
    let name = format!("{name}: of {STEPS} blocks the fill, and the entry");
    bench.row(&name, &longer.made, 2 * STEPS, &|side, buffers| {
        undone(longer, buffers, |image| {
            timed(|| {
                for _ in 0..STEPS {
                    call(side, image, fill);
                    call(side, image, fill + 1);
                }
            })
        })
    });
}

/// All blocks are made but the last, and nothing is stored.
fn last(bench: &Bench, name: &str, longer: &Longer) {
    bench.row(&format!("{name}: allowance 0 at the last"), &longer.made, 1, &|side, buffers| {
        undone(longer, buffers, |image| {
            for index in longer.new_blocks().skip(1) {
                let (entry, place) = (longer.entry_at(index - 1), longer.place(index - 1));
                image[entry..entry + 8].copy_from_slice(&(place as u64).to_be_bytes());
            }
            timed(|| {
                let outcome = side.calls.extend(image, longer.old as u64, 0);
                assert_eq!(outcome, Outcome::Stopped(0));
            })
        })
    });
}

fn units(longer: &Longer, blocks: usize) -> u64 {
    (blocks * (longer.made.cluster() + 1)) as u64
}

/// Does the work, and makes what it stored zeros again.
fn undone(
    longer: &Longer,
    buffers: &mut Buffers,
    work: impl FnOnce(&mut [u8]) -> Duration,
) -> Duration {
    let (image, cluster) = (&mut buffers.image, longer.made.cluster());
    let time = work(image);
    for index in longer.new_blocks() {
        let (entry, place) = (longer.entry_at(index), longer.place(index));
        image[entry..entry + 8].fill(0);
        image[place..place + cluster].fill(0);
    }
    time
}
