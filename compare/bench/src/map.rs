//! All runs of the disk.

use std::hint::black_box;

use answers::Over;
use made::full::{self, Layout, Shape};
use made::image::{Kind, Made};

use crate::bench::{timed, Bench, Buffers};

/// Rows for one call.
const ROWS: usize = 4096;

/// L2 entries by their number and what they were with data.
type Change = fn(usize, u64) -> u64;

const COMPRESSED: u64 = 1 << 62;
/// A bit that no good entry has.
const BAD: u64 = 2;

const CHANGES: [(&str, Change); 6] = [
    ("each second marked", |i, entry| entry | (i as u64 & 1)),
    ("each second empty", |i, entry| if i & 1 == 0 { entry } else { 0 }),
    ("marked and empty in turn", |i, entry| if i & 1 == 0 { entry | 1 } else { 0 }),
    ("each compressed", |_, entry| entry ^ COMPRESSED),
    ("each second compressed", |i, entry| if i & 1 == 0 { entry } else { entry ^ COMPRESSED }),
    ("each bad", |_, entry| entry | BAD),
];

pub fn run(bench: &Bench) {
    for bits in [9, 16] {
        for (layout, words) in [(Layout::Rising, "in order"), (Layout::Scattered, "scattered")] {
            let name = format!("64 MiB, C = {}, {words}", 1 << bits);
            row(bench, &name, &full::full_of(Shape::of(bits), Kind::Data, layout));
        }
        let name = format!("64 MiB, C = {}, each entry marked", 1 << bits);
        row(bench, &name, &full::full_of(Shape::of(bits), Kind::ZerosWithPlace, Layout::Rising));
        for (words, change) in CHANGES {
            let name = format!("64 MiB, C = {}, {words}", 1 << bits);
            row(bench, &name, &changed(bits, change));
        }
    }
    row(
        bench,
        "C = 65536, 900 L2 tables, scattered",
        &full::many_tables(16, 900, Layout::Scattered),
    );
    row(
        bench,
        "C = 65536, an empty disk of 512 GiB",
        &full::empty_of(Shape { length: 1 << 20, ..Shape::of(16) }, 1 << 23, Layout::Rising),
    );
}

/// A full image whose clusters lie in order, with its L2 entries changed.
fn changed(bits: u32, change: Change) -> Made {
    let mut made = full::full_of(Shape::of(bits), Kind::Data, Layout::Rising);
    for i in 0..made.entries.len() {
        let at = made.entries[i];
        made.put64(at, change(i, made.get64(at)));
    }
    made
}

fn row(bench: &Bench, name: &str, made: &Made) {
    let size = made.size;
    bench.row(name, made, 1, &|side: Over, buffers: &mut Buffers| {
        let mut rows = vec![0; 3 * ROWS];
        timed(|| {
            let mut at = 0;
            while at < size {
                let count = side.runs(&buffers.image, at, size - at, &mut rows).expect("accepted");
                at += rows[..3 * count].iter().skip(2).step_by(3).sum::<u64>();
                black_box(&mut rows);
            }
        })
    });
}
