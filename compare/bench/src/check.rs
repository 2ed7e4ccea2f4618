//! The check of full images.

use answers::{Over, Verdict};
use made::full::{self, Layout, Shape, LENGTH};
use made::image::{Kind, Made, USED};
use made::rng::Rng;

use crate::bench::{timed, Bench, Buffers};

/// Shorter images, for the growth.
const LENGTHS: [usize; 2] = [LENGTH / 4, LENGTH / 2];
pub const LAYOUTS: [(Layout, &str); 2] =
    [(Layout::Rising, "in order"), (Layout::Scattered, "scattered")];
const TABLES: usize = 900;

pub fn run(bench: &Bench) {
    for bits in [9, 16] {
        for (layout, words) in LAYOUTS {
            for length in LENGTHS {
                sound(bench, length, bits, layout, words);
            }
            let name = format!("64 MiB, C = {}, {words}", 1 << bits);
            let made = full::full_of(Shape::of(bits), Kind::Data, layout);
            sound_leaking_bad(bench, &name, made);
        }
        let name = format!("64 MiB, C = {}, in order, each entry marked: sound", 1 << bits);
        let made = full::full_of(Shape::of(bits), Kind::ZerosWithPlace, Layout::Rising);
        check(bench, &name, &made, Verdict::Sound);
    }
    for (layout, words) in LAYOUTS {
        let name = format!("C = 65536, {TABLES} L2 tables, {words}");
        sound_leaking_bad(bench, &name, full::many_tables(16, TABLES, layout));
    }
    marks(bench);
}

/// A full image of data.
pub fn sound(bench: &Bench, length: usize, bits: u32, layout: Layout, words: &str) {
    let name = format!("{} MiB, C = {}, {words}: sound", length >> 20, 1 << bits);
    let made = full::full_of(Shape { length, ..Shape::of(bits) }, Kind::Data, layout);
    check(bench, &name, &made, Verdict::Sound);
}

/// An image as it is, then with half of its counts too high, then with a bad
/// entry at the very end.
fn sound_leaking_bad(bench: &Bench, name: &str, mut made: Made) {
    check(bench, &format!("{name}: sound"), &made, Verdict::Sound);
    let leaks = raise_counts(&mut made);
    check(bench, &format!("{name}: half of the counts too high"), &made, Verdict::Leaks(leaks));
    let bad = break_last(&mut made);
    check(bench, &format!("{name}: the last entry bad"), &made, bad);
}

/// Random counts become greater than 1, half of all; how many.
fn raise_counts(made: &mut Made) -> u64 {
    let mut rng = Rng::new(4);
    let mut clusters: Vec<usize> = (0..made.clusters()).collect();
    rng.shuffle(&mut clusters);
    clusters.truncate(clusters.len() / 2);
    for &cluster in &clusters {
        made.set_count(cluster, 2 + rng.below(65_534));
    }
    clusters.len() as u64
}

/// The last entry of the last L2 table becomes bad.
fn break_last(made: &mut Made) -> Verdict {
    let &(l1_index, table) = made.tables.iter().max().expect("an L2 table");
    let l2_index = made.per_table() - 1;
    made.put64(table + 8 * l2_index, USED | 2);
    Verdict::BadL2(l1_index as u64, l2_index as u64)
}

/// Each of many L2 tables full of zero marks with no place.
fn marks(bench: &Bench) {
    let mut made = full::many_tables(16, TABLES, Layout::Rising);
    for (_, table) in made.tables.clone() {
        for at in (table..table + made.cluster()).step_by(8) {
            if made.get64(at) == 0 {
                made.put64(at, 1);
            }
        }
    }
    let name = format!("C = 65536, {TABLES} L2 tables, each entry marked: sound");
    check(bench, &name, &made, Verdict::Sound);
}

pub fn check(bench: &Bench, name: &str, made: &Made, expected: Verdict) {
    bench.row(name, made, 1, &|side: Over, buffers: &mut Buffers| {
        timed(|| {
            let verdict = side.check(&buffers.image, &mut buffers.scratch);
            assert_eq!(verdict, expected);
        })
    });
}
