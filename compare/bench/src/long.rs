//! The check and the free search up to the longest image.

use made::full::Layout;

use crate::bench::Bench;
use crate::{check, free};

const LENGTHS: [usize; 3] = [64 << 20, 256 << 20, 1 << 30];

pub fn run(bench: &Bench) {
    for bits in [9, 16, 21] {
        for length in LENGTHS {
            check::sound(bench, length, bits, Layout::Rising, "in order");
            free::one_wanted(bench, length, bits);
        }
    }
}
