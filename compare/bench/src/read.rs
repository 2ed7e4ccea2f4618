//! Reading the whole disk.

use std::hint::black_box;

use answers::Over;
use made::full;
use made::image::Made;

use crate::bench::{timed, Bench, Buffers, REQUEST};

pub fn run(bench: &Bench) {
    for bits in [9, 16] {
        let name = format!("the whole disk by 64 KiB, C = {}", 1 << bits);
        whole(bench, &name, &full::full(bits));
    }
}

pub fn whole(bench: &Bench, name: &str, made: &Made) {
    let size = made.size;
    let run = |side: Over, buffers: &mut Buffers| {
        timed(|| {
            for offset in (0..size).step_by(REQUEST) {
                let len = (size - offset).min(REQUEST as u64) as usize;
                let out = &mut buffers.out[..len];
                assert_eq!(side.read(&buffers.image, offset, out), Ok(()));
                black_box(out);
            }
        })
    };
    bench.row(name, made, 1, &run);
}
