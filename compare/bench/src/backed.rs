//! Reading and writing over a backing file of the disk's length.

use made::full::{self, LENGTH};
use made::image::{Kind, Made};
use made::rng::Rng;

use crate::bench::Bench;
use crate::read::whole;
use crate::store::allots;

pub fn run(bench: &Bench) {
    for bits in [9, 16] {
        let name = format!("the whole disk by 64 KiB, C = {}", 1 << bits);
        whole(bench, &format!("{name}, no L2 table"), &backed(bits));
        whole(bench, &format!("{name}, empty L2 tables"), &with_tables(bits, |_| false));
        let half = with_tables(bits, |l2_index| l2_index % 2 == 0);
        whole(bench, &format!("{name}, each second cluster in the image"), &half);
        let name = format!("a write that allots, C = {}", 1 << bits);
        allots(bench, &name, &backed(bits), (LENGTH >> bits).min(10_000) - 100);
    }
}

/// An image of the usual length, with no L2 table.
fn backed(bits: u32) -> Made {
    let mut made = full::empty(bits, LENGTH >> bits);
    made.set_name(104, 20);
    made.backing = Rng::new(6).bytes(LENGTH);
    made
}

/// The same with all L2 tables, and with data for these of their entries.
fn with_tables(bits: u32, has_data: fn(usize) -> bool) -> Made {
    let (mut made, rng) = (backed(bits), &mut Rng::new(7));
    for l1_index in 0..made.l1_size {
        let table = made.add_table(l1_index).expect("a spare cluster");
        let guest = (LENGTH >> bits) - l1_index * made.per_table();
        for l2_index in (0..made.per_table().min(guest)).filter(|index| has_data(*index)) {
            assert!(made.add_entry(table, l2_index, Kind::Data, rng));
        }
    }
    made
}
