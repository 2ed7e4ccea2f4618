//! The check of full images with snapshots that share most clusters.

use answers::Verdict;
use made::full::{self, Layout};
use made::hostile;
use made::image::{Made, USED};

use crate::bench::Bench;
use crate::check::{check, LAYOUTS};

const COUNTS: [usize; 3] = [1, 8, 64];

pub fn run(bench: &Bench) {
    for bits in [9, 16] {
        for (count, (layout, words)) in COUNTS.iter().flat_map(|&k| LAYOUTS.map(|of| (k, of))) {
            let name = format!("64 MiB, C = {}, {count} snapshots, {words}", 1 << bits);
            let made = full::with_snapshots(bits, count, layout);
            check(bench, &format!("{name}: sound"), &made, Verdict::Sound);
            if layout == Layout::Rising {
                wrong(bench, &name, made);
            }
        }
    }
    let made = hostile::one_table(9, 4096, 64);
    let name = "C = 512, 65 L1 tables of 4,096 entries for one L2 table: shared";
    check(bench, name, &made, Verdict::Shared(made.l1_at as u64 >> 9));
}

/// A wrong mark at the very end, then the last count too low.
fn wrong(bench: &Bench, name: &str, mut made: Made) {
    let &(l1_index, table) = made.tables.iter().max().expect("an L2 table");
    let entries = (table..table + made.cluster()).step_by(8);
    let last = entries.filter(|&at| made.get64(at) != 0).max().expect("an entry");
    made.put64(last, made.get64(last) ^ USED);
    let mark = Verdict::MarkL2(l1_index as u64, (last - table) as u64 / 8);
    check(bench, &format!("{name}: the last mark wrong"), &made, mark);
    let used = (0..made.clusters()).rfind(|&cluster| made.count(cluster) != 0);
    let short = used.expect("a cluster in use");
    made.set_count(short, made.count(short) - 1);
    check(bench, &format!("{name}: the last short"), &made, Verdict::Short(short as u64));
}
