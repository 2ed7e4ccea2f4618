//! The check of full images whose counts are too low or that share clusters.

use answers::Verdict;
use made::full::{self, Shape};
use made::image::{Kind, Made};

use crate::bench::Bench;
use crate::check::{check, LAYOUTS};

/// Short: some counts are 0.
pub fn short(bench: &Bench) {
    each_full(|name, sound| {
        let last = sound.clusters() - 1;
        for (from, step, words) in [
            (0, 1, "all short"),
            (255, 256, "one short in each 256"),
            (last / 2, last, "one short in the middle"),
            (last, 1, "the last short"),
        ] {
            let mut made = sound.clone();
            (from..=last).step_by(step).for_each(|cluster| made.set_count(cluster, 0));
            check(bench, &format!("{name}: {words}"), &made, Verdict::Short(from as u64));
        }
    });
}

/// Shared: two entries name one cluster. All counts are 1, so that others leak
/// or are short as well.
pub fn shared(bench: &Bench) {
    each_full(|name, sound| {
        let entries = entries(sound);
        for (from, words) in [
            (0, "each second entry as the one before"),
            (entries.len() / 2 & !1, "the same in the later half"),
            ((entries.len() - 1) & !1, "the last two alike"),
        ] {
            let mut made = sound.clone();
            for pair in entries[from..].chunks_exact(2) {
                let place = made.get64(pair[0]);
                made.put64(pair[1], place);
            }
            let lowest = lowest_shared(&made, &entries);
            check(bench, &format!("{name}: {words}"), &made, Verdict::Shared(lowest));
        }
    });
}

fn each_full(run: impl Fn(&str, &Made)) {
    for bits in [9, 16] {
        for (layout, words) in LAYOUTS {
            let name = format!("64 MiB, C = {}, {words}", 1 << bits);
            run(&name, &full::full_of(Shape::of(bits), Kind::Data, layout));
        }
    }
}

/// Where the L2 entries that name a cluster stand, an even number of them.
fn entries(made: &Made) -> Vec<usize> {
    let mut places: Vec<usize> = made
        .tables
        .iter()
        .flat_map(|&(_, table)| (table..table + made.cluster()).step_by(8))
        .filter(|&at| made.get64(at) != 0)
        .collect();
    places.truncate(places.len() & !1);
    places
}

fn lowest_shared(made: &Made, entries: &[usize]) -> u64 {
    let mut places: Vec<u64> = entries.iter().map(|&at| made.get64(at) & !(1 << 63)).collect();
    places.sort_unstable();
    let twice = places.windows(2).find(|pair| pair[0] == pair[1]).expect("a shared cluster");
    twice[0] / made.cluster() as u64
}
