//! The check in portions beside the check done at once, core against core, and plain's
//! portions beside the core's.
//!
//! The last portion looks for shared clusters in walks of its own, which the check done at
//! once does without. The time of these alone is that of a portion with no entry ahead
//! which finds the last cluster shared; where that takes many checks, the whole last portion
//! is taken off for it, since its spread is longer than what is left. Every portion judges
//! the header too: the time of that is as many calls' that tell the geometry.

use std::hint::black_box;
use std::time::Duration;

use answers::{Calls, CheckBytes, Portion, Verdict};
use made::full::{self, Layout, Shape};
use made::image::{Kind, Made};
use made::plan::Plan;
use plain::Plain;
use qcow2_core::Core;

use crate::bench::{spread, timed, Bench};

const LENGTHS: [usize; 2] = [64 << 20, 1 << 30];
const SNAPSHOTS: [usize; 3] = [0, 1, 8];
const PORTIONS: [usize; 3] = [1, 10, 1000];
const NONE: Duration = Duration::ZERO;
/// Checks.
const MANY: f64 = 10.0;

pub fn run(bench: &Bench) {
    println!(
        "\n| portions | check | all portions | the last | sharing | headers | all/check \
         | without sharing | without headers too | plain, all | core/plain |"
    );
    println!("|---|---|---|---|---|---|---|---|---|---|---|");
    for bits in [9, 16] {
        for (length, snapshots) in LENGTHS.iter().flat_map(|&of| SNAPSHOTS.map(|k| (of, k))) {
            let shape = Shape { length, ..Shape::of(bits) };
            let made = match snapshots {
                0 => full::full_of(shape, Kind::Data, Layout::Rising),
                _ => full::with_snapshots_of(shape, snapshots, Layout::Rising),
            };
            let name = format!("{} MiB, C = {}, {snapshots} snapshots", length >> 20, 1 << bits);
            let mut cuttings = PORTIONS.map(|portions| entries(&made).min(portions)).to_vec();
            cuttings.dedup();
            rows(bench, &name, made, &cuttings);
        }
    }
    sparse(bench);
}

/// Disks as long as can be, of which next to nothing is in the image.
fn sparse(bench: &Bench) {
    for (bits, l1_size) in [(9, 65_536), (16, 2048)] {
        let guest = (Plan::reach(bits, l1_size) >> bits) as usize;
        let mut made = full::empty_of(Shape::of(bits), guest, Layout::Rising);
        full::fill(&mut made, 0, 300);
        let name = format!("64 MiB, C = {}, an L1 table of {l1_size} entries", 1 << bits);
        rows(bench, &name, made, &[1, l1_size / 256, l1_size / 16, l1_size]);
    }
}

/// L1 entries of all tables.
fn entries(made: &Made) -> usize {
    made.l1_size * (1 + made.snapshots.len())
}

/// Of one image, each time cut into so many portions.
fn rows(bench: &Bench, name: &str, mut made: Made, cuttings: &[usize]) {
    let sharing = sharing(bench, &mut made);
    for &portions in cuttings {
        let times = bench.turns(
            made.scratch(),
            &[
                &|scratch| [at_once(&made, scratch), NONE],
                &|scratch| in_portions(&Core, &made, scratch, portions),
                &|scratch| in_portions(&Plain, &made, scratch, portions),
                &|_| [headers(&made, portions), NONE],
            ],
        );
        let [[check, _], [all, last], [plain, _], [headers, _]] = &times[..] else {
            unreachable!("four")
        };
        let middle = |times: &[f64]| times[times.len() / 2];
        let is_long = sharing[0] > MANY * check[0];
        let left = all[0] - if is_long { last[0] } else { sharing[0] };
        let of_check = |time: f64| match is_long && portions == 1 {
            true => "-".into(),
            false => format!("{:.2}", time / check[0]),
        };
        println!(
            "| {name}, in {portions} | {} | {:.2} | {} | {} | {} | {:.2} |",
            [check, all, last, &sharing, headers].map(|times| spread(times)).join(" | "),
            middle(all) / middle(check),
            of_check(left),
            of_check(left - headers[0]),
            spread(plain),
            middle(all) / middle(plain),
        );
    }
}

/// As often as there are portions.
fn headers(made: &Made, portions: usize) -> Duration {
    timed(|| {
        for _ in 0..portions {
            assert!(black_box(qcow2_core::geometry(&made.bytes, &[])).is_ok());
        }
    })
}

fn at_once(made: &Made, scratch: &mut [u8]) -> Duration {
    timed(|| assert_eq!(qcow2_core::check(&made.bytes, &[], scratch), Verdict::Sound))
}

/// The time of all portions, of nearly as many entries each, and of the last.
fn in_portions(
    side: &dyn Calls,
    made: &Made,
    scratch: &mut [u8],
    portions: usize,
) -> [Duration; 2] {
    let (mut state, entries) = (CheckBytes::NEW, entries(made));
    let mut next = |k: usize, wanted| {
        let may = ((k + 1) * entries / portions - k * entries / portions) as u64;
        timed(|| {
            let answer = side.check_portion(&made.bytes, &[], &mut state, scratch, may);
            assert_eq!(answer, wanted);
        })
    };
    let before: Duration = (0..portions - 1).map(|k| next(k, Portion::More)).sum();
    let last = next(portions - 1, Portion::Told(Verdict::Sound));
    [before + last, last]
}

/// The times in which the core sees that no cluster is shared but the last one of the disk.
fn sharing(bench: &Bench, made: &mut Made) -> Vec<f64> {
    let place = |at: usize| made.get64(at) & 0x00FF_FFFF_FFFF_FE00;
    let below = |&(_, table): &(usize, usize)| (table..table + made.cluster()).step_by(8);
    let entries = || made.tables.iter().flat_map(below).filter(|&at| place(at) != 0);
    let last = entries().max_by_key(|&at| place(at)).expect("an entry");
    let other = entries().find(|&at| at != last).expect("two entries");
    let (cluster, before) = (place(last) >> made.cluster_bits, made.get64(other));
    made.put64(other, made.get64(last));
    let past = [1, 1 + made.snapshots.len() as u64, 0, 0, 0, 0, 0];
    let times = bench.turns(
        made.scratch(),
        &[&|scratch| {
            let mut state = CheckBytes::of_numbers(past);
            let time = timed(|| {
                let told = qcow2_core::check_portion(&made.bytes, &[], &mut state, scratch, 1);
                assert_eq!(told, Portion::Told(Verdict::Shared(cluster)));
            });
            [time, NONE]
        }],
    );
    made.put64(other, before);
    times.into_iter().flatten().next().expect("one")
}
