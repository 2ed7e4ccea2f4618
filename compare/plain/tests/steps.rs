//! The steps of calls: on the bench image one by one, and on random ones by what
//! a drive holds after a power cut.
#![forbid(unsafe_code)]

use made::drive;
use made::image::{Kind, Made, AUTOCLEAR};
use made::pair::Pair;
use made::plan::{bench_image, Plan, MAX_ORDER};
use made::requests::Request;
use made::rng::{setting, Rng};
use made::steps::{any_usable, bring, follow, follow_on, steps, Met};
use plain::plain_disk::{Call, Series};
use plain::{Geometry, Plain, Step, ALONE};

const ALL: u64 = u64::MAX;

fn write(offset: u64, len: usize) -> Request {
    Request::Write { offset, data: vec![7; len], allowance: ALL }
}

fn discard(cluster: u64) -> Request {
    Request::Discard { cluster, allowance: ALL }
}

fn repair() -> Request {
    Request::Repair { scratch: 32, allowance: ALL }
}

/// Each step as at, len, units and epoch.
fn listed(made: &Made, request: &Request) -> Vec<[u64; 4]> {
    steps(ALONE, &made.bytes, request).expect("a list").into_iter().map(Step::row).collect()
}

/// The bench image with an L2 table in cluster 4: data in cluster 5, a zero mark
/// over cluster 6, one without a place.
fn sound() -> Made {
    let mut made = bench_image();
    let table = made.add_table(1).expect("room");
    for (index, kind) in
        [Kind::Data, Kind::ZerosWithPlace, Kind::ZerosWithoutPlace].into_iter().enumerate()
    {
        assert!(made.add_entry(table, index, kind, &mut Rng::new(1)));
    }
    made
}

#[test]
fn each_kind_of_list() {
    let made = sound();
    let guest = 64 * 512;
    assert_eq!(listed(&made, &write(guest + 3, 4)), [[5 * 512 + 3, 4, 4, 1]]);
    assert_eq!(listed(&made, &write(guest, 0)), [[0; 4]; 0]);
    let marked = [[6 * 512, 512, 512, 1], [4 * 512 + 8, 8, 1, 2]];
    assert_eq!(listed(&made, &write(guest + 515, 1)), marked);
    let new = [[1024 + 14, 2, 1, 1], [7 * 512, 512, 512, 1], [4 * 512 + 24, 8, 1, 2]];
    assert_eq!(listed(&made, &write(guest + 3 * 512, 1)), new);
    let table = [
        [1024 + 14, 2, 1, 1],
        [7 * 512, 512, 512, 1],
        [1024 + 16, 2, 1, 1],
        [8 * 512, 512, 512, 1],
        [7 * 512 + 16, 8, 1, 1],
        [1536, 8, 1, 2],
    ];
    assert_eq!(listed(&made, &write(1024, 512)), table);
    let freed = [[4 * 512, 8, 1, 1], [1024 + 10, 2, 1, 2]];
    assert_eq!(listed(&made, &discard(64)), freed);
    assert_eq!(listed(&made, &discard(66)), [[4 * 512 + 16, 8, 1, 2]]);
    assert_eq!(listed(&made, &discard(67)), [[0; 4]; 0]);
    assert_eq!(listed(&made, &repair()), [[0; 4]; 0]);
}

/// The clearing unit is an epoch of its own, in front of every other list.
#[test]
fn cleared_first() {
    let mut made = sound();
    made.put64(AUTOCLEAR, 1);
    [9, 12].into_iter().for_each(|cluster| made.set_count(cluster, 1));
    let clears = [AUTOCLEAR as u64, 8, 1, 0];
    let counts = [clears, [1024 + 18, 2, 1, 1], [1024 + 24, 2, 1, 1]];
    assert_eq!(listed(&made, &repair()), counts);
    assert_eq!(listed(&made, &discard(66)), [clears, [4 * 512 + 16, 8, 1, 2]]);
    assert_eq!(listed(&made, &write(64 * 512, 1)), [clears, [5 * 512, 1, 1, 1]]);
    assert_eq!(listed(&made, &write(0, 1)).len(), 7);
    assert_eq!(listed(&made, &discard(67)), [[0; 4]; 0]);
}

/// Counts that share a byte are steps with the same byte.
#[test]
fn counts_of_each_width() {
    for (order, bytes) in (0..=MAX_ORDER).zip([1, 1, 1, 1, 2, 4, 8]) {
        let plan = Plan { version: 3, order, autoclear: 0, ..Plan::random(&mut Rng::new(3)) };
        let plan = Plan { cluster_bits: 9, size: 65_536, l1_size: 2, spare: 20, ..plan };
        let made = plan.build(&mut Rng::new(4));
        let list = listed(&made, &write(0, 9));
        let counts: Vec<[u64; 4]> = list.iter().copied().filter(|row| row[1] <= 8).collect();
        let at = |row: usize| counts[row][0] as usize..(counts[row][0] + counts[row][1]) as usize;
        let free: Vec<usize> = (0..made.clusters()).filter(|k| made.count(*k) == 0).collect();
        assert_eq!([at(0), at(1)], [made.count_at(free[0]), made.count_at(free[1])]);
        assert_eq!((counts[0][1], counts[1][1]), (bytes, bytes));
    }
}

#[test]
fn geometries() {
    let made = sound();
    let known = Geometry { cluster_bits: 9, size: 65_536, clusters: 16 };
    assert_eq!(ALONE.geometry(&made.bytes), Ok(known));
    assert_eq!((known.cluster(), known.scratch()), (512, 32));
    assert_eq!(ALONE.geometry(&made.bytes[..511]), Err(1));
    assert_eq!(ALONE.geometry(&made.bytes[..513]), Err(5));
}

/// Of many steps those are listed that there is room for.
#[test]
fn short_rows() {
    let mut made = sound();
    made.put64(AUTOCLEAR, 1);
    let all: Vec<u64> = listed(&made, &write(0, 1)).concat();
    assert_eq!(all.len(), 28);
    for room in 0..=31 {
        let mut rows = vec![9; room];
        let count = ALONE.write_steps(&made.bytes, 0, 1, &mut rows);
        assert_eq!(count, Ok((room / 4).min(7)));
        let filled = 4 * (room / 4).min(7);
        assert!(rows[..filled] == all[..filled] && rows[filled..].iter().all(|&it| it == 9));
    }
}

#[test]
fn first_units() {
    let fill = Step { at: 10, len: 5, units: 5, epoch: 1 };
    assert_eq!(fill.first(3), Step { len: 3, units: 3, ..fill });
    assert_eq!((fill.first(5), fill.first(9)), (fill, fill));
    let entry = Step { at: 10, len: 8, units: 1, epoch: 2 };
    assert_eq!(entry.first(1), entry);
    assert!(fill.first(0).range().is_empty() && entry.first(0).range().is_empty());
}

fn all_met(met: &Met) {
    println!("{met:?}");
    assert!(met.refused > 0 && met.cuts.iter().all(|&cuts| cuts > 0), "{met:?}");
}

#[test]
fn lost_sectors() {
    let mut rng = Rng::from_env("lost sectors", 111);
    all_met(&follow(&Plain, &mut rng, setting("CALLS", 4000), any_usable));
}

#[test]
fn lost_sectors_at_each_width() {
    let mut rng = Rng::from_env("lost sectors at each width", 112);
    for order in 0..=MAX_ORDER {
        let mut met = Met::default();
        while met.calls < setting("CALLS", 7000) / 7 {
            let plan = Plan { version: 3, order, ..Plan::random_with(9, &mut rng) };
            let made = drive::usable_over(plan, &mut rng);
            follow_on(&Plain, &made, &mut rng, &mut met);
        }
        all_met(&met);
    }
}

#[test]
fn both_sides() {
    let mut rng = Rng::from_env("both sides", 113);
    drive::compare_steps(&mut Pair::new(&Plain, &Plain), &mut rng, setting("CALLS", 20_000));
}

/// Without the flush between two epochs the last step may be stored alone, which
/// the plain disk does not allow for a write that allots, nor for a discard.
#[test]
fn a_flush_that_is_left_out() {
    let made = sound();
    let series = Series::start(ALONE, &made.bytes).expect("a sound image");
    let (new, table, marked) = (write(67 * 512, 1), write(0, 1), write(65 * 512, 1));
    for (request, last) in [(new, 2), (table, 5), (marked, 1), (discard(64), 1)] {
        let steps = steps(ALONE, &made.bytes, &request).expect("a list");
        let (call, finished) = match request {
            Request::Write { offset, ref data, .. } => {
                let mut image = made.bytes.clone();
                ALONE.write(&mut image, offset, data, ALL);
                (Call::Write { offset, data }, image)
            }
            _ => {
                let mut image = made.bytes.clone();
                ALONE.discard(&mut image, 64, ALL);
                (Call::Discard { cluster: 64 }, image)
            }
        };
        assert_eq!((steps.len(), steps[last].epoch), (last + 1, 2));
        let mut now = made.bytes.clone();
        bring(&mut now, &finished, &steps[last..], |_| true);
        let fault = series.clone().cut(&made.bytes, call, &now);
        assert!(fault.is_err(), "{request:?}");
    }
}
