//! Images that all have a backing file: random ones, and each kind of entry over
//! each kind of end of the backing file.

use answers::Outcome;

use crate::backing::{add, break_19};
use crate::damage;
use crate::drive::{self, cuts, with_allowance};
use crate::image::{Kind, Made, USED};
use crate::pair::Pair;
use crate::plan::{Plan, LONG_BITS, MAX_ORDER, SECTOR};
use crate::requests::Request;
use crate::rng::Rng;
use crate::snapshot_drive;

const ALL: u64 = u64::MAX;

/// What random runs have to meet.
pub const WANTED: [&str; 24] = [
    "geometry Ok",
    "geometry Refused(19)",
    "backing_name Ok",
    "backing_name Refused(19)",
    "translate Absent",
    "translate Refused(19)",
    "read Ok",
    "read Refused(19)",
    "read_snapshot Ok",
    "lookup Some",
    "runs Ok",
    "write Finished",
    "write Stopped",
    "write Refused(19)",
    "write Refused(22)",
    "discard Finished",
    "discard Stopped",
    "discard Refused(16)",
    "discard Refused(20)",
    "discard Refused(22)",
    "discard_steps Refused(20)",
    "repair Finished",
    "check Sound",
    "check Refused(19)",
];

/// Sound or leaking, every third with snapshots.
pub fn usable(rng: &mut Rng) -> Made {
    let mut made = match rng.once_in(3) {
        true => snapshot_drive::usable(rng),
        false => {
            let bits = 9 + rng.below(u64::from(LONG_BITS - 9)) as u32;
            let plan = Plan::random_with(rng.pick(&[9, 9, 9, 10, 11, bits]), rng);
            drive::usable_of(plan, rng)
        }
    };
    add(&mut made, rng);
    made
}

/// Usable, damaged or refused for its backing file.
pub fn any(rng: &mut Rng) -> Made {
    let mut made = usable(rng);
    match rng.below(12) {
        0..=6 => {}
        7 => break_19(&mut made, rng),
        _ => {
            for _ in 0..1 + rng.below(3) {
                rng.pick(&damage::ALL)(&mut made, rng);
            }
        }
    }
    made
}

/// Entries of an L2 table by what they have: data, zeros with and without a place,
/// data with bit 63 clear, and nothing.
const KINDS: usize = 5;

/// An image over a backing file, with an L2 table below L1 entry 1 that starts with
/// an entry of each kind; the disk ends one sector into the last of them.
fn image(version: u32, cluster_bits: u32, order: u32) -> Made {
    let first = 1u64 << (cluster_bits - 3);
    let plan = Plan {
        version,
        cluster_bits,
        order,
        size: ((first + KINDS as u64 - 1) << cluster_bits) + SECTOR,
        l1_size: 2,
        spare: 12,
        longer_table: 0,
        autoclear: 0,
    };
    let rng = &mut Rng::new(75);
    let mut made = plan.build_in_order(rng);
    let table = made.add_table(1).expect("room");
    let kinds = [Kind::Data, Kind::ZerosWithPlace, Kind::ZerosWithoutPlace, Kind::Data];
    for (index, kind) in kinds.into_iter().enumerate() {
        assert!(made.add_entry(table, index, kind, rng));
    }
    made.put64(table + 24, made.get64(table + 24) & !USED);
    made.set_name(104, 20);
    made
}

/// Feeds both sides every kind of entry, and no L2 table, over every kind of end of
/// the backing file, with each width and both versions; how many lists there were.
pub fn compare_lists(pair: &mut Pair, rng: &mut Rng) -> u64 {
    let mut lists = 0;
    let shapes = (0..=MAX_ORDER).map(|order| (3, order)).chain([(2, 4)]);
    for ((version, order), cluster_bits) in shapes.flat_map(|shape| [(shape, 9), (shape, 10)]) {
        let mut made = image(version, cluster_bits, order);
        let first = made.per_table();
        for cluster in (first..first + KINDS).chain([3]) {
            for end in [0, 1, 103, 512, 600, 70_000] {
                made.backing = rng.bytes(cluster * made.cluster() + end);
                lists += compare_list(pair, &made, cluster as u64, rng);
            }
        }
        // Data whose count is 0: a discard is 16, or 20 in version 2.
        let data = made.get64(made.tables[0].1) & !USED;
        made.set_count(data as usize >> cluster_bits, 0);
        lists += compare_list(pair, &made, first as u64, rng);
    }
    lists
}

/// Writes and a discard of one guest cluster, each list cut at many units.
fn compare_list(pair: &mut Pair, made: &Made, cluster: u64, rng: &mut Rng) -> u64 {
    let start = cluster << made.cluster_bits;
    let len = (made.size - start).min(600) as usize;
    let look = Request::Read { offset: start - 10, len: len + 10 };
    let write = |(at, len): (u64, usize)| Request::Write {
        offset: start + at,
        data: vec![0xAB; len],
        allowance: ALL,
    };
    let writes = [(0, 1), (100, 7), (511, 1), (0, 512)].map(write);
    let mut lists = 0;
    for request in writes.into_iter().chain([Request::Discard { cluster, allowance: ALL }]) {
        pair.load(made);
        pair.run(&look);
        let Some(Outcome::Finished(units)) = pair.run(&request) else {
            continue;
        };
        for cut in cuts(units, made.cluster() as u64, rng) {
            pair.load(made);
            pair.run(&with_allowance(&request, cut));
            pair.run(&look);
        }
        lists += 1;
    }
    lists
}
