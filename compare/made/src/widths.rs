//! Counts of each width, for two implementations: several counts of a list in
//! one byte, bytes that the list itself changes before it stores a count there,
//! and counts up to the greatest.

use answers::{Calls, Outcome, STEP};
use plain::plain_disk::{Call, Series};

use crate::damage;
use crate::drive::{any_image_of, compare_cuts_on, compare_on, cuts, with_allowance};
use crate::image::{Made, USED};
use crate::pair::Pair;
use crate::plan::{per_block, Plan, MAX_ORDER};
use crate::requests::Request;
use crate::rng::Rng;

const ALL: u64 = u64::MAX;

/// Clusters of 512 bytes, and a disk of 128.
fn plan(order: u32, spare: usize) -> Plan {
    Plan {
        version: 3,
        cluster_bits: 9,
        order,
        size: 65_536,
        l1_size: 2,
        spare,
        longer_table: 0,
        autoclear: 0,
    }
}

/// 64 clusters, the block in cluster 3, all but 0 to 3 free.
pub fn image(order: u32) -> Made {
    let plan = plan(order, 60);
    let made = plan.build_in_order(&mut Rng::new(1));
    assert_eq!((made.clusters(), &made.blocks[..]), (64, &[3 << 9][..]));
    made
}

fn write(cluster: u64) -> Request {
    Request::Write { offset: 512 * cluster + 80, data: vec![0xAB; 20], allowance: ALL }
}

fn discard(cluster: u64) -> Request {
    Request::Discard { cluster, allowance: ALL }
}

fn repair() -> Request {
    Request::Repair { scratch: 128, allowance: ALL }
}

/// A count: small, near 2^16 and 2^32, the greatest, or any.
fn some_count(made: &Made, rng: &mut Rng) -> u64 {
    let any = rng.number() >> rng.below(64);
    let near = (1 << rng.pick(&[8, 16, 32])) + rng.below(3) - 1;
    rng.pick(&[1, 1, 2, near, any, made.most() - 1, made.most()]).clamp(1, made.most())
}

/// Images with all counts above 0 but two, so that these two are taken, in one
/// byte or in two; and requests for them.
fn two_free(order: u32, rng: &mut Rng) -> Vec<(Made, Vec<Request>)> {
    let mut cases = Vec::new();
    for (lower, upper) in [(4, 5), (6, 7), (7, 8), (5, 7), (4, 63), (61, 62), (62, 63)] {
        let mut made = image(order);
        for cluster in 0..64 {
            let count = some_count(&made, rng);
            made.set_count(cluster, if cluster == lower || cluster == upper { 0 } else { count });
        }
        cases.push((made, vec![write(0), write(65), repair()]));
    }
    cases
}

/// Damaged images where structures are free, and are filled before a count is
/// stored; the block among them.
fn free_structures(order: u32, rng: &mut Rng) -> Vec<(Made, Vec<Request>)> {
    let mut cases = Vec::new();
    for free in 0..4 {
        let mut made = image(order);
        (4..64).for_each(|cluster| made.set_count(cluster, some_count(&made, rng)));
        for cluster in [free, 4 + rng.index(4)] {
            made.set_count(cluster, 0);
        }
        cases.push((made, [0, 1, 9, 63, 64].map(write).to_vec()));
    }
    cases
}

/// The block serves as L2 table: a discard first clears an entry that lies on
/// the counts.
fn entries_on_counts(order: u32) -> Vec<(Made, Vec<Request>)> {
    let mut cases = Vec::new();
    for l2_index in 0..8 {
        for cluster in 1..64 {
            let mut made = image(order);
            made.put64(made.l1_at, USED | made.blocks[0] as u64);
            made.put64(made.blocks[0] + 8 * l2_index, USED | (cluster as u64) << 9);
            let on_entry = made.count_at(cluster).start / 8 == made.blocks[0] / 8 + l2_index;
            if on_entry && made.count(cluster) != 0 {
                cases.push((made, vec![discard(l2_index as u64)]));
            }
        }
    }
    cases
}

/// The images of each width.
fn all_cases(rng: &mut Rng) -> Vec<(Made, Vec<Request>)> {
    let mut cases = Vec::new();
    for order in 0..=MAX_ORDER {
        cases.extend(two_free(order, rng));
        cases.extend(free_structures(order, rng));
        cases.extend(entries_on_counts(order));
    }
    cases
}

/// Feeds both sides the images, each list cut at many units and the request
/// made once more; how many lists there were.
pub fn compare_lists(pair: &mut Pair, rng: &mut Rng) -> u64 {
    let mut lists = 0;
    for (made, requests) in all_cases(rng) {
        requests.iter().for_each(|request| lists += compare_list(pair, &made, request, rng));
    }
    lists
}

/// Feeds both sides the images, and asks for the steps of each list.
pub fn compare_steps(pair: &mut Pair, rng: &mut Rng) {
    for (made, requests) in all_cases(rng) {
        pair.load(&made);
        for request in &requests {
            let all = STEP * (made.clusters() + 1);
            [all, 31, 27, 9].into_iter().for_each(|room| _ = pair.run(&request.steps(room)));
        }
    }
}

fn compare_list(pair: &mut Pair, made: &Made, request: &Request, rng: &mut Rng) -> u64 {
    let check = Request::Check { scratch: made.scratch() };
    pair.load(made);
    pair.run(&check);
    let Some(Outcome::Finished(units)) = pair.run(request) else {
        return 0;
    };
    for cut in cuts(units, 512, rng) {
        pair.load(made);
        pair.run(&with_allowance(request, cut));
        pair.run(&check);
        pair.run(request);
    }
    1
}

/// Every cut of a write that takes two clusters and of a discard, followed by
/// the plain disk; then the request once more, and a repair.
pub fn series_at_every_unit(side: &dyn Calls) {
    for order in 0..=MAX_ORDER {
        let mut made = image(order);
        // Counts beside the free ones in their bytes.
        [6, 7, 9].into_iter().for_each(|cluster| made.set_count(cluster, made.most()));
        for units in 0..=1030 {
            let mut image = made.bytes.clone();
            let mut series = Series::start(made.over(side), &image).expect("a leaking image");
            let mut step = |call, allowance| {
                let answer = series.step(&mut image, call, allowance);
                answer.unwrap_or_else(|fault| panic!("order {order} at {units}: {fault}"))
            };
            let write = Call::Write { offset: 33_285, data: b"hello" };
            let repair = Call::Repair { scratch: 128 };
            step(write, units);
            step(repair, units % 4);
            step(write, ALL);
            step(Call::Discard { cluster: 65 }, units % 3);
            step(repair, ALL);
        }
    }
}

/// Images whose clusters just fill their blocks, or are a few more or fewer,
/// with most counts above 0.
pub fn compare_block_ends(pair: &mut Pair, rng: &mut Rng) {
    for order in 0..=MAX_ORDER {
        for (blocks, more) in [(1, -9), (1, -1), (1, 0), (1, 2), (2, -3), (2, 5)] {
            let clusters =
                (blocks * per_block(9, order)).checked_add_signed(more).expect("clusters");
            let blocks = clusters.div_ceil(per_block(9, order));
            let mut made = plan(order, clusters - 3 - blocks).build(rng);
            assert_eq!((made.clusters(), made.blocks.len()), (clusters, blocks));
            made.populate(rng);
            damage::fill_up(&mut made, rng);
            damage::leak(&mut made, rng);
            compare_on(pair, &made, rng);
        }
    }
}

/// Random images of one width, with requests and cuts.
pub fn compare_random(pair: &mut Pair, order: u32, rng: &mut Rng, calls: u64) {
    let stop = pair.calls + calls;
    while pair.calls < stop {
        let plan = Plan { version: 3, order, ..Plan::random(rng) };
        let made = any_image_of(plan, rng);
        compare_on(pair, &made, rng);
        if rng.once_in(4) {
            compare_cuts_on(pair, &made, rng);
        }
    }
}
