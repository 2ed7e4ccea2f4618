//! The clearing unit: every list and every refusal with autoclear bits set and
//! without, for one implementation; and damaged images where the bits lie under
//! something else, for two.

use answers::{Calls, Outcome, Over};

use crate::backing;
use crate::damage::l1_on_header;
use crate::drive::with_allowance;
use crate::image::{Kind, Made, AUTOCLEAR, USED};
use crate::pair::Pair;
use crate::plan::bench_image;
use crate::requests::Request;
use crate::rng::Rng;

const ALL: u64 = u64::MAX;
const BITS: [u64; 5] = [1, 1 << 63, 0x0100, 0x8000_0000_0000_0A00, ALL];

fn write(offset: u64, len: usize) -> Request {
    Request::Write { offset, data: vec![0xAB; len], allowance: ALL }
}

fn discard(cluster: u64) -> Request {
    Request::Discard { cluster, allowance: ALL }
}

fn repair(scratch: usize) -> Request {
    Request::Repair { scratch, allowance: ALL }
}

/// The bench image with an L2 table: guest cluster 0 has data, 1 a zero mark
/// and a place, 2 a zero mark (version 2: both have data), 3 nothing.
fn image(version: u32) -> Made {
    let mut made = bench_image();
    made.version = version;
    made.put32(4, version);
    let table = made.add_table(0).expect("a spare cluster");
    let kinds = [Kind::Data, Kind::ZerosWithPlace, Kind::ZerosWithoutPlace];
    for (l2_index, kind) in kinds.into_iter().enumerate() {
        made.add_entry(table, l2_index, kind, &mut Rng::new(1));
    }
    made
}

/// Sound, leaking, with no room, and with bad entries on the ways to guest
/// clusters 4 to 6; then the same over a backing file.
fn variants(version: u32) -> Vec<Made> {
    let sound = image(version);
    let mut leaking = sound.clone();
    leaking.set_count(14, 1);
    leaking.set_count(3, 7);
    let mut full = sound.clone();
    (0..full.clusters()).for_each(|cluster| full.set_count(cluster, full.count(cluster).max(1)));
    let mut bad = sound.clone();
    let table = bad.tables[0].1;
    for (l2_index, entry) in [(4, 2), (5, 1 << 62), (6, USED | 15 << 9)] {
        bad.put64(table + 8 * l2_index, entry);
    }
    let mut variants = vec![sound, leaking, full, bad];
    variants.extend_from_within(..);
    for made in &mut variants[4..] {
        backing::add(made, &mut Rng::new(3));
    }
    variants
}

/// Requests with every kind of list, and refused ones.
fn requests() -> Vec<Request> {
    let mut requests = vec![write(65_535, 1), write(65_530, 7), write(510, 3)];
    requests.extend([0, 7, 519, 1031, 1543].map(|offset| write(offset, 5)));
    requests.extend([0, 65_536, 65_537].map(|offset| write(offset, 0)));
    requests.extend([write(0, 512), write(2048, 1), write(2560, 1), repair(32), repair(31)]);
    requests.extend([0, 1, 2, 3, 4, 5, 6, 127, 128].map(discard));
    requests
}

/// One call on a copy of the image: the answer, the image and the scratch.
pub(crate) fn call(side: Over, image: &[u8], request: &Request) -> (Outcome, Vec<u8>, Vec<u8>) {
    let (mut image, mut scratch) = (image.to_vec(), Vec::new());
    let outcome = match *request {
        Request::Write { offset, ref data, allowance } => {
            side.write(&mut image, offset, data, allowance)
        }
        Request::Discard { cluster, allowance } => side.discard(&mut image, cluster, allowance),
        Request::Extend { old, allowance } => side.calls.extend(&mut image, old, allowance),
        Request::Repair { scratch: len, allowance } => {
            scratch = vec![0x5A; len];
            side.repair(&mut image, &mut scratch, allowance)
        }
        _ => unreachable!("not a storing request"),
    };
    (outcome, image, scratch)
}

/// Every unit figure above 0 is one higher where the bits are set, and each cut
/// leaves what the cut before leaves where they are not; whatever stores nothing
/// leaves them. Returns how often each of the two was so.
pub fn figures(side: &dyn Calls) -> [u64; 2] {
    let mut seen = [0; 2];
    for made in variants(3) {
        for (request, bits) in requests().iter().flat_map(|one| BITS.map(|bits| (one, bits))) {
            let mut set = made.clone();
            set.put64(AUTOCLEAR, bits);
            let side = made.over(side);
            let (outcome, _, scratch) = call(side, &made.bytes, request);
            let with_bits = call(side, &set.bytes, request);
            assert_eq!(with_bits.2, scratch, "{request:?}");
            match outcome {
                Outcome::Finished(units @ 1..) => {
                    assert_eq!(with_bits.0, Outcome::Finished(units + 1), "{request:?}");
                    each_cut(side, [&made.bytes, &set.bytes], request, units);
                    seen[0] += 1;
                }
                _ => {
                    assert_eq!(with_bits.0, outcome, "{request:?}");
                    assert!(with_bits.1 == set.bytes, "{request:?}");
                    seen[1] += 1;
                }
            }
        }
    }
    seen
}

fn each_cut(side: Over, [zero, set]: [&[u8]; 2], request: &Request, units: u64) {
    let (outcome, image, _) = call(side, set, &with_allowance(request, 0));
    assert!(outcome == Outcome::Stopped(0) && image == set, "{request:?}");
    for cut in 0..=units {
        let (outcome, image, scratch) = call(side, set, &with_allowance(request, cut + 1));
        let (shorter, wanted, figures) = call(side, zero, &with_allowance(request, cut));
        let expected = match shorter {
            Outcome::Stopped(cut) => Outcome::Stopped(cut + 1),
            _ => Outcome::Finished(units + 1),
        };
        assert_eq!(outcome, expected, "{request:?} at {cut}");
        assert!(image == wanted && scratch == figures, "{request:?} at {cut}");
    }
}

/// Version 2 has no such field: answers and all other bytes are as with zeros
/// there, and these bytes stay.
pub fn version_2(side: &dyn Calls) {
    for made in variants(2) {
        for (request, bits) in requests().iter().flat_map(|one| BITS.map(|bits| (one, bits))) {
            let mut set = made.clone();
            set.put64(AUTOCLEAR, bits);
            let side = made.over(side);
            for allowance in [0, 1, 2, ALL] {
                let request = with_allowance(request, allowance);
                let (outcome, image, scratch) = call(side, &set.bytes, &request);
                let mut wanted = call(side, &made.bytes, &request);
                wanted.1[AUTOCLEAR..AUTOCLEAR + 8].copy_from_slice(&bits.to_be_bytes());
                assert!((outcome, image, scratch) == wanted, "{request:?}");
            }
        }
    }
}

/// Damaged images where the field lies under what the list stores or goes by,
/// with requests whose way leads there. No block and no table that an entry
/// names can be in cluster 0; but a cluster that is free can, and so can the L1
/// table.
fn overlapping() -> Vec<(Made, Vec<Request>)> {
    let mut cases = Vec::new();
    for bits in [0].into_iter().chain(BITS) {
        // Cluster 0 becomes an L2 table, whose entry 11 lies on the field, or
        // a data cluster.
        let mut free = image(3);
        free.set_count(0, 0);
        free.put64(AUTOCLEAR, bits);
        let offsets = [74, 75, 76, 3].map(|cluster| write(cluster * 512 + 80, 20));
        cases.push((free, offsets.to_vec()));
    }
    for (free, table) in [(false, true), (true, true), (false, false), (true, false)] {
        // The field is L1 entry 11, for the table of guest clusters 0 to 3.
        let mut made = image(3);
        l1_on_header(&mut made, &mut Rng::new(2));
        made.put64(AUTOCLEAR, if table { USED | made.tables[0].1 as u64 } else { 0 });
        if free {
            made.set_count(0, 0);
        }
        let first = 11 * made.per_table() as u64;
        let mut requests = vec![write(first * 512, 0)];
        for cluster in first..first + 4 {
            requests.extend([write(cluster * 512 + 80, 20), discard(cluster)]);
        }
        cases.push((made, requests));
    }
    cases
}

/// Feeds both sides the overlapping images, cut at every unit, and looks at
/// what is left by each further call.
pub fn compare_overlapping(pair: &mut Pair) {
    for (made, requests) in overlapping() {
        for request in requests {
            pair.load(&made);
            let whole = pair.run(&request);
            let Some(Outcome::Finished(units)) = whole else {
                panic!("{whole:?}: {request:?}");
            };
            for cut in 0..=units + 1 {
                pair.load(&made);
                pair.run(&with_allowance(&request, cut));
                pair.run(&request);
            }
        }
    }
}
