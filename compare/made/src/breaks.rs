//! Headers broken at each of their numbers.

use crate::backing::break_19;
use crate::image::Made;
use crate::plan::{Plan, SECTOR};
use crate::rng::Rng;
use crate::snapshots::{FIXED, MAX_SNAPSHOTS};

/// The header's numbers in the order in which they are tried.
pub const ORDER: [u32; 13] = [1, 2, 3, 4, 5, 6, 7, 8, 18, 9, 10, 19, 21];

/// Breaks the image so that `number` applies; false where this image has no
/// way to do it. Numbers tried before it are left alone.
pub fn break_header(made: &mut Made, number: u32, rng: &mut Rng) -> bool {
    let cluster = made.cluster();
    match number {
        1 => made.bytes.truncate(rng.index(512)),
        2 => made.bytes[rng.index(4)] ^= 1 << rng.below(8),
        3 => {
            let version = rng.pick(&[0, 1, 4, 0x0200_0000, 0x0001_0003, u32::MAX]);
            made.put32(4, version);
        }
        4 => {
            let bits = rng.pick(&[0, 8, 22, 32, 0x0900_0000, 265, u32::MAX]);
            made.put32(20, bits);
        }
        5 => {
            let more = 1 + rng.index(cluster - 1);
            let length = made.bytes.len() + more;
            made.bytes.resize(length, 0);
        }
        6 => break_6(made, rng),
        7 if made.version == 2 => return false,
        7 => made.put64(72, 1 << rng.below(64)),
        8 => return break_8(made, rng),
        18 => return break_18(made, rng),
        9 => return break_9(made, rng),
        10 => return break_10(made, rng),
        19 => break_19(made, rng),
        21 => break_21(made, rng),
        _ => unreachable!("a number of the header"),
    }
    true
}

fn break_6(made: &mut Made, rng: &mut Rng) {
    match rng.below(if made.version == 3 { 4 } else { 2 }) {
        0 => made.put32(32, 1 << rng.below(32)),
        1 => {
            let count = rng.pick(&[65, 66, 1 << 8, 1 << 16, 1 << 31, u32::MAX]);
            made.put32(60, count);
        }
        2 => {
            let order = rng.pick(&[7, 8, 16, 32, 0x0400_0000, 1 << 31, u32::MAX]);
            made.put32(96, order);
        }
        _ => {
            let length = rng.pick(&[0, 72, 103, 105, 112, 0x6800_0000]);
            made.put32(100, length);
        }
    }
}

fn break_8(made: &mut Made, rng: &mut Rng) -> bool {
    let reach = (made.l1_size as u64) << (2 * made.cluster_bits - 3);
    match rng.below(3) {
        0 => {
            let size = rng.pick(&[(1 << 40) + 1, 1 << 41, 1 << 63, u64::MAX]);
            made.put64(24, size);
        }
        1 => {
            let l1_size = rng.pick(&[65_537, 1 << 17, 1 << 25, 1 << 31, u32::MAX]);
            made.put32(36, l1_size);
        }
        _ => {
            let more = 1 + rng.below(1 << 20);
            made.put64(24, reach + rng.pick(&[more, SECTOR * more]));
        }
    }
    true
}

/// A part of a sector after any whole ones, still in the L1 table's reach.
fn break_18(made: &mut Made, rng: &mut Rng) -> bool {
    let reach = Plan::reach(made.cluster_bits, made.l1_size);
    if reach == 0 {
        return false;
    }
    let random = SECTOR * rng.below(reach / SECTOR);
    let last = reach - SECTOR;
    let whole = rng.pick(&[0, made.size.min(last), last, random]);
    let part = 1 + rng.below(SECTOR - 1);
    made.put64(24, whole + rng.pick(&[1, SECTOR / 2, SECTOR - 1, part]));
    true
}

fn break_9(made: &mut Made, rng: &mut Rng) -> bool {
    let (n, cluster) = (made.bytes.len() as u64, made.cluster() as u64);
    let odd = 1 << rng.below(u64::from(made.cluster_bits));
    let far = cluster.wrapping_neg();
    // Offsets where a table that is not empty runs past the image's end.
    let past = rng.pick(&[n, n + cluster, 1 << 32, 1 << 63, far]);
    match rng.below(5) {
        0 => made.put64(40, made.l1_at as u64 ^ odd),
        1 if made.l1_size == 0 => return false,
        1 => made.put64(40, past),
        2 => made.put64(48, made.table_at as u64 ^ odd),
        3 => made.put64(48, past),
        _ => {
            let clusters = rng.pick(&[0, (n / cluster) as u32 + 1, 1 << 31, u32::MAX]);
            made.put32(56, clusters);
        }
    }
    true
}

fn break_10(made: &mut Made, rng: &mut Rng) -> bool {
    let (n, cluster) = (made.bytes.len() as u64, made.cluster() as u64);
    let used = made.blocks.len();
    let entries = made.table_clusters * made.cluster() / 8;
    if used < entries && rng.once_in(3) {
        let random = used + rng.index(entries - used);
        let later = rng.pick(&[used, entries - 1, random]);
        let value = rng.pick(&[1, cluster, 1 << 63, n]);
        made.put64(made.table_at + 8 * later, value);
        return true;
    }
    let random = rng.index(used);
    let index = rng.pick(&[0, used - 1, random]);
    let place = made.blocks[index] as u64;
    let odd = 1 << rng.below(u64::from(made.cluster_bits));
    let high = 1 << (40 + rng.below(24));
    let value = rng.pick(&[0, place ^ odd, place | high, n, n + cluster, cluster.wrapping_neg()]);
    made.put64(made.table_at + 8 * index, value);
    true
}

/// The snapshot table misplaced or past the end, or one of its entries broken.
fn break_21(made: &mut Made, rng: &mut Rng) {
    let (n, cluster) = (made.bytes.len() as u64, made.cluster() as u64);
    let odd = 1 << rng.below(u64::from(made.cluster_bits));
    let past = rng.pick(&[n, n + cluster, 1 << 32, 1 << 63, cluster.wrapping_neg()]);
    if made.snapshots.is_empty() || rng.once_in(3) {
        let count = made.snapshots.len().max(1 + rng.index(MAX_SNAPSHOTS));
        made.put32(60, count as u32);
        made.put64(64, rng.pick(&[made.snapshots_at as u64 ^ odd, past]));
        return;
    }
    let k = rng.index(made.snapshots.len());
    let (at, l1_at, l1_size) =
        (made.snapshots[k].entry, made.snapshots[k].l1_at, made.snapshots[k].l1_size);
    match rng.below(4) {
        0 => {
            // Just past the end, or far past it.
            let least = n as u32 - at as u32 - FIXED as u32 + 1;
            made.put32(at + 36, rng.pick(&[least, 1 << 31, u32::MAX]));
        }
        1 => made.put32(at + 8, rng.pick(&[65_537, 1 << 17, 1 << 31, u32::MAX])),
        2 => made.put64(at, l1_at as u64 ^ odd),
        _ if l1_size == 0 => made.put64(at, n + cluster),
        _ => made.put64(at, past),
    }
}
