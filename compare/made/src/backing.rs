//! Backing files of made images: the name in the header, and the bytes that are
//! lent.

use answers::{Calls, Over};

use crate::image::Made;
use crate::plan::LONG_BITS;
use crate::rng::Rng;

/// Where the header has the place of the name, 0 for no backing file, and its
/// length.
pub const NAME_AT: usize = 8;
pub const NAME_LENGTH: usize = 16;
pub const MAX_NAME: u32 = 1023;

impl Made {
    /// The implementation, lent this image's backing file.
    pub fn over<'c>(&'c self, calls: &'c dyn Calls) -> Over<'c> {
        Over { calls, backing: &self.backing }
    }

    pub fn is_backed(&self) -> bool {
        self.get64(NAME_AT) != 0
    }

    pub fn set_name(&mut self, at: u64, length: u32) {
        self.put64(NAME_AT, at);
        self.put32(NAME_LENGTH, length);
    }
}

/// At times a backing file, at times bytes that an image without one is lent.
pub fn maybe(mut made: Made, rng: &mut Rng) -> Made {
    match rng.below(8) {
        0..=2 => add(&mut made, rng),
        3..=4 => made.backing = bytes(&made, rng),
        _ => {}
    }
    made
}

/// A backing file with a good name; its bytes are lent.
pub fn add(made: &mut Made, rng: &mut Rng) {
    let (at, length) = good_name(made, rng);
    made.set_name(at, length);
    made.backing = bytes(made, rng);
}

/// A backing file with a bad name, or with none of its bytes lent.
pub fn break_19(made: &mut Made, rng: &mut Rng) {
    let (at, length) = match rng.once_in(4) {
        true => {
            made.backing.clear();
            good_name(made, rng)
        }
        false => bad_name(made, rng),
    };
    made.set_name(at, length);
}

/// Place and length of a name inside the first cluster, at times just so.
fn good_name(made: &Made, rng: &mut Rng) -> (u64, u32) {
    let cluster = made.cluster() as u32;
    let most = MAX_NAME.min(cluster - 1);
    let random = 1 + rng.below(most.into()) as u32;
    let length = rng.pick(&[1, 2, random, random, most - 1, most]);
    let last = u64::from(cluster - length);
    let random = 1 + rng.below(last);
    (rng.pick(&[1, random, random, last.min(104), last]), length)
}

/// One that is too short or too long, or ends past the first cluster; a sum of
/// both may be small again.
fn bad_name(made: &Made, rng: &mut Rng) -> (u64, u32) {
    let cluster = made.cluster() as u64;
    let (at, length) = good_name(made, rng);
    let wraps = u64::from(length).wrapping_neg();
    let lengths = [0, MAX_NAME + 1, MAX_NAME + 2, 1 << 16, 1 << 31, u32::MAX];
    let past = cluster - u64::from(length) + 1;
    let more = 1 + rng.below(wraps - past);
    let places = [past, cluster, cluster + 1, past + more, 1 << 32, 1 << 63, wraps, u64::MAX];
    match rng.once_in(2) {
        true => (at, rng.pick(&lengths)),
        false => (rng.pick(&places), length),
    }
}

/// Bytes to lend: one, a part of a cluster, up to a cluster's end or into one, up
/// to the disk's end or past it.
pub fn bytes(made: &Made, rng: &mut Rng) -> Vec<u8> {
    let cluster = made.cluster();
    let most = match made.cluster_bits < LONG_BITS {
        true => (8 * cluster).max(120 << 10),
        false => 2 * cluster + 5,
    };
    let size = made.size.min(most as u64) as usize;
    let clusters = cluster * rng.index(size / cluster + 2);
    let (part, any) = (rng.index(cluster), rng.index(size + cluster));
    let length = rng.pick(&[
        1,
        part,
        clusters,
        clusters + part,
        clusters + 1,
        size.saturating_sub(1),
        size,
        size + 1,
        size + part,
        size + cluster + part,
        any,
        any,
    ]);
    rng.bytes(length.clamp(1, most))
}
