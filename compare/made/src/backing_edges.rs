//! Names of backing files at the very edges of their rules, with the number that a
//! call refuses the image with where a byte of the backing file is lent, 0 where it
//! is accepted.

use crate::backing::{MAX_NAME, NAME_AT};
use crate::image::Made;
use crate::plan::{Plan, ORDER_16, SECTOR};
use crate::rng::Rng;

pub fn each(mut visit: impl FnMut(&Made, u32)) {
    for (version, cluster_bits) in [(2, 9), (3, 9), (2, 10), (3, 10), (3, 11), (3, 17)] {
        let mut made = image(version, cluster_bits);
        for (at, length, number) in names(1 << cluster_bits) {
            made.set_name(at, length);
            visit(&made, number);
        }
        others(&made, &mut visit);
    }
}

fn image(version: u32, cluster_bits: u32) -> Made {
    let plan = Plan {
        version,
        cluster_bits,
        order: ORDER_16,
        size: SECTOR,
        l1_size: 1,
        spare: 1,
        longer_table: 0,
        autoclear: 0,
    };
    Made { backing: vec![7], ..plan.build_in_order(&mut Rng::new(74)) }
}

/// Place, length and number.
fn names(cluster: u64) -> Vec<(u64, u32, u32)> {
    let longest = (MAX_NAME as u64).min(cluster - 1) as u32;
    let last = cluster - u64::from(longest);
    let mut names = vec![
        (1, 1, 0),
        (104, 0, 19),
        (104, 1, 0),
        (8, 12, 0),
        (1, longest, 0),
        (1, longest + 1, 19),
        (last, longest, 0),
        (last + 1, longest, 19),
        (last + 1, longest - 1, 0),
        (cluster - 1, 1, 0),
        (cluster - 1, 2, 19),
        (cluster, 0, 19),
        (cluster, 1, 19),
        (cluster + 1, 1, 19),
        (u64::MAX, 0, 19),
    ];
    names.extend([MAX_NAME + 1, 1 << 16, 1 << 31, u32::MAX].map(|length| (1, length, 19)));
    // Sums that wrap to something small.
    for length in [1, 2, 104, longest, u32::MAX] {
        let wraps = u64::from(length).wrapping_neg();
        names.extend([wraps, wraps | 1, u64::MAX].map(|at| (at, length, 19)));
    }
    // No backing file: the length is not looked at.
    names.extend([0, 1, MAX_NAME + 1, u32::MAX].map(|length| (0, length, 0)));
    names.extend((0..64).map(|bit| {
        let inside = (1 << bit) < cluster;
        (1 << bit, 1, if inside { 0 } else { 19 })
    }));
    names
}

/// No byte lent; and which of two numbers comes first.
fn others(made: &Made, visit: &mut impl FnMut(&Made, u32)) {
    let good = |made: &Made| changed(made, |made| made.set_name(104, 1));
    let bad = |made: &Made| changed(made, |made| made.set_name(104, 0));
    let none = |made: Made| Made { backing: Vec::new(), ..made };
    let alone = changed(made, |made| made.put64(NAME_AT, 0));
    visit(&none(good(made)), 19);
    visit(&none(bad(made)), 19);
    visit(&none(alone.clone()), 0);
    let snapshot = |made: &Made| {
        changed(made, |made| {
            made.put32(60, 1);
            made.put64(64, 1);
        })
    };
    visit(&snapshot(&alone), 21);
    visit(&snapshot(&good(made)), 21);
    visit(&snapshot(&bad(made)), 19);
    visit(&none(snapshot(&good(made))), 19);
    for (at, number) in [(made.table_at + 7, 10), (55, 9), (31, 18), (35, 6), (0, 2)] {
        let broken = |made: Made| changed(&made, |made| made.bytes[at] ^= 1);
        visit(&broken(bad(made)), number);
        visit(&none(broken(good(made))), number);
    }
}

fn changed(made: &Made, change: impl Fn(&mut Made)) -> Made {
    let mut made = made.clone();
    change(&mut made);
    made
}
