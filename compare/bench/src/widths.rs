//! The check and the free search for counts of each width.
//!
//! In an image that is nearly empty the check has next to no references to
//! count, and its time is that of comparing the counts.

use answers::{Outcome, Verdict};
use made::full::{self, Layout, Shape};
use made::image::{Kind, Made};
use made::plan::MAX_ORDER;
use made::rng::Rng;

use crate::bench::Bench;
use crate::check::check;
use crate::free::searches;

pub fn run(bench: &Bench) {
    for cluster_bits in [9, 16] {
        for order in 0..=MAX_ORDER {
            let shape = Shape { order, ..Shape::of(cluster_bits) };
            let (cluster, width) = (1 << cluster_bits, 1 << order);
            let name = format!("order {order} (width {width}), C = {cluster}");
            checks(bench, &format!("check, {name}"), shape);
            frees(bench, &format!("free, {name}"), shape);
        }
    }
}

fn checks(bench: &Bench, name: &str, shape: Shape) {
    let mut made = full::full_of(shape, Kind::Data, Layout::Rising);
    check(bench, &format!("{name}, full: sound"), &made, Verdict::Sound);
    if made.most() > 1 {
        let leaks = raise_half(&mut made);
        let name = format!("{name}, full: half of the counts too high");
        check(bench, &name, &made, Verdict::Leaks(leaks));
    }
    let last = made.clusters() - 1;
    made.set_count(last, 0);
    check(bench, &format!("{name}, full: the last short"), &made, Verdict::Short(last as u64));

    let empty = full::empty_of(shape, 1, Layout::Rising);
    check(bench, &format!("{name}, empty: sound"), &empty, Verdict::Sound);
    for (step, words) in [(2, "half"), (1, "nearly all")] {
        let mut made = empty.clone();
        let leaked: Vec<usize> = made.spare.iter().copied().step_by(step).collect();
        leaked.iter().for_each(|&cluster| made.set_count(cluster, 1));
        let name = format!("{name}, empty: {words} of the counts 1");
        check(bench, &name, &made, Verdict::Leaks(leaked.len() as u64));
    }
}

/// Random counts become greater than 1, half of all; how many.
fn raise_half(made: &mut Made) -> u64 {
    let mut rng = Rng::new(4);
    let mut clusters: Vec<usize> = (0..made.clusters()).collect();
    rng.shuffle(&mut clusters);
    clusters.truncate(clusters.len() / 2);
    for &cluster in &clusters {
        let most = made.most();
        made.set_count(cluster, 2 + rng.below(most - 1));
    }
    clusters.len() as u64
}

fn frees(bench: &Bench, name: &str, shape: Shape) {
    let (mut made, guest) = full::nearly_full(shape, 1);
    searches(bench, &format!("{name}, the last free"), &made, guest, Outcome::Stopped(0));
    if made.most() > 1 {
        for cluster in (0..made.clusters() - 1).step_by(2) {
            made.set_count(cluster, 2);
        }
        let name = format!("{name}, the last free, counts 1 and 2 in turn");
        searches(bench, &name, &made, guest, Outcome::Stopped(0));
    }
    let (made, guest) = full::nearly_full(shape, 0);
    searches(bench, &format!("{name}, none free (14)"), &made, guest, Outcome::Refused(14));
}
