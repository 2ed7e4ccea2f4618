//! The core needs little stack: its copy goes by way of an array that the
//! compiler must take away, so each call is made where such an array would
//! not fit. A call that needs it ends this test by a signal.

use std::thread;

use answers::{CheckBytes, Outcome, Portion, Verdict};
use made::full::{self, Layout, Shape};
use made::hostile;
use made::image::{Kind, Made};
use made::longer;
use qcow2_core::Core;

const STACK: usize = 64 << 10;
/// What a portion of a check keeps on its stack, which goes beside half of that.
const WINDOW: usize = 64 << 10;
const ALL: u64 = u64::MAX;

fn on_little_stack(work: impl FnOnce() + Send + 'static) {
    on_stack(STACK, work);
}

fn on_stack(size: usize, work: impl FnOnce() + Send + 'static) {
    thread::Builder::new().stack_size(size).spawn(work).expect("a thread").join().expect("its end");
}

#[test]
fn each_call_needs_little_stack() {
    for bits in [9, 16, 21] {
        let (made, guest) = full::last_two_free(Shape::of(bits));
        on_little_stack(move || each_call(made, guest));
        let made = over_a_backing_file(bits, 8);
        on_little_stack(move || each_call(made, 7));
    }
}

/// An empty image of so many guest clusters.
fn over_a_backing_file(bits: u32, guest: usize) -> Made {
    let mut made = full::empty(bits, guest);
    made.set_name(104, 1);
    made.backing = vec![5; made.size as usize];
    made
}

/// A guest cluster without an L2 table is written, read and discarded.
fn each_call(made: Made, guest: u64) {
    let (mut image, cluster) = (made.bytes.clone(), made.cluster());
    let (side, offset) = (made.over(&Core), guest << made.cluster_bits);
    let (mut scratch, mut out) =
        (vec![0; made.scratch()], vec![0; made.size.min(5 << 20) as usize]);
    let data = vec![7; cluster - 1];
    let mut rows = vec![0; 4 * (made.clusters() + 1)];
    assert_eq!(side.write_steps(&image, offset, 1, &mut rows), Ok(6));
    assert_eq!(side.repair_steps(&image, &mut scratch, &mut rows), Ok(0));
    let written = side.write(&mut image, offset, &data, ALL);
    assert_eq!(written, Outcome::Finished(2 * cluster as u64 + 4));
    let again = side.write(&mut image, offset, &data, ALL);
    assert_eq!(again, Outcome::Finished(cluster as u64 - 1));
    assert_eq!(side.read(&image, 0, &mut out), Ok(()));
    assert_eq!(side.read(&image, offset, &mut out[..cluster]), Ok(()));
    assert!(out[..cluster - 1] == data);
    assert_eq!(out[cluster - 1], made.backing.last().copied().unwrap_or(0));
    assert_eq!(side.discard_steps(&image, guest, &mut rows), Ok(2));
    assert_eq!(side.discard(&mut image, guest, ALL), Outcome::Finished(2));
    side.repair(&mut image, &mut scratch, ALL);
    side.check(&image, &mut scratch);
}

#[test]
fn many_blocks() {
    for (bits, order, length) in [(9, 0, 24 << 20), (9, 6, 6 << 20), (16, 6, 513 << 20)] {
        let earlier = longer::empty(bits, order, length);
        let mut longer = longer::with_zeros(earlier, length);
        let (old, new) = (longer.old as u64, longer.new_blocks().len());
        assert!(new > 0);
        on_little_stack(move || {
            let outcome = qcow2_core::extend(&mut longer.made.bytes, old, ALL);
            assert_eq!(outcome, Outcome::Finished(((new << bits) + new) as u64));
        });
    }
}

/// One that is not the last, and the last, which looks for shared clusters.
#[test]
fn portions() {
    for (made, verdict) in [
        (full::full(9), Verdict::Sound),
        (full::full(21), Verdict::Sound),
        (full::with_snapshots(9, 8, Layout::Scattered), Verdict::Sound),
        (full::with_snapshots(16, 64, Layout::Rising), Verdict::Sound),
        (hostile::one_table(9, 100, 64), Verdict::Shared(2)),
    ] {
        on_stack(WINDOW + STACK / 2, move || {
            let (mut state, mut scratch) = (CheckBytes::NEW, vec![0; made.scratch()]);
            let mut next =
                |may| qcow2_core::check_portion(&made.bytes, &[], &mut state, &mut scratch, may);
            assert_eq!(next(0), Portion::More);
            next(1);
            assert_eq!(next(ALL), Portion::Told(verdict));
        });
    }
}

#[test]
fn a_long_read_of_one_cluster_after_another() {
    let made = full::full_of(Shape::of(16), Kind::Data, Layout::Scattered);
    on_little_stack(move || {
        let mut out = vec![0; 32 << 20];
        assert_eq!(made.over(&Core).read(&made.bytes, 1, &mut out), Ok(()));
    });
}

#[test]
fn a_long_read_of_a_backing_file() {
    let made = over_a_backing_file(16, 1024);
    on_little_stack(move || {
        let mut out = vec![0; 32 << 20];
        assert_eq!(made.over(&Core).read(&made.bytes, 1, &mut out), Ok(()));
        assert!(out == made.backing[..out.len()]);
    });
}
