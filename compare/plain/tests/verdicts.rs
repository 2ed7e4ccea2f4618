//! Verdicts of images with one known damage, and the scratch they leave.
#![forbid(unsafe_code)]

use made::damage::bad_entry;
use made::drive::{sound, without_snapshots};
use made::image::{Made, AUTOCLEAR, USED};
use made::plan::{bench_image, Plan};
use made::rng::Rng;
use plain::{difference, Found, Outcome, Over, Plain, Verdict, ALONE};

const IMAGES: usize = 600;

fn verdict(made: &Made) -> Verdict {
    made.over(&Plain).check(&made.bytes, &mut vec![7; made.scratch()])
}

/// A cluster's references in the scratch.
fn figure(scratch: &[u8], cluster: usize) -> u16 {
    u16::from_be_bytes([scratch[2 * cluster], scratch[2 * cluster + 1]])
}

#[test]
fn made_images_are_sound() {
    let mut rng = Rng::from_env("sound", 11);
    let mut partial = 0;
    for _ in 0..IMAGES {
        let made = sound(&mut rng);
        partial += usize::from(!made.size.is_multiple_of(made.cluster() as u64));
        let mut scratch = vec![7; made.scratch() + 3];
        assert_eq!(made.over(&Plain).check(&made.bytes, &mut scratch), Verdict::Sound);
        for cluster in 0..made.clusters() {
            assert_eq!(u64::from(figure(&scratch, cluster)), made.count(cluster));
        }
        assert_eq!(scratch[made.scratch()..], [7; 3]);
    }
    assert!(partial > IMAGES / 6, "{partial} disks end inside a cluster");
}

/// Raises some counts as far as the width lets them; of which clusters.
fn raise(made: &mut Made, rng: &mut Rng) -> Vec<usize> {
    let mut raised: Vec<usize> = (0..6).map(|_| rng.index(made.clusters())).collect();
    raised.sort_unstable();
    raised.dedup();
    raised.retain(|&cluster| made.count(cluster) < made.most());
    for &cluster in &raised {
        let (count, most) = (made.count(cluster), made.most());
        let some = rng.below((most - count).min(60_000));
        made.set_count(cluster, rng.pick(&[count + 1 + some, count + 1, most]));
    }
    raised
}

#[test]
fn leaks() {
    let mut rng = Rng::from_env("leaks", 12);
    for _ in 0..IMAGES {
        let mut made = sound(&mut rng);
        let backing = made.backing.clone();
        let side = Over { calls: &Plain, backing: &backing };
        let mut before = made.clone();
        if made.clearing() == 1 {
            before.put64(AUTOCLEAR, 0);
        }
        let before = before.bytes;
        let raised = raise(&mut made, &mut rng);
        if raised.is_empty() {
            continue;
        }
        let leaks = raised.len() as u64;
        assert_eq!(verdict(&made), Verdict::Leaks(leaks));
        // Cut, the counts of the lowest clusters are set.
        let units = made.clearing() + leaks;
        let mut cut = made.clone();
        let scratch = &mut vec![7; made.scratch()];
        assert_eq!(side.repair(&mut cut.bytes, scratch, units - 1), Outcome::Stopped(units - 1));
        let last = raised[raised.len() - 1];
        assert_eq!(cut.count(last), made.count(last));
        assert_eq!(side.repair(&mut cut.bytes, scratch, 1), Outcome::Finished(1));
        assert_eq!(side.repair(&mut made.bytes, scratch, u64::MAX), Outcome::Finished(units));
        for image in [&cut.bytes, &made.bytes] {
            assert!(*image == before);
        }
    }
}

#[test]
fn bad_entries() {
    let mut rng = Rng::from_env("bad entries", 13);
    for _ in 0..IMAGES {
        let mut made = sound(&mut rng);
        if made.tables.is_empty() {
            continue;
        }
        let (l1_index, table) = rng.pick(&made.tables);
        let l2_index = rng.index(made.per_table());
        let entry = bad_entry(&made, &mut rng, true);
        made.put64(table + 8 * l2_index, entry);
        let (l1, l2) = (l1_index as u64, l2_index as u64);
        assert_eq!(verdict(&made), Verdict::BadL2(l1, l2), "{entry:x}");
        let offset = (l1 * made.per_table() as u64 + l2) << made.cluster_bits;
        let number = if entry >> 62 & 1 == 1 { 13 } else { 12 };
        let number = if offset < made.size { number } else { 11 };
        assert_eq!(
            made.over(&Plain).translate(&made.bytes, offset),
            Found::Refused(number),
            "{entry:x}"
        );

        let entry = bad_entry(&made, &mut rng, false);
        made.put64(made.l1_entry(l1_index), entry);
        assert_eq!(verdict(&made), Verdict::BadL1(l1), "{entry:x}");
        let number = if offset < made.size { 12 } else { 11 };
        assert_eq!(
            made.over(&Plain).translate(&made.bytes, offset),
            Found::Refused(number),
            "{entry:x}"
        );
        let scratch = &mut vec![7; made.scratch()];
        let image = &mut made.bytes.clone();
        assert_eq!(made.over(&Plain).repair(image, scratch, 0), Outcome::Refused(17));
    }
}

#[test]
fn shared_and_short() {
    let mut rng = Rng::from_env("shared and short", 14);
    for _ in 0..IMAGES {
        let plan = Plan::random(&mut rng);
        let mut made = without_snapshots(plan, &mut rng);
        let used: Vec<usize> = (0..made.clusters()).filter(|&k| made.count(k) != 0).collect();
        let mut gone = made.clone();
        let short = rng.pick(&used);
        gone.set_count(short, 0);
        assert_eq!(verdict(&gone), Verdict::Short(short as u64));
        if made.tables.is_empty() {
            continue;
        }
        let (_, table) = rng.pick(&made.tables);
        let at = table + 8 * rng.index(made.per_table());
        let shared = rng.pick(&used[1..]);
        if made.get64(at) != 0 {
            continue;
        }
        made.put64(at, USED | (shared << made.cluster_bits) as u64);
        assert_eq!(verdict(&made), Verdict::Shared(shared as u64));
        // A shared cluster comes before a short one, whatever their order.
        made.set_count(short, 0);
        let scratch = &mut vec![7; made.scratch()];
        assert_eq!(ALONE.check(&made.bytes, scratch), Verdict::Shared(shared as u64));
        assert_eq!(figure(scratch, shared), 2);
    }
}

/// Bad entries count for nothing and the counting goes on past them; an L2 table
/// counts for each L1 entry that names it.
#[test]
fn figures() {
    let mut made = bench_image();
    let table = made.add_table(1).unwrap();
    let data = USED | 9 << 9;
    for (l2_index, entry) in [(0, data), (1, 1 << 62), (2, data), (3, 1), (4, data), (63, data)] {
        made.put64(table + 8 * l2_index, entry);
    }
    made.put64(made.l1_at, 1);
    let scratch = &mut [7; 34];
    assert_eq!(ALONE.check(&made.bytes, scratch), Verdict::BadL1(0));
    let figures: Vec<u16> = (0..17).map(|cluster| figure(scratch, cluster)).collect();
    assert_eq!(figures, [1, 1, 1, 1, 1, 0, 0, 0, 0, 4, 0, 0, 0, 0, 0, 0, 0x0707]);
    made.put64(made.l1_at, 0);
    assert_eq!(ALONE.check(&made.bytes, scratch), Verdict::BadL2(1, 1));
    made.put64(table + 8, 0);
    assert_eq!(ALONE.check(&made.bytes, scratch), Verdict::Shared(9));
    for l2_index in [2, 4, 63] {
        made.put64(table + 8 * l2_index, 0);
    }
    assert_eq!(ALONE.check(&made.bytes, scratch), Verdict::Short(9));
    made.put64(made.l1_at, USED | table as u64);
    assert_eq!(ALONE.check(&made.bytes, scratch), Verdict::Shared(4));
    assert_eq!((figure(scratch, 4), figure(scratch, 9)), (2, 2));
}

#[test]
fn differences() {
    assert_eq!(difference(0, 2), -2);
    assert_eq!(difference(0, 65_535), -65_535);
    assert_eq!(difference(65_535, 0), 65_535);
    assert_eq!(difference(1, 1), 0);
}
