//! Images with snapshots: numbers, reads, refused writes and verdicts.
#![forbid(unsafe_code)]

use made::drive;
use made::hostile;
use made::image::{Kind, Made, USED};
use made::pair::Pair;
use made::plan::bench_image;
use made::rng::{setting, Rng};
use made::snapshot_drive;
use made::snapshots::keep_all;
use plain::{Found, Outcome, Verdict, ALONE};

const ALL: u64 = u64::MAX;
/// The clusters of [`image`].
const L1: usize = 3 * 512;
const TABLE: usize = 4 * 512;
const DATA: usize = 5 * 512;
const ENTRY: usize = 6 * 512;
const KEPT_L1: usize = 7 * 512;
/// Of L1 entry 1.
const GUEST: u64 = 64;
const OFFSET: u64 = GUEST * 512;

/// The bench image with an L2 table and data below L1 entry 1, and one snapshot
/// of them.
fn image() -> Made {
    let mut made = bench_image();
    let table = made.add_table(1).expect("room");
    assert!(made.add_entry(table, 0, Kind::Data, &mut Rng::new(1)));
    keep_all(&mut made, 1);
    let snapshot = &made.snapshots[0];
    assert_eq!((table, snapshot.entry, snapshot.l1_at), (TABLE, ENTRY, KEPT_L1));
    made
}

/// The same once the active disk has copies of its own: the table in cluster 8
/// and the data in cluster 9.
fn copied() -> Made {
    let mut made = image();
    let (table, data) = (8 * 512, 9 * 512);
    made.bytes.copy_within(TABLE..TABLE + 512, table);
    made.bytes[data..data + 512].fill(7);
    made.put64(L1 + 8, USED | table as u64);
    made.put64(table, USED | data as u64);
    (4..10).for_each(|cluster| made.set_count(cluster, 1));
    made
}

fn verdict(made: &Made) -> Verdict {
    ALONE.check(&made.bytes, &mut vec![7; made.scratch()])
}

/// The verdict with an entry or a field changed.
fn with(made: &Made, at: usize, value: u64) -> Verdict {
    let mut made = made.clone();
    made.put64(at, value);
    verdict(&made)
}

fn figures(made: &Made) -> Vec<u16> {
    let mut scratch = vec![7; made.scratch()];
    ALONE.check(&made.bytes, &mut scratch);
    scratch.as_chunks().0.iter().map(|&figure| u16::from_be_bytes(figure)).collect()
}

#[test]
fn sound() {
    assert_eq!(verdict(&image()), Verdict::Sound);
    assert_eq!(figures(&image())[..9], [1, 1, 1, 1, 2, 2, 1, 1, 0]);
    assert_eq!(verdict(&copied()), Verdict::Sound);
    assert_eq!(figures(&copied())[..11], [1, 1, 1, 1, 1, 1, 1, 1, 1, 1, 0]);
}

#[test]
fn scratch_of_two_bytes() {
    let made = image();
    assert_eq!(ALONE.check(&made.bytes, &mut [0; 31]), Verdict::Refused(15));
    assert_eq!(ALONE.check(&made.bytes, &mut [0; 32]), Verdict::Sound);
    assert_eq!(ALONE.repair(&mut made.bytes.clone(), &mut [0; 31], ALL), Outcome::Refused(15));
}

#[test]
fn reads() {
    let made = copied();
    let (kept, mut out) = (&made.bytes[DATA..DATA + 512], [0xC3; 512]);
    assert_eq!(ALONE.read_snapshot(&made.bytes, 0, OFFSET, &mut out), Ok(()));
    assert_eq!(out, kept);
    assert_eq!(ALONE.read(&made.bytes, OFFSET, &mut out), Ok(()));
    assert_eq!((out, ALONE.lookup(&made.bytes, OFFSET)), ([7; 512], &[7; 512][..]));
    assert_eq!(ALONE.translate(&made.bytes, OFFSET), Found::Host(9 * 512));
    assert_eq!(ALONE.read_snapshot(&made.bytes, 0, OFFSET + 500, &mut out[..24]), Ok(()));
    assert_eq!((&out[..12], &out[12..24]), (&kept[500..], &[0; 12][..]));
}

/// A snapshot's disk goes as far as its L1 table reaches, whatever the size.
#[test]
fn reach() {
    let mut made = copied();
    made.size = 512;
    made.put64(24, 512);
    let read = |made: &Made, snapshot, offset, len| {
        let mut out = vec![0xC3; len];
        let answer = ALONE.read_snapshot(&made.bytes, snapshot, offset, &mut out);
        assert!(answer.is_ok() || out.iter().all(|&byte| byte == 0xC3));
        answer
    };
    for (snapshot, offset, len, answer) in [
        (0, 65_535, 1, Ok(())),
        (0, 0, 65_536, Ok(())),
        (0, 65_536, 0, Ok(())),
        (0, 65_536, 1, Err(11)),
        (0, 65_537, 0, Err(11)),
        (0, 1, 65_536, Err(11)),
        (0, u64::MAX, 2, Err(11)),
        (1, 0, 0, Err(11)),
        (u64::MAX, 0, 0, Err(11)),
        (1 << 32, 0, 1, Err(11)),
    ] {
        assert_eq!(read(&made, snapshot, offset, len), answer, "{snapshot} {offset} {len}");
    }
    // A bad entry of the snapshot stops its reads alone.
    made.put64(KEPT_L1, 1);
    assert_eq!(read(&made, 0, 0, 1), Err(12));
    assert_eq!(read(&made, 0, 32_768, 1), Ok(()));
    assert_eq!(ALONE.read(&made.bytes, 0, &mut [0]), Ok(()));
    made.put64(TABLE + 8, 1 << 62);
    assert_eq!(read(&made, 0, OFFSET, 513), Err(13));
    assert_eq!(read(&made, 0, OFFSET, 512), Ok(()));
}

/// What a write and a discard of the guest cluster are refused with; 0 if not.
fn refused(made: &Made, guest: u64) -> [u32; 2] {
    let number = |outcome| match outcome {
        Outcome::Refused(number) => number,
        _ => 0,
    };
    let mut image = made.bytes.clone();
    let write = number(ALONE.write(&mut image, guest * 512 + 9, b"abc", ALL));
    assert!(write == 0 || image == made.bytes);
    let mut image = made.bytes.clone();
    let discard = number(ALONE.discard(&mut image, guest, ALL));
    assert!(discard == 0 || image == made.bytes);
    [write, discard]
}

#[test]
fn held_by_a_snapshot() {
    let made = image();
    // The L1 entry, for every guest cluster below it.
    for guest in [GUEST, GUEST + 1, GUEST + 63] {
        assert_eq!(refused(&made, guest), [22, 22]);
    }
    assert_eq!(refused(&made, 0), [0, 0]);
    assert_eq!(ALONE.write(&mut made.bytes.clone(), OFFSET, &[], ALL), Outcome::Finished(0));
    // A bad L1 entry is 12; a compressed or bad L2 entry is not looked at.
    for (at, entry, number) in
        [(L1 + 8, TABLE as u64 | 1, 12), (TABLE, 1 << 62, 22), (TABLE, 2, 22)]
    {
        let mut made = made.clone();
        made.put64(at, entry);
        assert_eq!(refused(&made, GUEST), [number, number]);
    }
    assert_eq!(refused(&copied(), GUEST), [0, 0]);
}

/// The table is the active disk's own, its entry is not.
#[test]
fn held_data() {
    let table = 8 * 512;
    for (entry, numbers) in [
        (DATA as u64, [22, 22]),
        (DATA as u64 | 1, [22, 22]),
        (DATA as u64 | 2, [12, 12]),
        (DATA as u64 | 1 << 62, [13, 13]),
        (USED | DATA as u64, [0, 0]),
        (USED | DATA as u64 | 1, [0, 0]),
        (1, [0, 0]),
        (0, [0, 0]),
    ] {
        let mut made = copied();
        made.put64(table, entry);
        assert_eq!(refused(&made, GUEST), numbers, "{entry:x}");
    }
    // 22 comes before 16, and before 14.
    let mut made = copied();
    made.put64(table, DATA as u64);
    made.set_count(5, 0);
    assert_eq!(refused(&made, GUEST), [22, 22]);
    made.put64(table, USED | DATA as u64);
    assert_eq!(refused(&made, GUEST), [0, 16]);
}

#[test]
fn marks() {
    let (shared, own) = (image(), copied());
    assert_eq!(with(&shared, L1 + 8, USED | TABLE as u64), Verdict::MarkL1(1));
    assert_eq!(with(&shared, TABLE, USED | DATA as u64), Verdict::MarkL2(1, 0));
    assert_eq!(with(&shared, TABLE, USED | DATA as u64 | 1), Verdict::MarkL2(1, 0));
    assert_eq!(with(&own, L1 + 8, 8 * 512), Verdict::MarkL1(1));
    assert_eq!(with(&own, 8 * 512, 9 * 512), Verdict::MarkL2(1, 0));
    // In the snapshot's tables it is not looked at.
    assert_eq!(with(&own, KEPT_L1 + 8, USED | TABLE as u64), Verdict::Sound);
    assert_eq!(with(&own, TABLE, USED | DATA as u64), Verdict::Sound);
    // L1 entry by L1 entry, each before its L2 entries.
    let mut made = shared.clone();
    made.put64(TABLE, USED | DATA as u64);
    assert_eq!(with(&made, L1 + 8, USED | TABLE as u64), Verdict::MarkL1(1));
    // After short, before leaking.
    made.set_count(12, 1);
    assert_eq!(verdict(&made), Verdict::MarkL2(1, 0));
    made.set_count(7, 0);
    assert_eq!(verdict(&made), Verdict::Short(7));
}

/// Without snapshots as well.
#[test]
fn marks_alone() {
    let mut made = bench_image();
    let table = made.add_table(0).expect("room");
    assert!(made.add_entry(table, 63, Kind::ZerosWithPlace, &mut Rng::new(1)));
    let place = made.get64(table + 8 * 63) & !USED;
    assert_eq!(verdict(&made), Verdict::Sound);
    assert_eq!(with(&made, table + 8 * 63, place), Verdict::MarkL2(0, 63));
    assert_eq!(with(&made, made.l1_at, table as u64), Verdict::MarkL1(0));
    made.set_count(2, 3);
    assert_eq!(with(&made, made.l1_at, table as u64), Verdict::MarkL1(0));
    assert_eq!(verdict(&made), Verdict::Leaks(1));
}

#[test]
fn bad_entries() {
    let made = copied();
    assert_eq!(with(&made, KEPT_L1, 1), Verdict::SnapshotBadL1(0, 0));
    assert_eq!(with(&made, KEPT_L1 + 8, USED), Verdict::SnapshotBadL1(1, 0));
    assert_eq!(with(&made, TABLE + 8 * 5, 2), Verdict::SnapshotBadL2(1, 5, 0));
    assert_eq!(with(&made, TABLE + 8 * 5, USED), Verdict::SnapshotBadL2(1, 5, 0));
    // The active tables come first, also where they share the table.
    assert_eq!(with(&image(), TABLE + 8 * 5, 2), Verdict::BadL2(1, 5));
    let mut made = made;
    made.put64(KEPT_L1, 1);
    assert_eq!(with(&made, L1 + 8, 2), Verdict::BadL1(1));
    let scratch = &mut vec![7; made.scratch()];
    assert_eq!(ALONE.repair(&mut made.bytes, scratch, ALL), Outcome::Refused(17));
    assert_eq!(scratch[8..12], [0, 1, 0, 1]);
    // Snapshots in their order.
    let mut made = bench_image();
    made.add_table(0).expect("room");
    keep_all(&mut made, 3);
    for k in [2, 1] {
        made.put64(made.snapshots[k].l1_at + 8, 1 << 56);
        assert_eq!(verdict(&made), Verdict::SnapshotBadL1(1, k as u64));
    }
}

/// Two roles, or one of them twice where that is not by snapshots.
#[test]
fn shared() {
    let mut made = copied();
    // Data that are no bad entries.
    made.bytes[9 * 512..10 * 512].fill(0);
    let data = |cluster: u64| USED | (cluster * 512);
    // The active disk's data as the snapshot's L2 table, and the other way.
    assert_eq!(with(&made, KEPT_L1, data(9)), Verdict::Shared(9));
    assert_eq!(with(&made, TABLE + 8, data(8)), Verdict::Shared(8));
    assert_eq!(with(&made, TABLE + 8, data(4)), Verdict::Shared(4));
    // Twice from one L1 table.
    assert_eq!(with(&made, TABLE + 8, data(5)), Verdict::Shared(5));
    assert_eq!(with(&made, KEPT_L1, data(4)), Verdict::Shared(4));
    assert_eq!(with(&made, 8 * 512 + 8, data(9)), Verdict::Shared(9));
    // Something fixed, from either disk.
    for cluster in [1, 2, 3, 6, 7] {
        assert_eq!(with(&made, TABLE + 8, data(cluster)), Verdict::Shared(cluster));
        assert_eq!(with(&made, 8 * 512 + 8, data(cluster)), Verdict::Shared(cluster));
    }
    // The snapshot's L1 table on another, and on data.
    assert_eq!(with(&made, ENTRY, L1 as u64), Verdict::Shared(3));
    assert_eq!(with(&made, ENTRY, 9 * 512), Verdict::Shared(9));
    // From two L1 tables in one role it is not, and then it is short.
    assert_eq!(with(&made, TABLE + 8, data(9)), Verdict::Short(9));
    assert_eq!(with(&made, KEPT_L1, data(8)), Verdict::Short(8));
    made.put64(TABLE + 8, data(9));
    made.set_count(9, 2);
    made.put64(8 * 512, 9 * 512);
    assert_eq!(verdict(&made), Verdict::Sound);
    // Shared comes before short.
    made.set_count(1, 0);
    assert_eq!(with(&made, KEPT_L1, data(9)), Verdict::Shared(9));
    assert_eq!(verdict(&made), Verdict::Short(1));
}

#[test]
fn short_and_leaking() {
    let mut made = image();
    for cluster in [4, 5] {
        let mut made = made.clone();
        made.set_count(cluster, 1);
        assert_eq!(verdict(&made), Verdict::Short(cluster as u64));
    }
    for cluster in [6, 7] {
        let mut made = made.clone();
        made.set_count(cluster, 0);
        assert_eq!(verdict(&made), Verdict::Short(cluster as u64));
    }
    let sound = made.bytes.clone();
    for (cluster, count) in [(4, 3), (5, 65_535), (7, 2), (9, 1)] {
        made.set_count(cluster, count);
    }
    assert_eq!(verdict(&made), Verdict::Leaks(4));
    let scratch = &mut vec![7; made.scratch()];
    assert_eq!(ALONE.repair(&mut made.bytes, scratch, 2), Outcome::Stopped(2));
    assert_eq!((made.count(4), made.count(5), made.count(7)), (2, 2, 2));
    assert_eq!(ALONE.repair(&mut made.bytes, scratch, ALL), Outcome::Finished(2));
    assert!(made.bytes == sound);
}

/// Units of a write that goes past the snapshot: the lists are the usual ones.
#[test]
fn units() {
    let mut made = copied();
    let mut kept = [0; 512];
    assert_eq!(ALONE.read_snapshot(&made.bytes, 0, OFFSET, &mut kept), Ok(()));
    let image = &mut made.bytes;
    assert_eq!(ALONE.write(image, OFFSET, b"abc", ALL), Outcome::Finished(3));
    assert_eq!(ALONE.write(image, OFFSET + 512, b"abc", ALL), Outcome::Finished(514));
    assert_eq!(ALONE.write(image, 0, b"abc", ALL), Outcome::Finished(1028));
    assert_eq!(ALONE.discard(image, GUEST, ALL), Outcome::Finished(2));
    let mut after = [0; 512];
    assert_eq!(ALONE.read_snapshot(image, 0, OFFSET, &mut after), Ok(()));
    assert_eq!(after, kept);
    assert_eq!(verdict(&made), Verdict::Sound);
}

/// More references than a figure has room for.
#[test]
fn many_references() {
    for (l1_size, snapshots) in [(1000, 1), (2000, 64), (65_536, 1)] {
        let made = hostile::one_table(9, l1_size, snapshots);
        let (l1, table) = (made.l1_at / 512, made.tables[0].1 / 512);
        let paths = l1_size * (1 + snapshots);
        let figure = |references: usize| references.min(65_535) as u16;
        let figures = figures(&made);
        // The L2 table is also data of 22 entries, the spare cluster of 21.
        assert_eq!(figures[table], figure(paths + 22 * paths));
        assert_eq!(figures[made.clusters() - 1], figure(21 * paths));
        assert_eq!(figures[l1], figure(1 + snapshots + 21 * paths));
        assert_eq!(verdict(&made), Verdict::Shared(l1 as u64));
    }
}

#[test]
fn qemu() {
    made::qemu_suite::snapshots(&plain::Plain);
}

#[test]
fn random_series() {
    let mut rng = Rng::from_env("series beside snapshots", 35);
    let ended = drive::series_such(
        &plain::Plain,
        &mut rng,
        setting("CALLS", 20_000),
        snapshot_drive::usable,
    );
    println!("finished, stopped, refused: {ended:?}");
    assert!(ended.iter().all(|&count| count > 0));
}

#[test]
fn both_sides() {
    let mut rng = Rng::from_env("both sides, snapshots", 36);
    let mut pair = Pair::new(&plain::Plain, &plain::Plain);
    drive::compare_such(&mut pair, &mut rng, setting("CALLS", 30_000), snapshot_drive::any_over);
    println!("{:#?}", pair.tally);
    let missing = snapshot_drive::WANTED.iter().find(|kind| !pair.tally.contains_key(**kind));
    assert!(pair.calls < 30_000 || missing.is_none(), "{missing:?}");
}
