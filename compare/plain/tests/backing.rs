//! Images over a backing file: numbers, reads, new clusters, discards and series.
#![forbid(unsafe_code)]

use answers::Calls;
use made::backing::{NAME_AT, NAME_LENGTH};
use made::backing_drive::{self, WANTED};
use made::backing_edges;
use made::drive;
use made::image::{Kind, Made, USED};
use made::pair::Pair;
use made::plan::{bench_image, Plan};
use made::rng::{setting, Rng};
use made::snapshots::keep_all;
use made::steps::follow;
use plain::plain_disk::{Call, Series};
use plain::{backing_name, Found, Outcome, Over, Plain, Step, Verdict, ALONE};

const ALL: u64 = u64::MAX;
/// The place of [`image`]'s L2 table, below L1 entry 1.
const TABLE: usize = 4 * 512;
const GUEST: u64 = 64;
const START: usize = GUEST as usize * 512;

/// The bench image over a backing file that ends 100 bytes into guest cluster 67:
/// guest cluster 64 has data in cluster 5, 65 zeros over cluster 6, 66 a zero mark,
/// and the others nothing, those below 64 not even an L2 table.
fn image() -> Made {
    let mut made = bench_image();
    assert_eq!(made.add_table(1), Some(TABLE));
    let kinds = [Kind::Data, Kind::ZerosWithPlace, Kind::ZerosWithoutPlace];
    for (index, kind) in kinds.into_iter().enumerate() {
        assert!(made.add_entry(TABLE, index, kind, &mut Rng::new(1)));
    }
    made.set_name(104, 9);
    made.bytes[104..113].copy_from_slice(b"a name\xFF\0/");
    made.backing = Rng::new(2).bytes(START + 3 * 512 + 100);
    made
}

fn version_2() -> Made {
    let mut made = image();
    made.put32(4, 2);
    made.put64(TABLE + 8, made.get64(TABLE + 8) & !1);
    made.put64(TABLE + 16, 0);
    made
}

fn read(made: &Made, offset: usize, len: usize) -> Vec<u8> {
    let mut out = vec![0xC3; len];
    assert_eq!(made.over(&Plain).read(&made.bytes, offset as u64, &mut out), Ok(()));
    out
}

fn verdict(made: &Made) -> Verdict {
    made.over(&Plain).check(&made.bytes, &mut vec![7; made.scratch()])
}

/// What a call makes of a copy of the image, with its answer.
fn after(made: &Made, call: impl Fn(Over, &mut [u8]) -> Outcome) -> (Made, Outcome) {
    let mut image = made.bytes.clone();
    let outcome = call(made.over(&Plain), &mut image);
    (Made { bytes: image, ..made.clone() }, outcome)
}

fn write(made: &Made, offset: usize, data: &[u8], allowance: u64) -> (Made, Outcome) {
    after(made, |side, image| side.write(image, offset as u64, data, allowance))
}

fn discard(made: &Made, cluster: u64, allowance: u64) -> (Made, Outcome) {
    after(made, |side, image| side.discard(image, cluster, allowance))
}

#[test]
fn names() {
    let mut k = 0;
    backing_edges::each(|made, number| {
        let refused = match verdict(made) {
            Verdict::Refused(number) => number,
            _ => 0,
        };
        assert_eq!(refused, number, "edge {k}");
        k += 1;
    });
    assert!(k > 700, "{k} edges");
}

#[test]
fn the_name_itself() {
    let mut made = image();
    assert_eq!(backing_name(&made.bytes), Ok(&b"a name\xFF\0/"[..]));
    made.put32(NAME_LENGTH, 408);
    assert_eq!(backing_name(&made.bytes).map(<[u8]>::len), Ok(408));
    made.put32(NAME_LENGTH, 409);
    assert_eq!(backing_name(&made.bytes), Err(19));
    made.put64(NAME_AT, 0);
    assert_eq!(backing_name(&made.bytes), Ok(&[][..]));
    made.put32(60, 65);
    assert_eq!(backing_name(&made.bytes), Err(6));
}

/// None of its bytes lent: each call refuses. One without a backing file does not
/// look at them.
#[test]
fn nothing_lent() {
    let mut made = image();
    let before = made.bytes.clone();
    let image = &mut made.bytes;
    assert_eq!(ALONE.translate(image, ALL), Found::Refused(19));
    assert_eq!(ALONE.read(image, ALL, &mut [7]), Err(19));
    assert_eq!(ALONE.write(image, ALL, &[7], 9), Outcome::Refused(19));
    assert_eq!(ALONE.discard(image, ALL, 9), Outcome::Refused(19));
    assert_eq!(ALONE.check(image, &mut []), Verdict::Refused(19));
    assert_eq!(ALONE.repair(image, &mut [], 9), Outcome::Refused(19));
    assert!(*image == before && Plain.backing_name(image).is_ok());
    made.put64(NAME_AT, 0);
    made.put32(NAME_LENGTH, u32::MAX);
    for backing in [vec![], vec![9], vec![9; 70_000]] {
        let made = Made { backing, ..made.clone() };
        assert_eq!(read(&made, START + 3 * 512, 512), [0; 512]);
        assert_eq!(discard(&made, 0, ALL).1, Outcome::Finished(0));
        assert_eq!(discard(&made, GUEST + 2, ALL).1, Outcome::Finished(1));
        let (after, outcome) = discard(&made, GUEST, ALL);
        assert_eq!((outcome, after.get64(TABLE)), (Outcome::Finished(2), 0));
        let (after, outcome) = write(&made, START + 3 * 512, b"x", ALL);
        assert_eq!(outcome, Outcome::Finished(514));
        assert_eq!(read(&after, START + 3 * 512 + 1, 511), [0; 511]);
    }
}

#[test]
fn reads() {
    let made = image();
    let under = &made.backing;
    assert_eq!(read(&made, 0, START), under[..START]);
    assert_eq!(read(&made, START, 512), made.bytes[5 * 512..6 * 512]);
    assert_eq!(read(&made, START + 512, 1024), [0; 1024]);
    let mut tail = under[START + 3 * 512..].to_vec();
    tail.resize(512 + 700, 0);
    assert_eq!(read(&made, START + 3 * 512, 512 + 700), tail);
    assert_eq!(read(&made, START + 3 * 512 + 99, 2), [tail[99], 0]);
    assert_eq!(read(&made, 65_535, 1), [0]);
    let side = made.over(&Plain);
    for offset in [0, START as u64 + 3 * 512, 65_535] {
        assert_eq!(side.translate(&made.bytes, offset), Found::Absent);
        assert!(side.lookup(&made.bytes, offset).is_empty());
    }
    assert_eq!(side.translate(&made.bytes, START as u64 + 512), Found::Zeros);
    assert_eq!(side.translate(&made.bytes, START as u64 + 1024), Found::Zeros);
}

/// A snapshot reads what it lacks from the backing file too, also past the disk's
/// end.
#[test]
fn snapshots() {
    let mut made = image();
    keep_all(&mut made, 1);
    made.put64(24, 512);
    made.size = 512;
    made.backing = Rng::new(3).bytes(65_000);
    let side = made.over(&Plain);
    let mut out = vec![0xC3; 65_536];
    assert_eq!(side.read_snapshot(&made.bytes, 0, 0, &mut out), Ok(()));
    let mut wanted = made.backing.clone();
    wanted.resize(65_536, 0);
    wanted[START..START + 512].copy_from_slice(&made.bytes[5 * 512..6 * 512]);
    wanted[START + 512..START + 3 * 512].fill(0);
    assert!(out == wanted);
    assert_eq!(read(&made, 0, 512), made.backing[..512]);
}

/// A new cluster is what was read before, with the data.
#[test]
fn new_clusters() {
    let made = image();
    for (offset, units, place) in [
        // Below the end of the backing file, around it and past it.
        (START + 3 * 512 + 7, 514, 7),
        (START + 3 * 512 + 98, 514, 7),
        (START + 4 * 512 + 1, 514, 7),
        // Under zero marks: with a place and without.
        (START + 512 + 9, 513, 6),
        (START + 2 * 512 + 9, 514, 7),
        // No L2 table, which takes cluster 7.
        (1030, 1028, 8),
    ] {
        let first = offset - offset % 512;
        let mut wanted = read(&made, first, 512);
        wanted[offset - first..][..5].copy_from_slice(b"hello");
        let (after, outcome) = write(&made, offset, b"hello", ALL);
        assert_eq!(outcome, Outcome::Finished(units), "{offset}");
        assert_eq!(after.bytes[place * 512..][..512], wanted, "{offset}");
        assert_eq!(read(&after, first, 512), wanted);
        let others = |made| (read(made, 0, first), read(made, first + 512, 65_536 - 512 - first));
        assert!(others(&after) == others(&made), "{offset}");
        assert_eq!(verdict(&after), Verdict::Sound);
    }
}

/// Where the disk ends inside a cluster, zeros come after its end.
#[test]
fn past_the_end_of_the_disk() {
    let plan = Plan {
        version: 3,
        cluster_bits: 11,
        order: 4,
        size: 5 * 2048 + 1024,
        l1_size: 1,
        spare: 4,
        longer_table: 0,
        autoclear: 0,
    };
    let mut made = Made { backing: vec![9; 20_000], ..plan.build_in_order(&mut Rng::new(4)) };
    made.set_name(200, 1);
    let (after, outcome) = write(&made, 5 * 2048 + 1000, b"ab", ALL);
    assert_eq!(outcome, Outcome::Finished(2 * 2048 + 4));
    let Found::Host(place) = after.over(&Plain).translate(&after.bytes, 5 * 2048) else {
        panic!("no place");
    };
    let mut wanted = [9; 2048];
    wanted[1000..1002].copy_from_slice(b"ab");
    wanted[1024..].fill(0);
    assert_eq!(after.bytes[place as usize..][..2048], wanted);
}

#[test]
fn discards() {
    let made = image();
    for (cluster, units) in [(64, 2), (65, 2), (66, 0), (67, 1), (68, 1), (127, 1)] {
        let (after, outcome) = discard(&made, cluster, ALL);
        assert_eq!(outcome, Outcome::Finished(units), "{cluster}");
        assert_eq!(after.get64(TABLE + 8 * (cluster - GUEST) as usize), 1);
        assert_eq!(read(&after, cluster as usize * 512, 512), [0; 512]);
        assert_eq!(verdict(&after), Verdict::Sound);
        let again = discard(&after, cluster, ALL).1;
        assert_eq!(again, Outcome::Finished(0), "{cluster}");
    }
    // Cut after the entry: the count is too high.
    let (cut, outcome) = discard(&made, 64, 1);
    assert_eq!((outcome, cut.get64(TABLE)), (Outcome::Stopped(1), 1));
    assert_eq!(verdict(&cut), Verdict::Leaks(1));
    assert_eq!(discard(&made, 67, 0).1, Outcome::Stopped(0));
}

/// 11, then 12, 13 and 22 on the way, then 20, then 16.
#[test]
fn twenty() {
    let refused = |made: &Made, cluster: u64| match discard(made, cluster, ALL) {
        (after, Outcome::Refused(number)) => {
            assert!(after.bytes == made.bytes);
            number
        }
        (_, other) => panic!("{other:?}"),
    };
    assert_eq!((refused(&image(), 0), refused(&image(), 63)), (20, 20));
    assert_eq!(refused(&image(), 128), 11);
    for cluster in [64, 65, 66, 67, 0] {
        assert_eq!(refused(&version_2(), cluster), 20);
    }
    for (entry, number) in [(2, 12), (1 << 62, 13), (5 << 9, 22), (USED | 9 << 9, 20)] {
        let mut made = version_2();
        made.put64(TABLE, entry);
        assert_eq!(refused(&made, 64), number);
    }
    for (entry, number) in [(1, 12), (4 << 9, 22)] {
        let mut made = version_2();
        made.put64(made.l1_entry(1), entry);
        assert_eq!(refused(&made, 64), number);
    }
    // Version 3: only the count of 0 is left to be refused.
    let mut made = image();
    made.put64(TABLE, USED | 9 << 9);
    assert_eq!(refused(&made, 64), 16);
    assert_eq!(write(&version_2(), START + 512, b"x", ALL).1, Outcome::Finished(1));
}

#[test]
fn steps() {
    let made = image();
    let side = made.over(&Plain);
    let listed = |cluster| {
        let mut rows = [9; 12];
        let count = side.discard_steps(&made.bytes, cluster, &mut rows).expect("a list");
        Step::of_rows(&rows[..4 * count]).map(Step::row).collect::<Vec<_>>()
    };
    assert_eq!(listed(64), [[TABLE as u64, 8, 1, 1], [1024 + 10, 2, 1, 2]]);
    assert_eq!(listed(66), [[0; 4]; 0]);
    assert_eq!(listed(67), [[TABLE as u64 + 24, 8, 1, 2]]);
    assert_eq!(side.discard_steps(&made.bytes, 0, &mut []), Err(20));
    let mut rows = [9; 24];
    let count = side.write_steps(&made.bytes, START as u64 + 3 * 512, 1, &mut rows);
    assert_eq!((count, rows[4..8].to_vec()), (Ok(3), vec![7 * 512, 512, 512, 1]));
}

/// The plain disk starts with what is read: what a call must not change is seen.
#[test]
fn the_plain_disk_sees_what_shows() {
    let made = image();
    let series = Series::start(made.over(&Plain), &made.bytes).expect("a sound image");
    let call = Call::Discard { cluster: GUEST };
    for (entry, holds) in [(1, true), (USED | 5 << 9, true), (0, false)] {
        let mut now = made.clone();
        now.put64(TABLE, entry);
        let held = series.clone().cut(&made.bytes, call, &now.bytes);
        assert_eq!(held.is_ok(), holds, "{entry:x}: {held:?}");
    }
    let write = Call::Write { offset: START as u64 + 3 * 512, data: b"x" };
    let (mut after, _) = self::write(&made, START + 3 * 512, b"x", ALL);
    assert!(series.clone().cut(&made.bytes, write, &after.bytes).is_ok());
    after.bytes[7 * 512 + 1..8 * 512].fill(0);
    assert!(series.clone().cut(&made.bytes, write, &after.bytes).is_err());
}

#[test]
fn random_series() {
    let mut rng = Rng::from_env("series over a backing file", 135);
    let ended =
        drive::series_such(&Plain, &mut rng, setting("CALLS", 20_000), backing_drive::usable);
    println!("finished, stopped, refused: {ended:?}");
    assert!(ended.iter().all(|&count| count > 0));
}

#[test]
fn power_cuts() {
    let mut rng = Rng::from_env("power cuts over a backing file", 136);
    let met = follow(&Plain, &mut rng, setting("CALLS", 2000), backing_drive::usable);
    assert!(met.refused > 0 && met.cuts.iter().all(|&cuts| cuts > 0), "{met:?}");
}

#[test]
fn both_sides() {
    let mut rng = Rng::from_env("both sides over a backing file", 137);
    let mut pair = Pair::new(&Plain, &Plain);
    drive::compare_such(&mut pair, &mut rng, setting("CALLS", 30_000), backing_drive::any);
    let missing = WANTED.iter().find(|kind| !pair.tally.contains_key(**kind));
    assert!(pair.calls < 30_000 || missing.is_none(), "{missing:?}");
    assert!(backing_drive::compare_lists(&mut pair, &mut rng) > 1000);
}

#[test]
fn qemu() {
    made::qemu_suite::backing(&Plain);
}
