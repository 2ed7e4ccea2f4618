//! Damage beside snapshots: what check says and lists, against the core and
//! against lists made by hand.

mod common;

use ::made::damage::{self, Damage as Spoil};
use ::made::image::{Made, USED};
use ::made::rng::Rng;
use ::made::snapshot_drive;
use common::kept::{copied, kept, DATA, TABLE};
use common::made::{get64, put64};
use common::{Answer, Copy};
use qcow2_core::{check, Verdict};
use qstore::damage::{bad_entries, is_bad_entry, BadRun, Damage};
use qstore::layout::Layout;
use qstore::owners;
use qstore::runs::figure;

const PLACE: u64 = 0x00FF_FFFF_FFFF_FE00;

fn layout(image: &[u8]) -> Layout {
    Layout::of(image).expect("an accepted image")
}

fn checked(image: &[u8]) -> (Verdict, Vec<u8>) {
    let mut scratch = vec![0; layout(image).scratch()];
    (check(image, &[], &mut scratch), scratch)
}

fn spoiled(rng: &mut Rng, kinds: &[Spoil], most: u64) -> Made {
    let mut made = snapshot_drive::usable(rng);
    for _ in 0..1 + rng.below(most) {
        rng.pick(kinds)(&mut made, rng);
    }
    made
}

/// Where an entry is named: L1 index, L2 index, snapshot.
type Named = (u64, Option<u64>, Option<u64>);

fn bad_entry_of(verdict: Verdict) -> Option<Named> {
    match verdict {
        Verdict::BadL1(l1_index) => Some((l1_index, None, None)),
        Verdict::BadL2(l1_index, l2_index) => Some((l1_index, Some(l2_index), None)),
        Verdict::SnapshotBadL1(l1_index, snapshot) => Some((l1_index, None, Some(snapshot))),
        Verdict::SnapshotBadL2(l1_index, l2_index, snapshot) => {
            Some((l1_index, Some(l2_index), Some(snapshot)))
        }
        _ => None,
    }
}

/// The bad entries that the core names one after the other, each set to 0 once it
/// was named.
fn named_by_the_core(mut image: Vec<u8>) -> Vec<Named> {
    let mut all = Vec::new();
    while let Some(named) = bad_entry_of(checked(&image).0) {
        let (l1_index, l2_index, snapshot) = named;
        let trees = layout(&image).with_snapshots(&image);
        let tree = trees.iter().find(|tree| tree.snapshot == snapshot).unwrap();
        let at = match l2_index {
            None => tree.l1_entry_at(l1_index),
            Some(index) => tree.l2_entry_at(&image, l1_index * tree.per_table() + index).unwrap(),
        };
        put64(&mut image, at, 0);
        all.push(named);
    }
    all
}

fn flat(runs: &[BadRun]) -> Vec<Named> {
    let each = |run: &BadRun| {
        let (l1_index, l2_index, snapshot) = (run.l1_index, run.l2_index, run.snapshot);
        (0..run.number).map(move |k| match l2_index {
            None => (l1_index + k, None, snapshot),
            Some(first) => (l1_index, Some(first + k), snapshot),
        })
    };
    runs.iter().flat_map(each).collect()
}

#[test]
fn every_bad_entry_is_listed() {
    let mut rng = Rng::from_env("bad entries beside snapshots", 11);
    let kinds: [Spoil; 4] = [damage::bad_l1, damage::bad_l2, damage::compress, damage::wrong_mark];
    let (mut of_disk, mut of_snapshots) = (0, 0);
    for _ in 0..400 {
        let made = spoiled(&mut rng, &kinds, 8);
        let named = named_by_the_core(made.bytes.clone());
        let bad = bad_entries(&layout(&made.bytes), &made.bytes);
        assert_eq!(flat(&bad.runs), named);
        assert_eq!(bad.entries, named.len() as u64);
        of_disk += usize::from(named.iter().any(|it| it.2.is_none()));
        of_snapshots += usize::from(named.iter().any(|it| it.2.is_some()));
    }
    assert!(of_disk > 100 && of_snapshots > 100, "{of_disk} {of_snapshots}");
}

/// The first of each list is what the core's verdict names, on any image.
#[test]
fn the_first_is_the_verdict() {
    let mut rng = Rng::from_env("verdicts beside snapshots", 12);
    let mut met = [0; 4];
    for round in 0..900 {
        let made = snapshot_drive::any(&mut rng);
        let mut scratch = vec![0; made.bytes.len() / 256];
        let verdict = check(&made.bytes, &[], &mut scratch);
        if matches!(verdict, Verdict::Refused(_)) {
            continue;
        }
        let layout = layout(&made.bytes);
        let damage = Damage::of(&layout, &made.bytes, verdict, &scratch);
        let first = |runs: &[(u64, u64)]| runs.first().map(|run| run.0);
        let bad = damage.bad.runs.first().map(|run| (run.l1_index, run.l2_index, run.snapshot));
        let (shared, short) = (first(&damage.shared), first(&damage.short));
        let mark = damage.marks.first().map(|mark| (mark.l1_index, mark.l2_index));
        let kind = match verdict {
            Verdict::Shared(cluster) => {
                assert_eq!((bad, shared), (None, Some(cluster)), "{round}");
                1
            }
            Verdict::Short(cluster) => {
                assert_eq!((bad, shared, short), (None, None, Some(cluster)), "{round}");
                2
            }
            Verdict::MarkL1(_) | Verdict::MarkL2(..) => {
                let named = match verdict {
                    Verdict::MarkL2(l1_index, l2_index) => (l1_index, Some(l2_index)),
                    Verdict::MarkL1(l1_index) => (l1_index, None),
                    _ => unreachable!(),
                };
                assert_eq!((bad, shared, short, mark), (None, None, None, Some(named)), "{round}");
                3
            }
            Verdict::Sound | Verdict::Leaks(_) => {
                assert_eq!((bad, shared, short, mark), (None, None, None, None), "{round}");
                let leaked = damage.leaked.iter().map(|run| run.1).sum();
                assert_eq!(
                    verdict,
                    if leaked == 0 { Verdict::Sound } else { Verdict::Leaks(leaked) }
                );
                continue;
            }
            _ => {
                assert!(is_bad_entry(verdict));
                assert_eq!(bad, bad_entry_of(verdict), "{round}");
                0
            }
        };
        met[kind] += 1;
    }
    assert!(met.iter().all(|&times| times > 20), "{met:?}");
}

/// What a cluster is reached as, and from which L1 table.
#[derive(Clone, Copy, PartialEq)]
enum Visit {
    Fixed,
    Table(usize),
    Data(usize),
}

/// Every visit of every cluster, by the definition.
fn visits(image: &[u8]) -> Vec<Vec<Visit>> {
    let layout = layout(image);
    let (bits, cluster) = (layout.bits, layout.cluster());
    let mut visits = vec![Vec::new(); layout.clusters];
    let be32 = |at: usize| u32::from_be_bytes(image[at..at + 4].try_into().unwrap()) as usize;
    let mut fixed = |at: usize, length: usize| {
        (at >> bits..(at + length).div_ceil(cluster)).for_each(|it| visits[it].push(Visit::Fixed));
    };
    fixed(0, 1);
    let table = get64(image, 48) as usize;
    fixed(table, be32(56) * cluster);
    for entry in (table..table + be32(56) * cluster).step_by(8) {
        let block = get64(image, entry) as usize;
        if block != 0 {
            fixed(block, cluster);
        }
    }
    let mut l1 = vec![(get64(image, 40) as usize, be32(36))];
    let snapshots_at = get64(image, 64) as usize;
    let mut at = snapshots_at;
    for _ in 0..be32(60) {
        l1.push((get64(image, at) as usize, be32(at + 8)));
        let [id, name] = [12, 14].map(|it| be32(at + it) >> 16);
        at = (at + 40 + be32(at + 36) + id + name).next_multiple_of(8);
    }
    if be32(60) != 0 {
        fixed(snapshots_at, at - snapshots_at);
    }
    l1.iter().for_each(|&(at, size)| fixed(at, 8 * size));
    let good = |entry: u64, zero: bool| {
        let reserved = if zero { 0x7F00_0000_0000_01FE } else { 0x7F00_0000_0000_01FF };
        let place = (entry & PLACE) as usize;
        let inside = place.is_multiple_of(cluster) && place + cluster <= image.len();
        let mark = zero && entry & 1 == 1 && layout.version == 2;
        (entry & reserved == 0 && place != 0 && inside && !mark).then_some(place)
    };
    for (tree, (at, size)) in l1.into_iter().enumerate() {
        for table in (0..size).filter_map(|index| good(get64(image, at + 8 * index), false)) {
            visits[table >> bits].push(Visit::Table(tree));
            let entries = (table..table + cluster).step_by(8).map(|at| get64(image, at));
            for data in entries.filter_map(|entry| good(entry, true)) {
                visits[data >> bits].push(Visit::Data(tree));
            }
        }
    }
    visits
}

/// Reached in two roles, twice as a fixed structure, or twice from one L1 table.
fn is_shared(visits: &[Visit]) -> bool {
    let both = |one: Visit, other: Visit| match (one, other) {
        (Visit::Table(one), Visit::Table(other)) | (Visit::Data(one), Visit::Data(other)) => {
            one == other
        }
        _ => true,
    };
    let mut pairs = visits
        .iter()
        .enumerate()
        .flat_map(|(k, one)| visits[k + 1..].iter().map(move |other| both(*one, *other)));
    pairs.any(|shared| shared)
}

#[test]
fn shared_clusters_by_hand() {
    let mut rng = Rng::from_env("shared clusters", 13);
    let mut met = 0;
    for round in 0..500 {
        let made = match round % 3 {
            0 => {
                spoiled(&mut rng, &[damage::alias_l1, damage::alias_l2, damage::move_structure], 3)
            }
            _ => snapshot_drive::any(&mut rng),
        };
        let (image, mut scratch) = (&made.bytes, vec![0; made.bytes.len() / 256]);
        if matches!(check(image, &[], &mut scratch), Verdict::Refused(_)) {
            continue;
        }
        let visits = visits(image);
        for (cluster, visits) in visits.iter().enumerate() {
            assert_eq!(usize::from(figure(&scratch, cluster)), visits.len().min(65_535), "{round}");
        }
        let wanted: Vec<bool> = visits.iter().map(|visits| is_shared(visits)).collect();
        assert!(owners::shared(&layout(image), image) == wanted, "{round}");
        met += usize::from(wanted.contains(&true));
    }
    assert!(met > 60, "{met}");
}

/// Every active entry, by the figures.
#[test]
fn wrong_marks_by_hand() {
    let mut rng = Rng::from_env("wrong marks", 14);
    let mut met = 0;
    for _ in 0..200 {
        let made = spoiled(&mut rng, &[damage::wrong_mark, damage::one_less], 4);
        let (verdict, scratch) = checked(&made.bytes);
        if is_bad_entry(verdict) || matches!(verdict, Verdict::Shared(_)) {
            continue;
        }
        let (image, bits) = (&made.bytes, made.cluster_bits);
        let mut wanted = Vec::new();
        let wrong = |at: usize| {
            let (entry, place) = (get64(image, at), (get64(image, at) & PLACE) as usize);
            place != 0 && (entry >= USED) != (figure(&scratch, place >> bits) == 1)
        };
        for l1_index in 0..made.l1_size {
            let at = made.l1_entry(l1_index);
            let table = (get64(image, at) & PLACE) as usize;
            wanted.extend(wrong(at).then_some((l1_index as u64, None)));
            if table != 0 {
                let found = (0..made.per_table()).filter(|index| wrong(table + 8 * index));
                wanted.extend(found.map(|index| (l1_index as u64, Some(index as u64))));
            }
        }
        let damage = Damage::of(&layout(image), image, verdict, &scratch);
        let listed: Vec<(u64, Option<u64>)> =
            damage.marks.iter().map(|mark| (mark.l1_index, mark.l2_index)).collect();
        assert_eq!(listed, wanted);
        met += usize::from(!wanted.is_empty());
    }
    assert!(met > 60, "{met}");
}

/// What check says of a damaged image, as text and as JSON; every change of it is
/// refused, and nothing is changed.
fn damaged(name: &str, made: &Made, first: &str, others: &[&str], json: &[&str]) {
    let copy = Copy::with(&made.bytes, name);
    let Answer { exit, text, .. } = copy.run("check IMAGE");
    assert!(exit == 2 && text.starts_with(first), "{first}: {text}");
    others.iter().for_each(|other| assert!(text.contains(other), "{other}: {text}"));
    let members = copy.run("check IMAGE --json").text;
    json.iter().for_each(|member| assert!(members.contains(member), "{member}: {members}"));
    let extend = format!("extend IMAGE {}", made.bytes.len());
    for line in ["write IMAGE 0", "discard IMAGE 0 512", "repair IMAGE", &extend] {
        let answer = copy.feed(line, b"x");
        assert!(answer.exit == 2 && answer.error.contains(first.trim_end()), "{}", answer.error);
    }
    assert!(copy.run("info IMAGE").text.contains(&format!("\nverdict: {}", first.trim_end())));
    assert!(copy.bytes() == made.bytes);
}

#[test]
fn bad_entries_of_snapshots_in_words() {
    let mut made = copied();
    let l1_at = made.snapshots[0].l1_at;
    made.put64(l1_at, 5);
    damaged(
        "damaged-l1",
        &made,
        "damaged: L1 entry 0 of snapshot 0 is 0x0000000000000005: a reserved bit is set (0 to 8",
        &[
            "\n  bad entries: 1\n    L1 entry 0 of snapshot 0 (32768 bytes at guest offset 0): a",
            "    each is named once, with the first L1 table that leads to it\n",
            "Let no program write to the old one.",
            "The new one lacks the snapshots (it has the active disk alone): keep the old one",
        ],
        &[
            "\"finding\": \"entry\", \"l1_index\": 0, \"entry\": \"0x0000000000000005\", ",
            "\"snapshot\": 0, \"compressed\": 0,",
            "\"bad_entries\": [{\"l1_index\": 0, \"snapshot\": 0, \"number\": 1,",
        ],
    );
    let mut made = copied();
    (5..8).for_each(|index| made.put64(TABLE + 8 * index, USED));
    damaged(
        "damaged-l2",
        &made,
        "damaged: L2 entry 5 below L1 entry 1 of snapshot 0 (guest offset 35328) is \
         0x8000000000000000: bit 63 is set, but no place is given",
        &["    L2 entries 5 to 7 below L1 entry 1 of snapshot 0 (1536 bytes at guest offset 35328): "],
        &["\"l1_index\": 1, \"l2_index\": 5, \"snapshot\": 0, \"number\": 3, ", "\"snapshot\": 0"],
    );
    // In common: with the disk, which comes first.
    let mut made = kept(2);
    made.put64(TABLE + 8, 3);
    damaged(
        "damaged-common",
        &made,
        "damaged: L2 entry 1 below L1 entry 1 (guest offset 33280) is 0x0000000000000003: ",
        &["\n  bad entries: 1\n", "Keep this file for good"],
        &["\"l1_index\": 1, \"l2_index\": 1, \"number\": 1,"],
    );
    // Compression is no damage to qemu, in a snapshot either.
    let mut made = copied();
    made.put64(TABLE + 8, 1 << 62 | 77);
    let copy = Copy::with(&made.bytes, "snapshot-compressed");
    let text = copy.run("check IMAGE").text;
    assert!(text.contains("To qemu they are no damage."), "{text}");
    assert!(copy.run("info IMAGE").text.contains("\nclusters compressed: 1\n"));
    assert!(copy.feed("write IMAGE 0", b"x").error.contains("To qemu they are no damage"));
}

#[test]
fn wrong_marks_in_words() {
    let mut made = kept(1);
    made.put64(made.l1_entry(1), USED | TABLE as u64);
    damaged(
        "damaged-mark-l1",
        &made,
        "damaged: mark of L1 entry 1: bit 63 is set, but cluster 4 has 2 references\n",
        &[
            "\n  wrong marks: 1\n    L1 entry 1: bit 63 is set, but cluster 4 has 2 references\n",
            "by a wrong bit 63 a program that writes may change bytes of a snapshot.",
            "`qemu-img compare ",
        ],
        &[
            "\"verdict\": \"damaged\", \"finding\": \"mark\", \"l1_index\": 1, \
             \"entry\": \"0x8000000000000800\", \"cluster\": 4, \"references\": 2, \"reason\": \"bit",
            "\"marks\": [{\"l1_index\": 1, \"entry\": ",
        ],
    );
    let mut made = copied();
    made.put64(8 * 512, 9 * 512);
    damaged(
        "damaged-mark-l2",
        &made,
        "damaged: mark of L2 entry 0 below L1 entry 1: bit 63 is clear, but cluster 9 has no other \
         reference\n",
        &["\n  wrong marks: 1\n    L2 entry 0 below L1 entry 1: bit 63 is clear, but"],
        &["\"finding\": \"mark\", \"l1_index\": 1, \"l2_index\": 0, \"entry\": "],
    );
    // Without snapshots too; of the snapshot's own entries it is not looked at.
    let mut made = copied();
    made.put64(TABLE, USED | DATA as u64);
    assert_eq!(checked(&made.bytes).0, Verdict::Sound);
    let text = Copy::with(&made.bytes, "snapshot-mark").run("check IMAGE").text;
    assert_eq!(text, "sound\n");
}

#[test]
fn counts_and_sharing_in_words() {
    let mut made = kept(2);
    made.set_count(5, 2);
    damaged(
        "damaged-short",
        &made,
        "damaged: cluster 5 (at 2560) has 3 references, but its stored count is 2\n",
        &["\n  short clusters: 5\n", "The disk's bytes are all there: a program that writes may"],
        &["\"finding\": \"short\", \"cluster\": 5", "\"marks\": []"],
    );
    let mut made = copied();
    made.put64(TABLE + 8, DATA as u64);
    damaged(
        "damaged-shared",
        &made,
        "damaged: cluster 5 (at 2560) is used for two things, or twice for one\n",
        &["\n  shared clusters: 5\n"],
        &[
            "\"finding\": \"shared\", \"cluster\": 5",
            "\"shared\": [{\"cluster\": 5, \"number\": 1}]",
        ],
    );
}

/// More than are shown.
#[test]
fn many_wrong_marks() {
    let mut made = ::made::plan::bench_image();
    let table = made.add_table(0).unwrap();
    let mut rng = Rng::new(1);
    (0..10).for_each(|index| {
        assert!(made.add_entry(table, index, ::made::image::Kind::Data, &mut rng));
        made.put64(table + 8 * index, made.get64(table + 8 * index) & !USED);
    });
    let copy = Copy::with(&made.bytes, "snapshot-marks");
    let text = copy.run("check IMAGE").text;
    assert!(
        text.contains("\n  wrong marks: 10\n") && text.contains("\n    and 2 more\n"),
        "{text}"
    );
    assert_eq!(text.matches("\n    L2 entry ").count(), 8, "{text}");
    assert_eq!(copy.run("check IMAGE --json").text.matches("\"references\": 1,").count(), 11);
}
