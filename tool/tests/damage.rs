//! All the damage that check lists, against the core: what it names first, and
//! what it names once that is taken away.

mod common;

use common::drive::Random;
use common::made::{get64, made, put64, Made};
use common::{images, Copy};
use qcow2_core::{check, Outcome, Verdict};
use qstore::damage::{bad_entries, BadRun, Damage};
use qstore::layout::Layout;
use qstore::runs::figure;

const PLACE: u64 = 0x00FF_FFFF_FFFF_FE00;

/// An image with data in several tables.
fn filled(version: u8, random: &mut Random) -> Made {
    let mut made = made(version, 9, 200, 1 << 20);
    for cluster in 0..60 {
        let offset = if cluster == 0 { 0 } else { 512 * random.below(256) as u64 };
        let outcome = qcow2_core::write(&mut made.image, &[], offset, &[5; 512], u64::MAX);
        assert!(matches!(outcome, Outcome::Finished(_)));
    }
    made
}

/// Places of all entries that the check looks at, L1 entry by L1 entry.
fn entries(made: &Made) -> Vec<usize> {
    let mut places = Vec::new();
    for l1_index in 0..32 {
        let at = made.l1_at + 8 * l1_index;
        places.push(at);
        let table = (get64(&made.image, at) & PLACE) as usize;
        if table != 0 {
            places.extend((0..64).map(|l2_index| table + 8 * l2_index));
        }
    }
    places
}

fn spoiled(entry: u64, random: &mut Random) -> u64 {
    match random.below(7) {
        0 => entry ^ 1 << 63,
        1 => entry | 1 << 62,
        2 => entry | 1 << (1 + random.below(8)),
        3 => entry | 1 << 60,
        4 => (1 << 63) | (512 * (190 + random.below(20) as u64)),
        5 => entry | 1,
        _ => 1 << 63,
    }
}

/// The bad entries that the core names one after the other, each set to 0 once
/// it was named, as L1 and L2 index.
fn named_by_the_core(mut image: Vec<u8>, layout: &Layout) -> Vec<(u64, Option<u64>)> {
    let mut named = Vec::new();
    loop {
        let at = match check(&image, &[], &mut vec![0; layout.scratch()]) {
            Verdict::BadL1(l1_index) => {
                named.push((l1_index, None));
                layout.l1_entry_at(l1_index)
            }
            Verdict::BadL2(l1_index, l2_index) => {
                named.push((l1_index, Some(l2_index)));
                layout.l2_entry_at(&image, l1_index * layout.per_table() + l2_index).unwrap()
            }
            _ => return named,
        };
        put64(&mut image, at, 0);
    }
}

fn flat(runs: &[BadRun]) -> Vec<(u64, Option<u64>)> {
    let each = |run: &BadRun| {
        let (l1_index, l2_index) = (run.l1_index, run.l2_index);
        (0..run.number).map(move |k| match l2_index {
            None => (l1_index + k, None),
            Some(first) => (l1_index, Some(first + k)),
        })
    };
    runs.iter().flat_map(each).collect()
}

#[test]
fn every_bad_entry_is_listed() {
    let mut random = Random(3);
    let mut verdicts = 0;
    for round in 0..300 {
        let mut made = filled(2 + (round % 2) as u8, &mut random);
        let places = entries(&made);
        for _ in 0..random.below(12) {
            let at = places[random.below(places.len())];
            let entry = spoiled(get64(&made.image, at), &mut random);
            put64(&mut made.image, at, entry);
        }
        let layout = Layout::of(&made.image).unwrap();
        let bad = bad_entries(&layout, &made.image);
        let named = named_by_the_core(made.image.clone(), &layout);
        assert_eq!(flat(&bad.runs), named);
        assert_eq!((bad.entries, bad.left_out), (named.len() as u64, 0));
        first_is_the_verdict(&made.image, &layout);
        verdicts += usize::from(!named.is_empty());
    }
    assert!(verdicts > 200, "{verdicts}");
}

/// The first of each list is what the core's verdict names.
fn first_is_the_verdict(image: &[u8], layout: &Layout) {
    let mut scratch = vec![0; layout.scratch()];
    let verdict = check(image, &[], &mut scratch);
    let damage = Damage::of(layout, image, verdict, &scratch);
    let first = |runs: &[(u64, u64)]| runs.first().map(|run| run.0);
    let bad = damage.bad.runs.first().map(|run| (run.l1_index, run.l2_index));
    match verdict {
        Verdict::BadL1(l1_index) => assert_eq!(bad, Some((l1_index, None))),
        Verdict::BadL2(l1_index, l2_index) => assert_eq!(bad, Some((l1_index, Some(l2_index)))),
        Verdict::Shared(cluster) => {
            assert_eq!((bad, first(&damage.shared)), (None, Some(cluster)));
        }
        Verdict::Short(cluster) => {
            assert_eq!((bad, first(&damage.shared)), (None, None));
            assert_eq!(first(&damage.short), Some(cluster));
        }
        Verdict::MarkL1(_) | Verdict::MarkL2(..) => {
            assert!(bad.is_none() && damage.shared.is_empty() && damage.short.is_empty());
            let first = &damage.marks[0];
            let named = first.l2_index.map_or(Verdict::MarkL1(first.l1_index), |l2_index| {
                Verdict::MarkL2(first.l1_index, l2_index)
            });
            assert_eq!(named, verdict);
        }
        Verdict::SnapshotBadL1(..) | Verdict::SnapshotBadL2(..) => panic!("no snapshots"),
        Verdict::Leaks(number) => {
            assert!(bad.is_none() && damage.shared.is_empty() && damage.short.is_empty());
            assert_eq!(damage.leaked.iter().map(|run| run.1).sum::<u64>(), number);
        }
        Verdict::Sound => assert!(bad.is_none() && damage.leaked.is_empty()),
        Verdict::Refused(number) => panic!("refused {number}"),
    }
}

#[test]
fn shared_short_and_leaked_clusters() {
    let mut random = Random(8);
    for round in 0..300 {
        let mut made = filled(3, &mut random);
        let places = entries(&made);
        for _ in 0..random.below(4) {
            let (from, to) = (places[random.below(65)], places[1 + random.below(64)]);
            let entry = get64(&made.image, from);
            put64(&mut made.image, to, entry);
        }
        for _ in 0..random.below(3) {
            let count = made.block_at + 2 * random.below(200) + 1;
            made.image[count] = random.below(3) as u8;
        }
        let layout = Layout::of(&made.image).unwrap();
        first_is_the_verdict(&made.image, &layout);
        lists_by_counting(&made.image, &layout, round);
    }
}

/// The lists cluster by cluster, by the scratch and the counts.
fn lists_by_counting(image: &[u8], layout: &Layout, round: usize) {
    let mut scratch = vec![0; layout.scratch()];
    let verdict = check(image, &[], &mut scratch);
    let damage = Damage::of(layout, image, verdict, &scratch);
    let listed = |runs: &[(u64, u64)], cluster: usize| {
        runs.iter().any(|run| (run.0..run.0 + run.1).contains(&(cluster as u64)))
    };
    for cluster in 0..layout.clusters {
        let stored = layout.count(image, cluster).unwrap();
        let figure = u64::from(figure(&scratch, cluster));
        assert_eq!(listed(&damage.shared, cluster), figure > 1, "{round}");
        assert_eq!(listed(&damage.short, cluster), stored < figure, "{round}");
        assert_eq!(listed(&damage.leaked, cluster), stored > figure, "{round}");
    }
}

#[test]
fn lists_of_the_command() {
    let Made { mut image, l1_at, block_at, .. } = filled(3, &mut Random(1));
    let table = (get64(&image, l1_at) & PLACE) as usize;
    let host = get64(&image, table) & PLACE;
    assert!(table != 0 && host != 0);
    (10..13).for_each(|index| put64(&mut image, table + 8 * index, 1 << 63));
    put64(&mut image, table + 8 * 20, 1 << 62 | 77);
    put64(&mut image, table + 8 * 21, 1 << 63 | host);
    put64(&mut image, l1_at + 8 * 30, 3);
    image[block_at + 2 * 199 + 1] = 1;
    image[block_at + 1] = 0;
    let copy = Copy::with(&image, "lists");
    let answer = copy.run("check IMAGE");
    assert_eq!(answer.exit, 2);
    let first = "damaged: L2 entry 10 below L1 entry 0 (guest offset 5120) is 0x8000000000000000: \
                 bit 63 is set, but no place is given\n";
    assert!(answer.text.starts_with(first), "{}", answer.text);
    for line in [
        "  bad entries: 5, 1 of them of compressed clusters\n",
        "    L2 entries 10 to 12 below L1 entry 0 (1536 bytes at guest offset 5120): bit 63 is",
        "    L2 entry 20 below L1 entry 0 (512 bytes at guest offset 10240): a compressed",
        "    L1 entry 30 (32768 bytes at guest offset 983040): a reserved bit is set (0 to 8",
        &format!("  shared clusters: {}\n", host / 512),
        "  short clusters: 0",
        ", 199\n",
        "  Keep this file for good: ",
        "Let no program write to the old one.",
    ] {
        assert!(answer.text.contains(line), "{line}: {}", answer.text);
    }
    let json = copy.run("check IMAGE --json").text;
    for member in [
        "\"compressed\": 1,",
        "{\"l1_index\": 0, \"l2_index\": 10, \"number\": 3, \"guest_offset\": 5120, \
         \"length\": 1536, \"entry\": \"0x8000000000000000\", \"fault\": \"no_place\"",
        "{\"l1_index\": 30, \"number\": 1,",
        "\"fault\": \"compressed\"",
        &format!("\"shared\": [{{\"cluster\": {}, \"number\": 1}}]", host / 512),
        "\"short\": [{\"cluster\": 0, \"number\": 1}",
        "{\"cluster\": 199, \"number\": 1}], \"marks\": [], \"runs_left_out\": 0}",
    ] {
        assert!(json.contains(member), "{member}: {json}");
    }
}

#[test]
fn long_lists_are_cut_in_text_alone() {
    let Made { mut image, l1_at, .. } = filled(3, &mut Random(1));
    let table = (get64(&image, l1_at) & PLACE) as usize;
    (0..64).step_by(2).for_each(|index| put64(&mut image, table + 8 * index, 1 << 63));
    let copy = Copy::with(&image, "long-lists");
    let text = copy.run("check IMAGE").text;
    assert_eq!(text.matches("    L2 entry ").count(), 8, "{text}");
    assert!(text.contains("    and 24 runs more\n"), "{text}");
    let json = copy.run("check IMAGE --json").text;
    assert_eq!(json.matches("\"fault\": \"no_place\"").count(), 32);
}

/// Compression is told from damage, in every answer that it stops.
#[test]
fn compressed_clusters_are_told_from_damage() {
    let Made { mut image, l1_at, .. } = filled(3, &mut Random(1));
    let table = (get64(&image, l1_at) & PLACE) as usize;
    put64(&mut image, table + 8, 1 << 62 | 5000);
    put64(&mut image, table + 16, 1 << 62 | 6000);
    let copy = Copy::with(&image, "compressed-alone");
    let check = copy.run("check IMAGE");
    assert!(check.exit == 2 && check.text.contains("To qemu they are no damage."));
    assert!(!check.text.contains("Let no program write"), "{}", check.text);
    assert!(copy.run("info IMAGE").text.contains("\nclusters compressed: 2\n"));
    assert!(copy.feed("write IMAGE 0", b"x").error.contains("To qemu they are no damage"));
    for line in ["check IMAGE", "info IMAGE", "read IMAGE 512 1", "write IMAGE 0"] {
        let json = copy.feed(&format!("{line} --json"), b"x").text;
        assert!(json.contains("\"compressed\": 2"), "{line}: {json}");
    }
    // With other damage beside it, it is damage.
    put64(&mut image, table + 24, 1 << 63);
    let copy = Copy::with(&image, "compressed-damaged");
    let check = copy.run("check IMAGE").text;
    assert!(check.contains("Let no program write") && !check.contains("no damage"), "{check}");
    assert!(!copy.feed("write IMAGE 0", b"x").error.contains("no damage"));
    let sound = images().join("03-v3-512-data.qcow2");
    let json = common::qstore(&["check", sound.to_str().unwrap(), "--json"], &[]).text;
    let none = "\"compressed\": 0, \"bad_entries\": [], \"shared\": [], \"short\": [], \
                \"leaked\": [], \"marks\": [], \"runs_left_out\": 0}";
    assert!(json.contains(none), "{json}");
}
