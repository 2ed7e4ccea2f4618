//! Snapshots: listed by info, read by id, name and number, and left alone by
//! write and discard.

mod common;

use ::made::image::Made;
use ::made::rng::Rng;
use ::made::snapshot_drive;
use common::kept::{
    by_tables, copied, kept, named, of_qemu, with_entries, Entry, DATA, GUEST, OFFSET, TABLE,
};
use common::{qstore, Answer, Copy};

/// The answer of a line that must leave the file alone.
fn unchanged(copy: &Copy, line: &str, input: &[u8]) -> Answer {
    let before = copy.bytes();
    let answer = copy.feed(line, input);
    assert!(copy.bytes() == before, "{line}");
    answer
}

fn refused(copy: &Copy, line: &str, input: &[u8], number: u32, sentence: &str) -> String {
    let answer = unchanged(copy, line, input);
    assert!(answer.exit == 1 && answer.text.is_empty(), "{line}: {}", answer.text);
    assert!(answer.error.contains(&format!("refused ({number}): ")), "{line}: {}", answer.error);
    assert!(answer.error.contains(sentence), "{line}: {}", answer.error);
    let json = unchanged(copy, &format!("{line} --json"), input);
    assert!(json.exit == 1 && json.error.is_empty(), "{line}: {}", json.error);
    assert!(json.text.contains(&format!("\"refused\": {number}, \"reason\": \"")), "{}", json.text);
    answer.error + &json.text
}

/// Three snapshots: as old qemu made them, with a size and a machine's state, and
/// with a name that would be a line of its own.
fn three() -> Made {
    let second = Entry { size: Some(65_024), state: 1 << 20, ..named("2", "before: \"x\"") };
    let third = Entry { name: b"a\nverdict: \xFF", seconds: 0, ..named("", "") };
    with_entries(&[named("1", "one"), second, third])
}

#[test]
fn info_lists_them() {
    let copy = Copy::with(&three().bytes, "snapshots-info");
    let info = copy.run("info IMAGE");
    let lines = "\nsnapshots: 3\n  \
                 #0 (id \"1\", name \"one\"): 2023-11-14 22:13:20 UTC, disk size 65536\n  \
                 #1 (id \"2\", name \"before: \\\"x\\\"\"): 2023-11-14 22:13:20 UTC, disk size \
                 65024, machine's state of 1048576 bytes\n  \
                 #2 (id \"\", name \"a\\nverdict: \u{fffd}\"): 1970-01-01 00:00:00 UTC, disk size \
                 65536\nclusters in use: ";
    assert!(info.exit == 0 && info.text.contains(lines), "{}", info.text);
    assert!(info.text.ends_with("\nverdict: sound\n"), "{}", info.text);
    let json = copy.run("info IMAGE --json").text;
    for member in [
        "\"snapshots\": 3,",
        "\"snapshot_list\": [{\"snapshot\": 0, \"id\": \"1\", \"name\": \"one\", \
         \"date\": \"2023-11-14 22:13:20 UTC\", \"seconds\": 1700000000, \"nanoseconds\": 0, \
         \"disk_size\": 65536, \"reach\": 65536, \"l1_size\": 2, \"state_size\": 0}, \
         {\"snapshot\": 1, ",
        "\"name\": \"before: \\\"x\\\"\", ",
        "\"disk_size\": 65024, \"reach\": 65536, \"l1_size\": 2, \"state_size\": 1048576}",
        "\"name\": \"a\\nverdict: \u{fffd}\", \"date\": \"1970-01-01 00:00:00 UTC\"",
    ] {
        assert!(json.contains(member), "{member}: {json}");
    }
    let none = Copy::with(&::made::plan::bench_image().bytes, "snapshots-none");
    assert!(!none.run("info IMAGE").text.contains("snapshot"));
    assert!(none.run("info IMAGE --json").text.contains("\"snapshot_list\": []"));
}

/// As far as their table can be read, whatever stands in the way of the image.
#[test]
fn info_lists_what_is_there() {
    let mut made = three();
    let at = made.snapshots_at;
    made.put32(at + 48 + 36, 1 << 20);
    let text = Copy::with(&made.bytes, "snapshots-part").run("info IMAGE").text;
    assert!(text.contains("\nsnapshots: 3\n  #0 (id \"1\", name \"one\"): "), "{text}");
    assert!(
        text.contains("\n  and 2 that cannot be listed\nrefused (21): entry 1 of the"),
        "{text}"
    );
    for (field, value) in [(68, 5 << 8), (64, 1 << 24)] {
        let mut made = three();
        made.put32(field, value);
        let text = Copy::with(&made.bytes, "snapshots-off").run("info IMAGE").text;
        assert!(text.contains("\nsnapshots: 3\n  and 3 that cannot be listed\n"), "{text}");
    }
}

#[test]
fn read_by_id_name_and_number() {
    let (image, guest) = of_qemu();
    let copy = Copy::with(&image, "snapshots-read");
    for word in ["1", "s1", "#0"] {
        let answer = unchanged(&copy, &format!("read IMAGE 0 64k --snapshot {word}"), &[]);
        assert!(answer.exit == 0 && answer.out == guest, "{word}: {}", answer.error);
        let part = copy.run(&format!("read --snapshot {word} IMAGE 1000 3000"));
        assert!(part.exit == 0 && part.out == guest[1000..4000], "{word}");
    }
    assert!(copy.run("read IMAGE 0 64k").out == common::guest("22-v3-512-snapshot.qcow2"));
    let json = copy.run("read IMAGE 1022 3 --snapshot s1 --json").text;
    let wanted = "\"snapshot\": 0, \"offset\": 1022, \"length\": 3, \"data\": \"010101\"}\n";
    assert!(json.ends_with(wanted), "{json}");
    let nothing = copy.run("read IMAGE 64k 0 --snapshot s1");
    assert!(nothing.exit == 0 && nothing.out.is_empty());
    assert!(copy.run("read IMAGE 64k 0 --snapshot s1 --json").text.contains("\"data\": \"\"}"));
}

/// An id comes before a name, a name before a number, and no name is guessed at.
#[test]
fn words_that_could_be_several() {
    let mut made =
        with_entries(&[named("1", "2"), named("2", "same"), named("3", "same"), named("4", "#0")]);
    // The first byte of each snapshot's data tells them apart.
    for (k, snapshot) in made.snapshots.clone().into_iter().enumerate() {
        let (table, data) = ((12 + k / 2 * 2) * 512, (13 + k / 2 * 2) * 512);
        if k % 2 == 0 {
            made.bytes.copy_within(TABLE..TABLE + 512, table);
            made.bytes.copy_within(DATA..DATA + 512, data);
            made.bytes[data] = 0x10 * (k as u8 + 1);
            made.put64(table, data as u64);
        }
        made.put64(snapshot.l1_entry(1), if k % 2 == 0 { table } else { TABLE } as u64);
    }
    let copy = Copy::with(&made.bytes, "snapshots-words");
    let first = |word: &str| {
        let answer = copy.run(&format!("read IMAGE {OFFSET} 1 --snapshot {word}"));
        assert_eq!(answer.exit, 0, "{word}: {}", answer.error);
        answer.out[0]
    };
    let (zeroth, other, second) = (0x10, made.bytes[DATA], 0x30);
    assert_eq!((first("1"), first("2"), first("3"), first("4")), (zeroth, other, second, other));
    assert_eq!((first("#0"), first("#1"), first("#2")), (other, other, second));
    let answer = unchanged(&copy, "read IMAGE 0 1 --snapshot same", &[]);
    assert!(answer.exit == 1 && answer.out.is_empty());
    let sentence = "snapshots '#1', '#2' are all called \"same\": name one of them by such a";
    assert!(answer.error.contains(sentence), "{}", answer.error);
    for word in ["5", "#4", "0", "Same", "#", "#+1", "#01x"] {
        let line = format!("read IMAGE 0 1 --snapshot {word}");
        let text = refused(&copy, &line, &[], 11, &format!("there is no snapshot \"{word}\", "));
        let list = "The image has #0 (id \"1\", name \"2\"), #1 (id \"2\", name \"same\"), #2 ";
        assert!(text.contains(list), "{text}");
    }
    let image = copy.path.to_str().unwrap();
    let empty = qstore(&["read", image, "0", "1", "--snapshot", ""], &[]);
    assert!(empty.error.contains("there is no snapshot \"\""), "{}", empty.error);
    let none = Copy::with(&::made::plan::bench_image().bytes, "snapshots-none-read");
    refused(&none, "read IMAGE 0 1 --snapshot 1", &[], 11, "The image has no snapshots.");
}

/// The number is the header's before all; then nothing is written unless the
/// whole range can be read.
#[test]
fn reads_that_are_refused() {
    let copy = Copy::with(&kept(1).bytes, "snapshots-range");
    let word = "--snapshot #0";
    let past = "1 bytes at guest offset 65536 of snapshot \"#0\" run past what its L1 table \
                reaches, 65536";
    refused(&copy, &format!("read IMAGE 64k 1 {word}"), &[], 11, past);
    let text = refused(&copy, &format!("read IMAGE 65535 2 {word}"), &[], 11, "2 bytes at guest");
    assert!(text.contains("From 65535 on there are 1 bytes."), "{text}");
    for line in ["read IMAGE 65537 0", "read IMAGE 1 0xffffffffffffffff", "read IMAGE 1T 1"] {
        refused(&copy, &format!("{line} {word}"), &[], 11, "reaches, 65536");
    }
    let mut made = kept(1);
    made.put64(made.snapshots_at, 77);
    let broken = Copy::with(&made.bytes, "snapshots-broken");
    for word in ["#0", "none"] {
        refused(&broken, &format!("read IMAGE 0 1 --snapshot {word}"), &[], 21, "stands at 77");
    }
    // Of the snapshot alone: a table of its own with a bad entry.
    for (entry, number, sentence) in [
        (
            3,
            12,
            "L2 entry 5 below L1 entry 1 of snapshot 0 (guest offset 35328) is 0x0000000000000003",
        ),
        (1 << 62, 13, "L2 entry 5 below L1 entry 1 of snapshot 0 (guest offset 35328) is 0x4"),
    ] {
        let mut made = copied();
        made.put64(TABLE + 8 * 5, entry);
        let copy = Copy::with(&made.bytes, "snapshots-entry");
        refused(&copy, "read IMAGE 0 64k --snapshot #0", &[], number, sentence);
        assert_eq!(copy.run("read IMAGE 0 64k").exit, 0);
        assert_eq!(copy.run("read IMAGE 0 35328 --snapshot #0").exit, 0);
        assert_eq!(copy.run("read IMAGE 35840 5 --snapshot #0").exit, 0);
    }
    let mut made = copied();
    made.put64(made.snapshots[0].l1_at, 1);
    let copy = Copy::with(&made.bytes, "snapshots-l1-entry");
    let sentence = "L1 entry 0 of snapshot 0 is 0x0000000000000001: a reserved bit";
    refused(&copy, "read IMAGE 0 1 --snapshot #0", &[], 12, sentence);
}

/// A sound or leaking image whose snapshots are not too long to be read whole.
fn usable(rng: &mut Rng) -> Made {
    loop {
        let made = snapshot_drive::usable(rng);
        let short = |l1_size: usize| l1_size << (2 * made.cluster_bits - 3) <= 1 << 22;
        if made.snapshots.iter().all(|snapshot| short(snapshot.l1_size)) {
            return made;
        }
    }
}

/// Every snapshot of random images, against the tables read by hand.
#[test]
fn reads_of_any_image() {
    let mut rng = Rng::from_env("reads of snapshots", 5);
    let mut read = 0;
    for _ in 0..60 {
        let made = usable(&mut rng);
        let copy = Copy::with(&made.bytes, "snapshots-any");
        for (k, snapshot) in made.snapshots.iter().enumerate().take(6) {
            // Names are random, so that the number may be one of them.
            let wanted = by_tables(&made.bytes, snapshot.l1_at, snapshot.l1_size);
            let length = wanted.len();
            let answer = copy.run(&format!("read IMAGE 0 {length} --snapshot #{k}"));
            assert_eq!(answer.exit, 0, "{}", answer.error);
            assert!(answer.out == wanted, "snapshot {k} of {}", made.snapshots.len());
            let past = copy.run(&format!("read IMAGE {length} 1 --snapshot #{k}"));
            assert!(past.exit == 1 && past.error.contains("refused (11)"), "{}", past.error);
            read += 1;
        }
    }
    assert!(read > 120, "{read}");
}

/// Longer than what is read at once.
#[test]
fn a_long_read() {
    let made = common::made::made(3, 16, 120, 8 << 20);
    let mut image = made.image;
    for offset in (0..6 << 20).step_by(65_536) {
        let data: Vec<u8> = (0..65_536).map(|k| (k + offset / 509) as u8).collect();
        let outcome = qcow2_core::write(&mut image, &[], offset, &data, u64::MAX);
        assert!(matches!(outcome, qcow2_core::Outcome::Finished(_)));
    }
    let mut guest = vec![0; 8 << 20];
    qcow2_core::read(&image, &[], 0, &mut guest).unwrap();
    // The snapshot's L1 table is the disk's: damaged, but it is read.
    let last = image.len() - 65_536;
    let entry = Entry { size: None, ..named("7", "whole") };
    let mut table = (made.l1_at as u64).to_be_bytes().to_vec();
    table.extend([0, 0, 0, 1, 0, 1, 0, 5]);
    table.extend([0; 24]);
    table.extend([entry.id, entry.name].concat());
    image[last..last + table.len()].copy_from_slice(&table);
    image[63] = 1;
    common::made::put64(&mut image, 64, last as u64);
    let copy = Copy::with(&image, "snapshots-long");
    let answer = copy.run("read IMAGE 5 8000001 --snapshot whole");
    assert!(answer.exit == 0 && answer.out == guest[5..8_000_006], "{}", answer.error);
    let json = copy.run("read IMAGE 5 2000001 --snapshot 7 --json").text;
    let hex: String = guest[5..2_000_006].iter().map(|byte| format!("{byte:02x}")).collect();
    assert!(json.ends_with(&format!("\"data\": \"{hex}\"}}\n")));
}

/// Number 22, told by who holds what.
#[test]
fn what_a_snapshot_holds_is_left() {
    let lines = [format!("write IMAGE {}", OFFSET + 3), format!("discard IMAGE {OFFSET} 512")];
    let copy = Copy::with(&three().bytes, "held-table");
    for line in &lines {
        let text =
            refused(&copy, line, b"x", 22, "the L2 table of guest offset 32768 (at 2048) is held");
        for part in [
            "is held by snapshots #0 (id \"1\", name \"one\"), #1 (id \"2\", ",
            "; nothing was changed",
            "Make a new image, of whole clusters: `qemu-img convert -f qcow2 ",
            "The new one lacks the snapshots (it has the active disk alone): keep the old one",
            "Or delete the snapshots that hold it, if they are no longer wanted, with qemu-img \
             snapshot -d: their bytes are then lost, and the disk's can be changed.",
            "\"held_by\": [0, 1, 2]}",
        ] {
            assert!(text.contains(part), "{part}: {text}");
        }
    }
    // A table of the disk's own, with data that the snapshot has too.
    let mut made = copied();
    made.put64(8 * 512, DATA as u64);
    made.set_count(5, 2);
    made.set_count(9, 0);
    let copy = Copy::with(&made.bytes, "held-data");
    for line in &lines {
        let sentence = "the cluster of guest offset 32768 (at 2560) is held by snapshot #0 (id ";
        let text = refused(&copy, line, b"x", 22, sentence);
        assert!(text.contains("\"held_by\": [0]}"), "{text}");
    }
    // The first that is held is named; nothing before it is written either.
    let text = refused(&copy, "write IMAGE 32000", &[1; 1000], 22, "guest offset 32768 (at 2560)");
    assert!(!text.contains("refused (14)"), "{text}");
    refused(&copy, "discard IMAGE 0 64k", &[], 22, "guest offset 32768 (at 2560)");
    // What lies beside it is the disk's alone.
    assert_eq!(copy.feed(&format!("write IMAGE {}", OFFSET + 512), b"beside").exit, 0);
    assert_eq!(copy.run("check IMAGE").text, "sound\n");
    assert_eq!(copy.run(&format!("discard IMAGE {} 512", OFFSET + 512)).exit, 0);
    assert_eq!(copy.run("check IMAGE").text, "sound\n");
}

/// Where room is missing too, appending it would not be enough.
#[test]
fn held_and_no_room() {
    let mut made = kept(1);
    (0..16).for_each(|cluster| made.set_count(cluster, made.count(cluster).max(1)));
    let copy = Copy::with(&made.bytes, "held-room");
    let length = usize::try_from(OFFSET).unwrap() + 1;
    let text = refused(&copy, "write IMAGE 0", &vec![1; length], 14, "held by a snapshot (22)");
    assert!(text.contains("Or delete the snapshots that hold it"), "{text}");
    assert!(text.contains("The new one is given room for the write."), "{text}");
    assert!(!text.contains("Append "), "{text}");
    let text = refused(&copy, "write IMAGE 0", &[1; 100], 14, "the write needs 2 free clusters");
    assert!(text.contains("Append ") && !text.contains("held by"), "{text}");
}

/// Whatever is asked, of whatever image: a snapshot's bytes stay, and what is
/// refused with 22 says who holds it.
#[test]
fn any_change_beside_snapshots() {
    let mut rng = Rng::from_env("changes beside snapshots", 9);
    let (mut held, mut done) = (0, 0);
    for _ in 0..40 {
        let made = usable(&mut rng);
        let copy = Copy::with(&made.bytes, "held-any");
        let kept = |image: &[u8]| -> Vec<Vec<u8>> {
            made.snapshots.iter().map(|one| by_tables(image, one.l1_at, one.l1_size)).collect()
        };
        let (before, clusters) = (kept(&made.bytes), made.guest_clusters());
        for _ in 0..6 {
            let mut guests = made.mapped();
            guests.resize(guests.len() + 3, rng.below(clusters.max(1)));
            let guest = rng.pick(&guests);
            let line = match rng.once_in(2) {
                true => format!("write IMAGE {}", guest << made.cluster_bits),
                false => format!("discard IMAGE {} {}", guest << made.cluster_bits, made.cluster()),
            };
            let answer = copy.feed(&format!("{line} --json"), b"new");
            if answer.text.contains("\"refused\": 22") {
                assert!(answer.text.contains("is held by snapshot"), "{}", answer.text);
                held += 1;
            }
            done += usize::from(answer.exit == 0);
            let after = copy.bytes();
            assert!(kept(&after) == before, "{line}: {}", answer.text);
        }
        assert_ne!(copy.run("check IMAGE").exit, 2);
    }
    assert!(held > 20 && done > 60, "{held} {done}");
}

/// Leaks beside snapshots go, and nothing else changes.
#[test]
fn repair_beside_snapshots() {
    let mut rng = Rng::from_env("repairs beside snapshots", 3);
    let mut repaired = 0;
    while repaired < 25 {
        let mut made = snapshot_drive::sound(&mut rng);
        let sound = made.bytes.clone();
        for _ in 0..1 + rng.below(6) {
            let cluster = rng.index(made.clusters());
            let more = made.count(cluster) + 1 + rng.below(3);
            made.set_count(cluster, more.min(made.most()));
        }
        if made.bytes == sound || made.clearing() != 0 {
            continue;
        }
        let copy = Copy::with(&made.bytes, "repair-kept");
        assert_eq!(copy.run("check IMAGE").exit, 3);
        let answer = copy.run("repair IMAGE");
        assert!(answer.exit == 0 && answer.text.starts_with("repaired: "), "{}", answer.error);
        assert!(copy.bytes() == sound);
        assert_eq!(copy.run("check IMAGE").text, "sound\n");
        repaired += 1;
    }
    let made = kept(2);
    assert_eq!(GUEST * 512, OFFSET);
    let copy = Copy::with(&made.bytes, "repair-sound");
    assert_eq!(unchanged(&copy, "repair IMAGE", &[]).text, "sound, nothing to repair\n");
}
