//! The check in portions: what it says in the end, on the way, and of an image that is
//! changed meanwhile. The file that keeps it: portion_file.rs.

mod common;

use std::fs::{self, File};

use ::made::damage;
use ::made::image::Made;
use ::made::portions::{any, change, l1_sizes, refused, usable};
use ::made::rng::Rng;
use common::kept::kept;
use common::made::{made, put64};
use common::portions::{place, Checked};
use common::{bench_image, images, manifest, Answer};
use qcow2_core::{check, check_portion, CheckBytes, Portion, Verdict};
use qstore_sys::share;

/// What the check says, without what is said of its having been cut.
fn whole_of(answer: &Answer) -> (i32, String) {
    (answer.exit, answer.text.replacen(", \"finished\": true", "", 1))
}

/// The scratch that the check leaves.
fn scratch(image: &[u8], backing: &[u8]) -> Vec<u8> {
    let mut scratch = vec![0; 2 * (image.len() >> image[23])];
    check(image, backing, &mut scratch);
    scratch
}

/// Cuts the check of an image: it ends as the whole one, in no more portions than it
/// has to.
fn cut(checked: &Checked, entries: u64, more: &str) {
    let image = checked.image.bytes();
    let total: usize = l1_sizes(&image).iter().sum();
    for more in [more.to_string(), format!("{more} --json")] {
        let whole = checked.whole(&more);
        let (told, portions) = checked.to_the_end(entries, &more);
        assert_eq!(whole_of(&told), whole_of(&whole), "{more} {}", told.error);
        assert_eq!(told.error, whole.error);
        assert_eq!(portions as u64, (total as u64).div_ceil(entries).max(1));
        let kept = checked.kept();
        assert!(!kept.changed);
        if more.is_empty() {
            let backing = checked.backing.as_ref().map_or(Vec::new(), |file| file.bytes());
            assert!(kept.scratch == scratch(&image, &backing));
        }
        fs::remove_file(&checked.state).unwrap();
    }
}

#[test]
fn images_of_qemu() {
    for row in manifest() {
        let image = fs::read(images().join(&row.file)).unwrap();
        let checked = Checked::with(&image, "portions-of-qemu");
        match checked.whole("").exit {
            1 => refused_as_whole(&checked),
            _ => [1, 3, 1000].iter().for_each(|&entries| cut(&checked, few(&image, entries), "")),
        }
    }
    let checked = Checked::with(&kept(2).bytes, "portions-kept");
    (1..=7).for_each(|entries| cut(&checked, entries, ""));
    let checked = Checked::with(&kept(2).bytes[..8000], "portions-mended");
    assert!(checked.portion("").error.contains("refused (5)") && !checked.state.exists());
    (1..=7).for_each(|entries| cut(&checked, entries, "--as-if-mended"));
}

/// So many entries, or more where the portions would be more than ten.
fn few(image: &[u8], entries: u64) -> u64 {
    entries.max(l1_sizes(image).iter().sum::<usize>() as u64 / 9)
}

/// A refused image: the file is not made, and one that is there is left alone.
fn refused_as_whole(checked: &Checked) {
    let whole = checked.whole("");
    for more in ["", "--entries 0", "--entries 1"] {
        let answer = checked.portion(more);
        assert_eq!((answer.exit, &answer.error), (1, &whole.error));
        assert!(answer.text.is_empty() && !checked.state.exists());
    }
}

/// Images of every kind, damaged too, over backing files and with snapshots.
#[test]
fn any_images() {
    let (mut rng, mut seen) = (Rng::new(12), [0; 5]);
    for _ in 0..250 {
        let made = any(&mut rng);
        let checked = Checked::over(&made.bytes, &made.backing, "portions-any");
        let exit = checked.whole("").exit;
        seen[exit as usize] += 1;
        if exit == 1 {
            refused_as_whole(&checked);
            continue;
        }
        let total = l1_sizes(&made.bytes).iter().sum::<usize>() as u64;
        let some = 1 + rng.below(4);
        let entries = rng.pick(&[some, 1 + total / 3, total.max(1), u64::MAX]);
        cut(&checked, few(&made.bytes, entries), "");
    }
    assert!(seen.iter().take(4).all(|&seen| seen > 10), "{seen:?}");
}

#[test]
fn how_far_it_is() {
    let mut made = kept(2);
    let checked = Checked::with(&made.bytes, "portions-how-far");
    let is = |answer: Answer, text: &str| {
        assert_eq!((answer.exit, answer.text.as_str(), answer.error.as_str()), (4, text, ""));
    };
    let on = |reached: &str, left: u32| {
        let line = format!("not finished: {reached}; {left} of 6 L1 entries are left\n");
        (line.clone(), line + "  The same command goes on.\n")
    };
    is(checked.portion("--entries 0"), &on("not begun", 6).0);
    assert!(!checked.state.exists());
    is(checked.portion("--entries 1"), &on("up to L1 entry 0", 5).1);
    is(checked.portion("--entries 0"), &on("up to L1 entry 0", 5).0);
    is(checked.portion("--entries 0x1"), &on("up to L1 entry 1", 4).1);
    is(checked.portion("--entries 1"), &on("up to L1 entry 0 of snapshot 0", 3).1);
    is(checked.portion("--entries 2"), &on("up to L1 entry 0 of snapshot 1", 1).1);
    let json = checked.portion("--entries 0 --json");
    let members = "\"finished\": false, \"last\": {\"l1_index\": 0, \"snapshot\": 1}, \
                   \"entries_left\": 1, \"entries\": 6, \"bad_entry\": null}\n";
    assert!(json.exit == 4 && json.text.ends_with(members), "{}", json.text);
    assert_eq!(checked.portion("--entries 1k").text, "sound\n");

    made.put64(made.snapshots[0].l1_at, 1);
    made.put64(4 * 512 + 8 * 9, 1 << 62);
    fs::write(&checked.image.path, &made.bytes).unwrap();
    fs::remove_file(&checked.state).unwrap();
    let met = "  A bad entry was met: L2 entry 9 below L1 entry 1.\n";
    let text = on("up to L1 entry 1", 4).0 + met;
    is(checked.portion("--entries 2"), &(text.clone() + "  The same command goes on.\n"));
    is(checked.portion("--entries 0"), &text);
    let json = checked.portion("--entries 3 --json").text;
    assert!(json.ends_with("\"bad_entry\": {\"l1_index\": 1, \"l2_index\": 9}}\n"), "{json}");
    let mut numbers = checked.kept();
    numbers.state = CheckBytes::of_numbers([1, 2, 1, 2, 1, 0, 0]);
    checked.keep(&numbers);
    let text = checked.portion("--entries 0").text;
    assert!(text.ends_with("  A bad entry was met: L1 entry 0 of snapshot 0.\n"), "{text}");
}

/// Without --entries a run goes on to the end, from wherever the check is.
#[test]
fn all_at_once() {
    let checked = Checked::with(&kept(3).bytes, "portions-all");
    for first in 0..=8 {
        _ = fs::remove_file(&checked.state);
        assert_eq!(
            checked.portion(&format!("--entries {first}")).exit,
            if first < 8 { 4 } else { 0 }
        );
        let answer = checked.portion("");
        assert_eq!((answer.exit, answer.text.as_str()), (0, "sound\n"));
    }
}

/// A disk of no bytes has no L1 entry: the first portion is the last.
#[test]
fn no_entries() {
    let checked = Checked::with(&made(2, 9, 16, 0).image, "portions-none");
    let text = checked.portion("--entries 0").text;
    assert_eq!(text, "not finished: not begun; 0 of 0 L1 entries are left\n");
    assert_eq!(checked.portion("--entries 1").text, "sound\n");
}

/// The verdict again, from the file as it is, with a note; and never for other bytes.
#[test]
fn after_the_end() {
    let mut image = bench_image();
    image[1024 + 2 * 9 + 1] = 1;
    let checked = Checked::with(&image, "portions-after");
    let whole = checked.whole("");
    let (told, _) = checked.to_the_end(1, "");
    assert_eq!((told.exit, &told.text, told.error.as_str()), (3, &whole.text, ""));
    let (kept, before) = (checked.kept(), place(&checked.state));
    for more in ["", "--entries 0", "--entries 1"] {
        let again = checked.portion(more);
        assert_eq!((again.exit, &again.text), (3, &whole.text));
        let note = format!(
            "this check had ended already, on {}, for the bytes that the image still has; remove \
             {:?} to begin a new one",
            kept.date(),
            checked.state
        );
        assert!(again.error.ends_with(&format!(": note: {note}\n")), "{}", again.error);
        let json = checked.portion(&format!("{more} --json"));
        assert!(json.exit == 3 && json.error.is_empty());
        let end = "\"finished\": true, \"notes\": [\"this check had ended already, on ";
        assert!(json.text.contains(end), "{}", json.text);
    }
    // A guest byte, a count, and what is free.
    for at in [8191, 1024, 5000] {
        let mut other = image.clone();
        other[at] ^= 1;
        fs::write(&checked.image.path, &other).unwrap();
        for more in ["", "--entries 0", "--entries 1"] {
            let answer = checked.portion(more);
            assert!(answer.exit == 1 && answer.text.is_empty());
            let said = format!("ended on {} and said: leaks 1. The image has been", kept.date());
            assert!(answer.error.contains(&said), "{}", answer.error);
            assert!(answer.error.ends_with("\n  Remove the file to begin a new check.\n"));
        }
    }
    assert!(place(&checked.state) == before && checked.kept() == kept);
    fs::write(&checked.image.path, &image).unwrap();
    assert_eq!(checked.portion("").exit, 3);
    fs::remove_file(&checked.state).unwrap();
    assert_eq!(checked.portion("--entries 1").exit, 4);
}

const CHANGED: &str = ": note: the image was changed between two portions, each of which judges";

fn exit_of(answer: Portion) -> i32 {
    match answer {
        Portion::More => 4,
        Portion::Told(Verdict::Sound) => 0,
        Portion::Told(Verdict::Leaks(_)) => 3,
        Portion::Told(_) => 2,
        Portion::Refused(_) => 1,
    }
}

/// Images that are changed at will between portions: each portion is the core's for the
/// bytes that it finds, what is refused or no longer this image leaves the file alone,
/// and a note says that there was a change.
#[test]
fn images_that_change() {
    let (mut rng, mut seen) = (Rng::new(13), [0; 5]);
    for _ in 0..250 {
        let original = usable(&mut rng);
        let checked = Checked::over(&original.bytes, &original.backing, "portions-change");
        let mut made = original.clone();
        let (mut state, mut figures) = (CheckBytes::NEW, vec![0; original.scratch()]);
        let (mut last, mut changed) = (None, false);
        for _ in 0..8 {
            let may = 1 + rng.below(3);
            fs::write(&checked.image.path, &made.bytes).unwrap();
            let before = place(&checked.state);
            let answer = checked.portion(&format!("--entries {may}"));
            seen[answer.exit as usize] += 1;
            if shape(&made) == shape(&original) {
                let core = check_portion(&made.bytes, &made.backing, &mut state, &mut figures, may);
                assert_eq!(answer.exit, exit_of(core), "{}", answer.error);
                if !matches!(core, Portion::Refused(_)) {
                    changed |= last.replace(made.bytes.clone()).is_some_and(|it| it != made.bytes);
                    assert_eq!(answer.error.contains(CHANGED), changed, "{}", answer.error);
                    assert!(checked.kept().state == state && checked.kept().scratch == figures);
                }
            } else {
                assert_eq!(answer.exit, 1);
            }
            if answer.exit == 1 {
                assert_eq!(place(&checked.state), before, "{}", answer.error);
            } else if answer.exit != 4 {
                break;
            }
            made = match rng.below(6) {
                0 => refused(&original, &mut rng),
                1..=2 => changed_by(&original, &mut rng),
                3 => original.clone(),
                _ => made,
            };
        }
    }
    assert!(seen.iter().all(|&seen| seen > 10), "{seen:?}");
}

fn changed_by(original: &Made, rng: &mut Rng) -> Made {
    let mut made = original.clone();
    match rng.once_in(2) {
        true => rng.pick(&damage::ALL)(&mut made, rng),
        false => change(&mut made, original, rng),
    }
    made.backing.clone_from(&original.backing);
    made
}

/// What has to stay: the length, and the size of clusters.
fn shape(made: &Made) -> (usize, u8) {
    (made.bytes.len(), made.bytes.get(23).copied().unwrap_or(0))
}

/// A bad entry that was mended once it was met is still what the check found, in words
/// that hold; advice that rests on damage is not given.
#[test]
fn entries_that_were_bad() {
    for (at, words) in [
        (1536, "damaged: L1 entry 0 is 0x0000000000000000: it was bad when the check met it, and"),
        (4 * 512 + 24, "damaged: L2 entry 3 below L1 entry 1 (guest offset 34304) is 0x00000000"),
    ] {
        let made = kept(0);
        let checked = Checked::with(&made.bytes, "portions-mended-entry");
        let mut bad = made.bytes.clone();
        put64(&mut bad, at, 1 << 62);
        // L1 entry 0 is taken at once, and entry 1 with all below it by the second.
        fs::write(&checked.image.path, &bad).unwrap();
        checked.portion("--entries 1");
        if at != 1536 {
            let mut kept = checked.kept();
            kept.state = CheckBytes::of_numbers([1, 0, 1, 3, 0, 1, 3]);
            checked.keep(&kept);
        }
        fs::write(&checked.image.path, &made.bytes).unwrap();
        for more in ["--entries 1", "--entries 1", "--json"] {
            let answer = checked.portion(more);
            assert_eq!(answer.exit, 2);
            assert!(answer.text.starts_with(words) || more == "--json", "{}", answer.text);
            assert!(answer.text.contains("is not any more"), "{}", answer.text);
            assert!(answer.text.contains("before 'qstore check' without --state has judged it"));
            assert!(!answer.text.contains("qemu-img"), "{}", answer.text);
            assert!(answer.error.contains(CHANGED) || more == "--json", "{}", answer.error);
        }
    }
    // The tables that it was in are gone, and what stands there now is no entry.
    let mut image = kept(1).bytes;
    put64(&mut image, 1536 + 8 * 9, 1);
    let checked = Checked::with(&image, "portions-gone");
    checked.portion("--entries 1");
    for numbers in [[1, 1, 1, 2, 9, 70_000, 0], [1, 1, 1, 3, 1, 9, 400], [1, 1, 1, 2, 0, 9, 0]] {
        let mut kept = checked.kept();
        kept.state = CheckBytes::of_numbers(numbers);
        checked.keep(&kept);
        let answer = checked.portion("");
        assert!(answer.exit == 2 && answer.text.contains("is not any more"), "{}", answer.text);
    }
}

/// Another program has the image open for writing: nothing is done, unless --share says
/// so.
#[test]
fn beside_a_writer() {
    let checked = Checked::with(&kept(1).bytes, "portions-writer");
    assert_eq!(checked.portion("--entries 1").exit, 4);
    let before = place(&checked.state);
    let file = File::open(&checked.image.path).unwrap();
    [100, 101, 103, 201, 203].into_iter().for_each(|byte| share(&file, byte).unwrap());
    let answer = checked.portion("--entries 1");
    assert!(answer.exit == 1 && answer.error.contains("has it open for writing"));
    assert_eq!(place(&checked.state), before);
    let answer = checked.portion("--entries 1 --share");
    assert!(answer.exit == 4 && answer.error.contains("note: looked at without a lock"));
    assert!(answer.text.starts_with("not finished: up to L1 entry 1; 2 of 4"), "{}", answer.text);
}
