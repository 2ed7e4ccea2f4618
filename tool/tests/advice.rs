//! Every command that is advised and needs no qemu, run as it stands: no byte
//! is lost. `interop/advised.tsv` lists all commands and the test of each.

mod common;

use std::collections::BTreeSet;
use std::fs;
use std::path::Path;
use std::process::Command;

use common::drive::Random;
use common::kept::{copied, of_qemu};
use common::made::{guest_by_tables, made, names_past, over, put64, snapshots_by_tables, Made};
use common::{bench_image, images, Copy};
use qcow2_core::Verdict;
use qstore::backing::Backing;
use qstore::obstacles;
use qstore::sentences::commands::Commands;

/// A backing file that is given.
const BACKING: &str = "/beneath/b.raw";

/// The commands between backquotes.
fn commands(text: &str) -> Vec<String> {
    text.split('`').skip(1).step_by(2).map(String::from).collect()
}

/// A command without its names and figures, as the list has it.
fn kind(command: &str, image: &Path) -> String {
    let image = image.to_str().unwrap();
    let named = command.replace(&format!("{image}.new"), "NEW").replace(image, "IMAGE");
    let named = named.replace(BACKING, "BACKING");
    let named =
        named.replace(" -f qcow2 -O", " -f F -O").replace("--salvage -f F", "--salvage -f qcow2");
    let named = named.replace(" -f qcow2 -F", " -f F -F");
    let mut words: Vec<String> = named.split(' ').map(String::from).collect();
    for index in 1..words.len() {
        let last = words[1] == "resize" && index + 1 == words.len();
        if words[index - 1] == "--backing" {
            words[index] = "BACKING".into();
        }
        if words[index - 1] == "-s" || last || words[1] == "extend" && index == 3 {
            words[index] = words[index].trim_end_matches(|it: char| it.is_ascii_digit()).into();
            words[index].push('N');
        }
    }
    words.join(" ")
}

/// The kinds in the list that this test has to meet.
fn listed(test: &str) -> BTreeSet<String> {
    let text = fs::read_to_string(images().join("../interop/advised.tsv")).unwrap();
    let rows = text.lines().map(|line| line.split_once('\t').expect("two fields"));
    rows.filter(|row| row.1.ends_with(test)).map(|row| row.0.into()).collect()
}

fn sh(command: &str) {
    let program = env!("CARGO_BIN_EXE_qstore");
    let command = match command.strip_prefix("qstore ") {
        Some(rest) => format!("{program} {rest}"),
        None => command.into(),
    };
    let output = Command::new("sh").args(["-ec", &command]).output().expect("sh");
    assert!(output.status.code().is_some_and(|code| code < 3), "{command}: {output:?}");
}

/// Runs a command; the file before and after it: what was cut off is zeros that
/// nothing names, what was added is zeros, and at most header_length is another, with
/// what is then no longer the header's.
fn loses_nothing(copy: &Copy, command: &str) {
    let before = copy.bytes();
    sh(command);
    let after = copy.bytes();
    if command.starts_with("qstore extend ") {
        return nothing_is_overwritten(&before, &after);
    }
    let both = before.len().min(after.len());
    assert!(before[..103] == after[..103] && before[108..both] == after[108..both]);
    if before[103..108] != after[103..108] {
        assert_eq!(before[103..112], [112, 0, 0, 0, 0, 0, 0, 0, 0]);
        assert!([[104, 0, 0, 0, 0], [104, 0x68, 3, 0xF8, 0x57]]
            .contains(&after[103..108].try_into().unwrap()));
    }
    assert!(before[both..].iter().chain(&after[both..]).all(|&byte| byte == 0));
    assert!(after.len() >= before.len() || !names_past(&before, after.len()));
    nothing_reads_otherwise(&before, &after);
}

/// Only zeros get other bytes.
fn nothing_is_overwritten(before: &[u8], after: &[u8]) {
    assert!(after.len() >= before.len());
    assert!(before.iter().zip(after).all(|(&before, &after)| before == 0 || before == after));
    nothing_reads_otherwise(before, after);
}

fn nothing_reads_otherwise(before: &[u8], after: &[u8]) {
    assert!(guest_by_tables(before) == guest_by_tables(after));
    assert!(snapshots_by_tables(before) == snapshots_by_tables(after));
}

/// Heeds the first refusal until there is none; the numbers met.
fn heed(copy: &Copy, line: &str, input: &[u8], met: &mut BTreeSet<String>) -> Vec<u32> {
    let mut numbers = Vec::new();
    loop {
        let answer = copy.feed(line, input);
        let Some(rest) = answer.error.split("refused (").nth(1) else { return numbers };
        numbers.push(rest.split(')').next().unwrap().parse().unwrap());
        assert!(numbers.len() < 5, "{}", answer.error);
        for command in commands(&answer.error) {
            assert!(!command.contains("qemu"), "{command}");
            met.insert(kind(&command, &copy.path));
            loses_nothing(copy, &command);
        }
    }
}

/// An image of 512-byte clusters with 300 clusters, and some data.
fn with_data() -> Made {
    let mut made = made(3, 9, 300, 1 << 20);
    for offset in [0, 5000, 100_000, 900_000] {
        let data = [offset as u8 | 1; 50];
        let outcome = qcow2_core::write(&mut made.image, &[], offset, &data, u64::MAX);
        assert!(matches!(outcome, qcow2_core::Outcome::Finished(_)));
    }
    made
}

#[test]
fn what_is_advised_loses_no_byte() {
    let mut met = BTreeSet::new();
    let mut case = |name: &str, image: &[u8], line: &str, input: &[u8], numbers: &[u32]| {
        let copy = Copy::with(image, name);
        assert_eq!(heed(&copy, line, input, &mut met), numbers, "{name}");
        let (_, given) = line.split_once(" --backing").unwrap_or_default();
        let given = if given.is_empty() { "" } else { &format!(" --backing{given}") };
        let check = copy.run(&format!("check IMAGE{given}"));
        assert!([0, 3].contains(&check.exit), "{name}: {}", check.text);
    };
    let Made { image, block_at, .. } = with_data();
    let mut as_qemu_makes_it = image.clone();
    as_qemu_makes_it[103] = 112;
    as_qemu_makes_it.truncate(block_at + 30 * 512 + 100);
    put64(&mut as_qemu_makes_it, 512 + 8, 0);
    case("advice-made", &as_qemu_makes_it, "check IMAGE", &[], &[5, 6]);
    // The same over a backing file.
    let beneath = Copy::with(&[1; 5000], "advice-beneath");
    over(&mut as_qemu_makes_it, b"b.raw", Some(b"raw"));
    let line = format!("check IMAGE --backing {}", beneath.path.to_str().unwrap());
    case("advice-over", &as_qemu_makes_it, &line, &[], &[5, 6]);
    // As qemu makes it, with a snapshot.
    let mut with_snapshot = of_qemu().0;
    with_snapshot[103] = 112;
    with_snapshot.push(0);
    case("advice-snapshot", &with_snapshot, "check IMAGE", &[], &[5, 6]);
    // Clusters 256 and up have no counts: zeros that nothing names.
    let mut lengthened = image.clone();
    put64(&mut lengthened, 512 + 8, 0);
    case("advice-lengthened", &lengthened, "check IMAGE", &[], &[10]);
    // The same over a backing file.
    over(&mut lengthened, b"b.raw", Some(b"raw"));
    case("advice-lengthened-over", &lengthened, &line, &[], &[10]);
    let mut block_past_end = image.clone();
    block_past_end.truncate(200 * 512);
    case("advice-past-end", &block_past_end, "check IMAGE", &[], &[10]);
    case("advice-room", &bench_image(), "write IMAGE 300", &[9; 9000], &[14]);
    case("advice-counts", &image, "write IMAGE 300", &[9; 200_000], &[14]);
    // Of a damaged one the zeros that have no counts can be cut off.
    let mut damaged = image.clone();
    put64(&mut damaged, 512 + 8, 0);
    damaged[block_at + 3] = 0;
    let copy = Copy::with(&damaged, "advice-damaged");
    assert_eq!(heed(&copy, "check IMAGE", &[], &mut met), [10]);
    assert_eq!(copy.run("check IMAGE").exit, 2);
    let copy = Copy::of("51-entry-l2-bit63-no-place.qcow2", "advice-entry");
    let entry = copy.run("read IMAGE 15360 1").error;
    let check = commands(&entry).into_iter().find(|command| command.contains("qstore")).unwrap();
    met.insert(kind(&check, &copy.path));
    let before = copy.bytes();
    sh(&check);
    assert!(copy.bytes() == before);
    assert_eq!(met, listed("advice.rs"));
}

/// The trial in which 272,384 guest bytes were cut off.
#[test]
fn a_lost_table_entry_cuts_nothing_off() {
    let Made { mut image, block_at, .. } = made(3, 9, 1024, 1 << 20);
    for offset in (0..350_000).step_by(512) {
        _ = qcow2_core::write(&mut image, &[], offset, &[7; 512], u64::MAX);
    }
    let name = Path::new("a");
    let lost = |image: &[u8], index: usize| {
        let mut bytes = image.to_vec();
        put64(&mut bytes, 512 + 8 * index, 0);
        let length = bytes.len() as u64;
        let found = obstacles::of(name, &mut bytes, length, &Backing::default());
        assert_eq!((found.len(), found[0].number), (1, 10));
        commands(&found[0].advice)
    };
    // Data, or one byte that is not zero, or a name that nothing else refers to.
    for index in 0..3 {
        assert!(lost(&image, index)[0].starts_with("qemu-img convert "), "entry {index}");
    }
    assert_eq!(lost(&image, 3), ["qstore extend a 524288"]);
    // One byte where nothing is stored is left alone, one where the block goes is not
    // overwritten, but for what a run that was cut leaves.
    let last = image.len() - 1;
    for (at, byte) in [(last, 1), (393_217, 1)] {
        image[at] = byte;
        assert_eq!(lost(&image, 3), ["qstore extend a 524288"]);
        image[at] = 0;
    }
    for (at, byte) in [(393_216, 1), (393_217, 2), (393_218, 1), (393_216 + 511, 1)] {
        image[at] = byte;
        assert!(lost(&image, 3)[0].starts_with("qemu-img convert "), "byte {at}");
        image[at] = 0;
    }
    // Of a damaged one the rest can be cut off, if it is zeros.
    let count = std::mem::replace(&mut image[block_at + 3], 0);
    assert_eq!(lost(&image, 3), ["truncate -s 393216 a"]);
    image[last] = 1;
    assert!(lost(&image, 3)[0].starts_with("qemu-img convert "));
    (image[last], image[block_at + 3]) = (0, count);
    for at in [95, 104, 112] {
        let mut featured = image.clone();
        featured[at] = 1;
        assert!(lost(&featured, 3)[0].starts_with("qemu-img convert "), "byte {at}");
    }
    // An L2 entry past the disk's end that names the last cluster.
    let Made { l1_at, .. } = made(3, 9, 1024, 1 << 20);
    let l2_at = common::made::get64(&image, l1_at) as usize & 0x00FF_FFFF_FFFF_FE00;
    put64(&mut image, l2_at + 8, 1 << 63 | (last as u64 - 511));
    assert!(lost(&image, 3)[0].starts_with("qemu-img convert "));
}

/// Whatever is wrong with an image, what is advised loses nothing.
#[test]
fn advice_on_any_image() {
    let mut random = Random(11);
    let bases = [
        bench_image(),
        with_data().image,
        made(2, 10, 700, 1 << 20).image,
        of_qemu().0,
        copied().bytes,
    ];
    let (mut run, mut accepted) = (BTreeSet::new(), 0);
    for round in 0..1200 {
        let mut image = bases[round % bases.len()].clone();
        spoil(&mut image, &mut random);
        let length = image.len() as u64;
        let copy = Copy::with(&image, "advice-any");
        let found = obstacles::of(&copy.path, &mut image, length, &Backing::default());
        let last = found.last().map(|one| one.number);
        let texts: Vec<String> = found.into_iter().map(|one| one.advice).collect();
        for command in commands(&texts.join(" ")) {
            if command.contains("qemu-img") || command.contains(".new") {
                continue;
            }
            loses_nothing(&copy, &command);
            run.insert(kind(&command, &copy.path));
        }
        // Where all can be done in place, it is enough. After 10 nothing is asked.
        if texts.iter().all(|text| text.contains('`') && !text.contains("qemu-img")) {
            match common::promise::verdict(&copy.bytes()) {
                Verdict::Refused(19 | 21) => assert_eq!(last, Some(10)),
                Verdict::Refused(_) => panic!("{texts:?}"),
                _ => accepted += 1,
            }
        }
    }
    assert!(run.len() >= 4 && accepted > 100, "{run:?}, {accepted}");
}

/// Spoils the header's fields, the refcount table, other entries, the length, or
/// all of them.
fn spoil(image: &mut Vec<u8>, random: &mut Random) {
    for _ in 0..1 + random.below(3) {
        match random.below(9) {
            0 => image.truncate(1600 + random.below(image.len() - 1600)),
            1 => image.resize(image.len() + random.below(200_000), 0),
            2 => image.push(random.below(3) as u8),
            3 if image[7] == 3 => image[103] = 112,
            4 => image[88 + random.below(8)] = random.below(3) as u8,
            5 => put64(image, 512 + 8 * random.below(4), 0),
            6 => {
                let at = 1024 + 8 * random.below((image.len() - 1024) / 8);
                put64(image, at, (1 << 63) | (512 * random.below(800) as u64));
            }
            7 => put64(image, 512 + 8 * random.below(4), 512 * random.below(700) as u64),
            _ => image[[15, 62, 63, 70, 79, 31, 104, 112][random.below(8)]] ^= 1,
        }
    }
}

/// Commands stand in one file alone, and each of them is in the list.
#[test]
fn the_list_of_commands_is_whole() {
    let path = Path::new("/image/a");
    let all = Commands::of(path, None);
    let made = [
        all.pad(512),
        all.append(512),
        all.shorten(512),
        all.set_length_back(),
        all.set_length_back_seen(),
        all.lengthen_disk(512),
        all.check(),
        all.extend(512),
    ];
    let made: Vec<String> = made.into_iter().chain(of_qemu_img(&all)).collect();
    let over = Commands::of(path, Some(Path::new(BACKING)));
    let made_over = of_qemu_img(&over).into_iter().chain([over.upgrade(), over.extend(512)]);
    let made_over: Vec<String> = made_over.collect();
    let kinds: BTreeSet<String> = made
        .iter()
        .chain(&made_over)
        .flat_map(|text| commands(text))
        .map(|command| kind(&command, path))
        .collect();
    let mut wanted = listed("advice.rs");
    wanted.extend(listed("advice.sh"));
    wanted.extend(listed("backing.sh"));
    assert_eq!(kinds, wanted);
    let sources = Path::new(env!("CARGO_MANIFEST_DIR")).join("src");
    for (file, text) in sources_in(&sources) {
        // Without comments and the file's own tests; a manual page is no command.
        let code = text.split("#[cfg(test)]").next().unwrap();
        let code: String = code.lines().map(|line| line.split("//").next().unwrap()).collect();
        let code = code.replace("qemu-img (1)", "");
        let own = file.ends_with("sentences/commands.rs");
        // One of them has two forms, and one is for backing files alone.
        let marks = if own { 2 * made.len() } else { 0 };
        assert_eq!(code.matches('`').count(), marks, "{file}");
        for program in ["qemu-img", "truncate -s", "dd of"] {
            assert!(own || !code.contains(program), "{file}: {program}");
        }
    }
}

/// Those that read the image as qemu does.
fn of_qemu_img(all: &Commands) -> [String; 4] {
    [all.convert("qcow2", 0), all.convert("qcow2", 512), all.salvage(), all.compare("qcow2")]
}

fn sources_in(folder: &Path) -> Vec<(String, String)> {
    let mut files = Vec::new();
    for entry in fs::read_dir(folder).unwrap() {
        let path = entry.unwrap().path();
        if path.is_dir() {
            files.extend(sources_in(&path));
        } else {
            files.push((path.to_str().unwrap().into(), fs::read_to_string(&path).unwrap()));
        }
    }
    files
}
