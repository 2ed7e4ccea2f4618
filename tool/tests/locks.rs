//! qemu's locks: another open file in this process is a true second holder,
//! since they belong to the open file.

mod common;

use std::fs::{self, DirEntry, File};
use std::io::{Read, Write};
use std::path::Path;
use std::process::{Child, Command, Stdio};
use std::sync::{Mutex, MutexGuard, PoisonError};
use std::time::{Duration, Instant};

use common::made::over;
use common::{bench_image, Copy, Pair};
use qstore_sys::{holder, share, share_as_process};

/// What qemu holds: 100 and up for permissions in use, 200 and up for those
/// that are not shared (0 consistent read, 1 write, 2 write unchanged, 3 resize).
const WRITER: &[u32] = &[100, 101, 103, 201, 203];
const READER: &[u32] = &[100, 201, 203];
/// A reader that shares everything (qemu's -U).
const SHARER: &[u32] = &[100];

const LOOKS: [&str; 4] = ["info IMAGE", "check IMAGE", "map IMAGE", "read IMAGE 0 1"];
const CHANGES: [&str; 4] =
    ["write IMAGE 0", "discard IMAGE 0 512", "repair IMAGE", "extend IMAGE 256k"];

/// One test at a time: a process that is being started has this one's open files
/// until it runs its program, and so holds their locks.
fn alone() -> MutexGuard<'static, ()> {
    static ONE: Mutex<()> = Mutex::new(());
    ONE.lock().unwrap_or_else(PoisonError::into_inner)
}

fn hold(copy: &Copy, bytes: &[u32]) -> File {
    let file = File::open(&copy.path).unwrap();
    bytes.iter().for_each(|&byte| share(&file, byte).unwrap());
    file
}

/// The bytes from 100 to 104 and 200 to 204 that anybody else holds.
fn held(copy: &Copy) -> Vec<u32> {
    let file = File::open(&copy.path).unwrap();
    (100..=104).chain(200..=204).filter(|&byte| holder(&file, byte).unwrap().is_some()).collect()
}

fn refused(copy: &Copy, line: &str, sentence: &str) {
    let before = copy.bytes();
    let answer = copy.feed(line, b"x");
    assert_eq!(answer.exit, 1, "{line}");
    assert!(answer.error.contains(sentence), "{line}: {}", answer.error);
    assert!(answer.error.contains("\n  End that program first"), "{line}: {}", answer.error);
    assert!(answer.text.is_empty() && copy.bytes() == before);
    let json = copy.feed(&format!("{line} --json"), b"x");
    assert!(json.exit == 1 && json.text.contains("\"failed\": \"another program has"));
}

#[test]
fn beside_a_writer() {
    let _alone = alone();
    let copy = Copy::with(&bench_image(), "beside-a-writer");
    let file = hold(&copy, WRITER);
    for line in LOOKS {
        refused(&copy, line, "has it open for writing (permission 'write')");
        assert!(copy.run(line).error.contains("with --share"));
    }
    for line in CHANGES {
        refused(&copy, line, "has it open for writing (permission 'write')");
        assert!(!copy.run(line).error.contains("--share"));
    }
    drop(file);
    for line in LOOKS.iter().chain(&CHANGES) {
        assert_eq!(copy.run(line).exit, 0, "{line}");
    }
}

/// Locks of a process, which qemu does not take.
#[test]
fn beside_another_kind_of_lock() {
    let _alone = alone();
    let copy = Copy::with(&bench_image(), "beside-another-kind");
    let file = File::open(&copy.path).unwrap();
    for byte in [101, 200] {
        share_as_process(&file, byte).unwrap();
        let wanted = format!("process {}, in a way that is not qemu's", std::process::id());
        for line in LOOKS.iter().chain(&CHANGES) {
            let answer = copy.feed(line, b"x");
            assert!(answer.exit == 1 && answer.error.contains(&wanted), "{}", answer.error);
            assert!(!answer.error.contains("for writing"), "{}", answer.error);
        }
    }
    drop(file);
    assert_eq!(copy.run("check IMAGE").exit, 0);
}

#[test]
fn beside_a_reader() {
    let _alone = alone();
    let copy = Copy::with(&bench_image(), "beside-a-reader");
    for bytes in [READER, SHARER] {
        let _file = hold(&copy, bytes);
        for line in LOOKS {
            assert_eq!(copy.run(line).exit, 0, "{line}");
        }
        for line in CHANGES {
            refused(&copy, line, "(permission 'consistent read'), and a change shares it with");
        }
    }
}

/// Each byte stands against what it should, and against nothing else.
#[test]
fn single_permissions() {
    let _alone = alone();
    let copy = Copy::with(&bench_image(), "single-permissions");
    let cases = [
        (100, None, Some("(permission 'consistent read'), and a change shares")),
        (101, Some("for writing (permission 'write')"), Some("for writing (permission 'write')")),
        (102, None, Some("(permission 'write unchanged'), and a change shares")),
        (103, Some("writing (permission 'resize')"), Some("writing (permission 'resize')")),
        (
            200,
            Some("does not share the permission 'consistent read'"),
            Some("does not share the permission 'consistent read'"),
        ),
        (201, None, Some("does not share the permission 'write'")),
        (202, None, None),
        (203, None, None),
    ];
    for (byte, look, change) in cases {
        let _file = hold(&copy, &[byte]);
        for (line, sentence) in [("check IMAGE", look), ("write IMAGE 0", change)] {
            match sentence {
                Some(sentence) => refused(&copy, line, sentence),
                None => assert_eq!(copy.run(line).exit, 0, "{line}, {byte}"),
            }
        }
    }
}

#[test]
fn shared_looks_are_never_refused() {
    let _alone = alone();
    let copy = Copy::with(&bench_image(), "shared-looks");
    let note = "looked at without a lock: another program may be changing the image, so what is \
                shown may be stale or wrong";
    for bytes in [WRITER, READER, &[100, 101, 200, 201, 202, 203], &[]] {
        let _file = hold(&copy, bytes);
        for line in LOOKS {
            let answer = copy.run(&format!("{line} --share"));
            assert_eq!(answer.exit, 0, "{line}");
            assert!(answer.error.ends_with(&format!(": note: {note}\n")), "{}", answer.error);
            let json = copy.run(&format!("{line} --share --json"));
            assert!(json.text.contains(&format!("\"notes\": [\"{note}\"]")), "{}", json.text);
        }
    }
    assert!(copy.run("check IMAGE").error.is_empty());
}

/// Ended when the test is.
struct Running(Child);

impl Drop for Running {
    fn drop(&mut self) {
        _ = self.0.kill();
        _ = self.0.wait();
    }
}

fn start(copy: &Copy, words: &[&str]) -> Running {
    let mut command = Command::new(env!("CARGO_BIN_EXE_qstore"));
    command.arg(words[0]).arg(&copy.path).args(&words[1..]);
    command.stdin(Stdio::piped()).stdout(Stdio::piped()).stderr(Stdio::null());
    Running(command.spawn().expect("qstore"))
}

/// A command that waits for its input has its locks already.
#[test]
fn a_waiting_write_keeps_others_away() {
    let _alone = alone();
    let copy = Copy::with(&bench_image(), "waiting-write");
    let mut running = start(&copy, &["write", "0"]);
    let due = Instant::now() + Duration::from_secs(20);
    let all = [100, 101, 200, 201, 202, 203];
    while held(&copy) != all && Instant::now() < due {
        std::thread::sleep(Duration::from_millis(5));
    }
    assert_eq!(held(&copy), all);
    for line in LOOKS.iter().chain(&CHANGES) {
        refused(&copy, line, "has it open for writing (permission 'write')");
    }
    assert_eq!(copy.run("check IMAGE --share").exit, 0);
    running.0.stdin.take().unwrap().write_all(b"hello").unwrap();
    assert!(running.0.wait().unwrap().success());
    assert!(held(&copy).is_empty());
    assert_eq!(copy.run("read IMAGE 0 5").text, "hello");
}

/// A disk of 256 KiB, more than a pipe takes.
fn longer_disk() -> Vec<u8> {
    let mut image = bench_image();
    image[24..32].copy_from_slice(&262_144u64.to_be_bytes());
    image[39] = 8;
    image
}

#[test]
fn a_waiting_read_lets_others_look() {
    let _alone = alone();
    let copy = Copy::with(&longer_disk(), "waiting-read");
    let mut running = start(&copy, &["read", "0", "256k"]);
    running.0.stdout.as_mut().unwrap().read_exact(&mut [0]).unwrap();
    assert_eq!(held(&copy), [100, 201, 203]);
    for line in LOOKS {
        assert_eq!(copy.run(line).exit, 0, "{line}");
    }
    for line in CHANGES {
        refused(&copy, line, "(permission 'consistent read'), and a change shares it with nobody");
    }
}

#[test]
fn a_shared_look_takes_no_lock() {
    let _alone = alone();
    let copy = Copy::with(&longer_disk(), "shared-look");
    let mut running = start(&copy, &["read", "0", "256k", "--share"]);
    running.0.stdout.as_mut().unwrap().read_exact(&mut [0]).unwrap();
    assert!(held(&copy).is_empty());
    assert_eq!(copy.feed("write IMAGE 0", b"x").exit, 0);
}

/// An image over a backing file, with a table so that a discard is accepted.
fn over_backing(test: &str) -> Pair {
    let mut image = bench_image();
    over(&mut image, b"base.raw", Some(b"raw"));
    let pair = Pair::with(&image, &[7; 70_000], test);
    assert_eq!(pair.feed("write IMAGE 5000", b"x").exit, 0);
    pair
}

/// The backing file is in use: the command fails, and both files are left alone.
fn refused_beneath(pair: &Pair, line: &str, sentence: &str) {
    let before = pair.image.bytes();
    let answer = pair.feed(line, b"x");
    assert!(answer.exit == 1 && answer.text.is_empty(), "{line}: {}", answer.error);
    let about = format!(": backing file {:?}: another program ", pair.backing.path);
    assert!(answer.error.contains(&about) && answer.error.contains(sentence), "{}", answer.error);
    assert_eq!(answer.error.contains("--share"), LOOKS.contains(&line), "{}", answer.error);
    assert!(answer.error.contains("\n  End that program first"), "{}", answer.error);
    assert!(pair.image.bytes() == before);
}

#[test]
fn beside_a_writer_of_the_backing_file() {
    let _alone = alone();
    let pair = over_backing("beneath-a-writer");
    for (bytes, sentence) in [
        (WRITER, "has it open for writing (permission 'write')"),
        (&[103], "has it open for writing (permission 'resize')"),
        (&[200], "does not share the permission 'consistent read'"),
    ] {
        let _file = hold(&pair.backing, bytes);
        LOOKS.iter().chain(&CHANGES).for_each(|line| refused_beneath(&pair, line, sentence));
        for line in LOOKS {
            let answer = pair.run(&format!("{line} --share"));
            assert_eq!(answer.exit, 0, "{line}");
            assert!(answer.error.ends_with(" was read without a lock as well\n"));
        }
    }
    for line in LOOKS.iter().chain(&CHANGES) {
        assert_eq!(pair.feed(line, b"x").exit, 0, "{line}");
    }
}

/// As qemu has the backing file of a running machine open: a command on another
/// image over it disturbs nobody, a change of that image neither.
#[test]
fn beside_a_reader_of_the_backing_file() {
    let _alone = alone();
    let pair = over_backing("beneath-a-reader");
    for bytes in [READER, SHARER, &[102], &[201, 202, 203]] {
        let _file = hold(&pair.backing, bytes);
        for line in LOOKS.iter().chain(&CHANGES) {
            let answer = pair.feed(line, b"x");
            assert_eq!(answer.exit, 0, "{line}: {}", answer.error);
        }
    }
}

/// How a process has a file open: 0 for reading, 2 for writing too.
fn opened_for(process: u32, copy: &Copy) -> Vec<u32> {
    let process = Path::new("/proc").join(process.to_string());
    let files = fs::read_dir(process.join("fd")).unwrap().map(|entry| entry.unwrap());
    let is_this = |link: &DirEntry| fs::read_link(link.path()).is_ok_and(|it| it == copy.path);
    let access = |link: DirEntry| {
        let text = fs::read_to_string(process.join("fdinfo").join(link.file_name())).unwrap();
        let flags = text.lines().find_map(|line| line.strip_prefix("flags:")).unwrap();
        u32::from_str_radix(flags.trim(), 8).unwrap() & 3
    };
    files.filter(is_this).map(access).collect()
}

/// A write that waits has the image for itself, and the backing file as a reader.
#[test]
fn a_waiting_write_shares_the_backing_file() {
    let _alone = alone();
    let (pair, other) = (over_backing("beneath-waiting"), over_backing("beneath-other"));
    let backing = pair.backing.path.to_str().unwrap();
    let mut running = start(&pair.image, &["write", "0", "--backing", backing]);
    let due = Instant::now() + Duration::from_secs(20);
    while held(&pair.backing) != READER && Instant::now() < due {
        std::thread::sleep(Duration::from_millis(5));
    }
    assert_eq!(held(&pair.backing), READER);
    assert_eq!(opened_for(running.0.id(), &pair.backing), [0]);
    assert_eq!(opened_for(running.0.id(), &pair.image), [2]);
    // Another image over the same file.
    for line in LOOKS.iter().chain(&CHANGES) {
        let answer = other.image.feed(&format!("{line} --backing {backing}"), b"x");
        assert_eq!(answer.exit, 0, "{line}: {}", answer.error);
    }
    // And the file as an image of its own, which may not be changed now.
    assert!(pair.backing.feed("write IMAGE 0", b"x").error.contains("a change shares it with"));
    running.0.stdin.take().unwrap().write_all(b"hello").unwrap();
    assert!(running.0.wait().unwrap().success());
    assert!(held(&pair.backing).is_empty());
    assert_eq!(pair.run("read IMAGE 0 5").text, "hello");
}
