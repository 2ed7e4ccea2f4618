//! The file that is given as a backing file: what cannot be one, what is refused,
//! and what happens to it meanwhile.

mod common;

use std::fs::{self, File, OpenOptions};
use std::io::Write;
use std::os::unix::fs::symlink;
use std::os::unix::net::UnixListener;
use std::path::{Path, PathBuf};
use std::process::{Command, Output, Stdio};
use std::time::{Duration, Instant};

use common::made::over;
use common::{bench_image, ended, Copy, Pair};

const COMMANDS: [&[&str]; 8] = [
    &["info"],
    &["check"],
    &["map"],
    &["read", "0", "1"],
    &["write", "0"],
    &["discard", "0", "512"],
    &["repair"],
    &["extend", "256k"],
];

fn image(format: Option<&[u8]>) -> Vec<u8> {
    let mut image = bench_image();
    over(&mut image, b"base.raw", format);
    image
}

fn place(name: &str) -> PathBuf {
    let name = format!("{name}-{}", std::process::id());
    let path = Path::new(env!("CARGO_TARGET_TMPDIR")).join(name);
    _ = fs::remove_file(&path);
    path
}

fn qstore(image: &Path, words: &[&str], backing: &Path, more: &[&str]) -> Command {
    let mut command = Command::new(env!("CARGO_BIN_EXE_qstore"));
    command.arg(words[0]).arg(image).args(&words[1..]).arg("--backing").arg(backing).args(more);
    command
}

fn text(bytes: &[u8]) -> String {
    String::from_utf8_lossy(bytes).into_owned()
}

/// Every command fails with these words and leaves the image alone.
fn fails(copy: &Copy, backing: &Path, words: &str) {
    let before = copy.bytes();
    for line in COMMANDS {
        let output = ended(&mut qstore(&copy.path, line, backing, &[]));
        let error = text(&output.stderr);
        assert_eq!(output.status.code(), Some(1), "{line:?}: {error}");
        assert!(output.stdout.is_empty(), "{line:?}");
        let about = format!(": backing file {backing:?}: ");
        assert!(error.contains(&about) && error.contains(words), "{line:?}: {error}");
        let json = text(&ended(&mut qstore(&copy.path, line, backing, &["--json"])).stdout);
        assert!(json.contains("\"failed\": \"backing file ") && json.ends_with("}\n"), "{json}");
    }
    assert!(copy.bytes() == before);
}

#[test]
fn what_cannot_be_one() {
    let copy = Copy::with(&image(None), "cannot-be");
    let (fifo, socket) = (place("beneath-fifo"), place("beneath-socket"));
    assert!(Command::new("mkfifo").arg(&fifo).status().unwrap().success());
    let _listener = UnixListener::bind(&socket).unwrap();
    for (path, what) in [
        (&*fifo, "it is a FIFO, and a backing file has to be a regular file"),
        (&*socket, "it is a socket, and"),
        (Path::new("/dev/zero"), "it is a device, and"),
        (Path::new(env!("CARGO_TARGET_TMPDIR")), "it is a folder, and"),
        (Path::new("/nowhere/base.raw"), "No such file"),
        (Path::new("/dev/null/base.raw"), "Not a directory"),
        (Path::new(""), "No such file"),
    ] {
        fails(&copy, path, what);
    }
    // Its name is shown, and nothing in it is obeyed.
    let missing = place("beneath\u{1b}[2J\n");
    fails(&copy, &missing, "beneath\\u{1b}[2J\\n-");
    _ = fs::remove_file(fifo);
    _ = fs::remove_file(socket);
}

/// By its name, by a symbolic link and by a hard link.
#[test]
fn the_image_itself() {
    let copy = Copy::with(&image(None), "itself");
    let (soft, hard) = (place("itself-soft"), place("itself-hard"));
    symlink(&copy.path, &soft).unwrap();
    fs::hard_link(&copy.path, &hard).unwrap();
    for path in [&copy.path, &soft, &hard] {
        fails(&copy, path, "it is the image itself, which cannot lie under it");
        let output = ended(&mut qstore(&copy.path, &["check"], path, &["--share"]));
        assert!(text(&output.stderr).contains("it is the image itself"));
    }
    // Another file with the same bytes is no image under itself, but no raw disk.
    let other = Copy::with(&copy.bytes(), "itself-other");
    fails(&copy, &other.path, "it begins as an image of the format qcow2 does");
    [soft, hard].iter().for_each(|path| fs::remove_file(path).unwrap());
}

/// What begins as another format does is a raw disk if the image says so, or the
/// command line.
#[test]
fn images_in_the_place_of_raw_disks() {
    let mut beneath = vec![5; 70_000];
    beneath[..8].copy_from_slice(b"QFI\xfb\0\0\0\x03");
    for (format, refused) in [(None, true), (Some(&b"qcow2"[..]), true), (Some(b"raw"), false)] {
        let pair = Pair::with(&image(format), &beneath, "in-the-place");
        if refused {
            fails(&pair.image, &pair.backing.path, "or add --as-raw if it is one");
        }
        let line = if refused { "read IMAGE 0 9 --as-raw" } else { "read IMAGE 0 9" };
        let answer = pair.run(line);
        assert!(answer.out == beneath[..9], "{}", answer.error);
        let noted = answer.error.contains("note: the image says that its backing file has the");
        assert_eq!(noted, format == Some(b"qcow2"), "{}", answer.error);
    }
    // A raw copy of what the image calls a qcow2 image.
    let pair = Pair::with(&image(Some(b"qcow2")), &[5; 70_000], "raw-copy");
    let answer = pair.run("check IMAGE");
    assert!(answer.exit == 0 && answer.error.contains("is taken for a raw disk all the same\n"));
    assert!(pair.image.run("check IMAGE").error.contains("have qemu make a raw disk of it"));
    // An image that is refused by itself is told that first.
    let pair = Pair::with(b"no image", &beneath, "in-the-place-refused");
    assert!(pair.run("check IMAGE").error.contains("refused (1)"));
}

#[test]
fn more_than_there_is_memory_for() {
    let pair = Pair::with(&image(None), b"x", "beneath-memory");
    let file = OpenOptions::new().write(true).open(&pair.backing.path).unwrap();
    file.set_len(1 << 30).unwrap();
    let line = "ulimit -v 500000; exec \"$0\" check \"$1\" --backing \"$2\"";
    let mut shell = Command::new("sh");
    shell.args(["-c", line, env!("CARGO_BIN_EXE_qstore")]);
    let output = shell.arg(&pair.image.path).arg(&pair.backing.path).output().expect("sh");
    let error = text(&output.stderr);
    assert_eq!(output.status.code(), Some(1), "{error}");
    assert!(error.contains("there is not enough memory for its 1073741824 bytes"), "{error}");
    // Its hole takes none where there is as much.
    assert_eq!(pair.run("check IMAGE").text, "sound\n");
}

/// A file of the system that says to be longer than what it gives.
#[test]
fn one_that_ends_early() {
    let path = Path::new("/sys/kernel/mm/transparent_hugepage/enabled");
    if path.metadata().is_ok_and(|metadata| metadata.len() > 100) {
        let copy = Copy::with(&image(None), "beneath-early");
        fails(&copy, path, "it became shorter while being read");
    }
}

/// While a write waits for its input, which is after the backing file was read.
fn meanwhile(pair: &Pair, act: impl Fn(&File)) -> Output {
    let mut command = qstore(&pair.image.path, &["write", "1000"], &pair.backing.path, &[]);
    command.stdin(Stdio::piped()).stdout(Stdio::piped()).stderr(Stdio::piped());
    let mut child = command.spawn().expect("qstore");
    // The locks of the backing file are taken before it is read, so a little more.
    let file = OpenOptions::new().write(true).open(&pair.backing.path).unwrap();
    let due = Instant::now() + Duration::from_secs(20);
    while qstore_sys::holder(&file, 100).unwrap().is_none() && Instant::now() < due {
        std::thread::sleep(Duration::from_millis(5));
    }
    std::thread::sleep(Duration::from_millis(300));
    act(&file);
    child.stdin.take().unwrap().write_all(b"hello").unwrap();
    child.wait_with_output().unwrap()
}

/// The write is made over the bytes as they were, and says that they are others now.
#[test]
fn one_that_is_changed_meanwhile() {
    let sentence = "note: another program changed the backing file meanwhile";
    type Act<'a> = &'a dyn Fn(&File);
    let acts: [(Act, bool); 4] = [
        (&|_| (), false),
        (&|file| (&mut &*file).write_all(b"others").unwrap(), true),
        (&|file| file.set_len(10).unwrap(), true),
        (&|file| file.set_len(100_000).unwrap(), true),
    ];
    for (act, changes) in acts {
        let pair = Pair::with(&image(None), &[3; 70_000], "meanwhile");
        let output = meanwhile(&pair, act);
        let error = text(&output.stderr);
        assert!(output.status.success(), "{error}");
        assert_eq!(error.contains(sentence), changes, "{error}");
        let mut wanted = vec![3; 512];
        wanted[488..493].copy_from_slice(b"hello");
        assert!(pair.run("read IMAGE 512 512").out == wanted);
    }
}

/// Runs a command with calls on the backing file failing, where `strace` can do it.
fn failing(pair: &Pair, inject: &str, words: &[&str]) -> Option<String> {
    let strace = |args: &[&str]| {
        let mut command = Command::new("strace");
        command.args(["-f", "-qq", "-o", "/dev/null"]).args(args);
        command
    };
    strace(&["true"]).output().ok().filter(|output| output.status.success())?;
    let backing = pair.backing.path.to_str().unwrap();
    let program = env!("CARGO_BIN_EXE_qstore");
    let mut command = strace(&["-P", backing, "-e", inject, program, words[0]]);
    command.arg(&pair.image.path).args(&words[1..]).args(["--backing", backing]);
    let output = ended(&mut command);
    assert_eq!(output.status.code(), Some(1));
    Some(text(&output.stderr))
}

#[test]
fn one_that_cannot_be_read_or_flushed() {
    let pair = Pair::with(&image(None), &[3; 70_000], "beneath-failing");
    let before = pair.image.bytes();
    for line in COMMANDS {
        let Some(error) = failing(&pair, "inject=pread64:error=EIO", line) else { return };
        assert!(error.contains(": reading at offset 0: Input/output error"), "{error}");
        let error = failing(&pair, "inject=pread64:error=EIO:when=2+", line).unwrap();
        assert!(error.contains(": backing file \"") && error.contains("(os error 5)"), "{error}");
    }
    for line in &COMMANDS[4..] {
        let error = failing(&pair, "inject=fdatasync:error=EIO", line).unwrap();
        assert!(error.contains(": not changed: flushing failed: Input/output"), "{error}");
    }
    assert!(pair.image.bytes() == before);
}
