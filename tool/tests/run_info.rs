//! `run-info` on what is no image file, and the small program where reading or
//! writing fails. The program is that of `rt run` in crates/image_info.

mod common;

use std::fs::{self, File};
use std::io::Write;
use std::os::unix::fs::symlink;
use std::path::{Path, PathBuf};
use std::process::{Command, Output, Stdio};
use std::time::Duration;

use common::{bench_image, Copy};

const SOUND: &str = "image\t3\t512\t16\t65536\t2\nclusters\t4\t12\t0\nverdict\tsound\n";

fn root() -> PathBuf {
    Path::new(env!("CARGO_MANIFEST_DIR")).join("..")
}

/// On a machine with `rt` elsewhere nothing can be proved on the way.
fn run_info(args: &[&Path]) -> Output {
    let mut command = Command::new(root().join("run-info"));
    command.args(args).env("PATH", "/usr/bin:/bin").output().expect("run-info")
}

/// Exit code 1, nothing on standard output, and these words.
fn is_refused(path: &Path, words: &str) {
    let ended = run_info(&[path]);
    let error = String::from_utf8_lossy(&ended.stderr);
    assert!(ended.status.code() == Some(1) && ended.stdout.is_empty(), "{error}");
    assert!(error.starts_with("run-info: ") && error.contains(words), "{error}");
}

#[test]
fn files_that_cannot_be_read_whole() {
    is_refused(Path::new("/nowhere/image"), "there is no such file");
    is_refused(Path::new("/"), "is a folder");
    is_refused(Path::new("/dev/null"), "is not a regular file");
    // A file whose length is not what reading it gives.
    is_refused(Path::new("/proc/self/maps"), "has 0 bytes and ");
    let long = Copy::with(&[0; 65_537], "long");
    is_refused(
        &long.path,
        "has 65537 bytes and the small program takes at most 65536; 'qstore info'",
    );
    let pipe = Copy::with(&[], "pipe");
    fs::remove_file(&pipe.path).unwrap();
    assert!(Command::new("mkfifo").arg(&pipe.path).status().expect("mkfifo").success());
    is_refused(&pipe.path, "is not a regular file");
}

/// Root may read any file.
#[test]
fn a_file_without_permission() {
    let copy = Copy::with(&bench_image(), "permission");
    assert!(Command::new("chmod").arg("0").arg(&copy.path).status().expect("chmod").success());
    if File::open(&copy.path).is_err() {
        is_refused(&copy.path, "you may not read it");
    }
}

#[test]
fn usage_and_a_missing_kit() {
    let copy = Copy::with(&bench_image(), "kit");
    if !["/usr/bin/rt", "/bin/rt"].iter().any(|rt| Path::new(rt).exists()) {
        is_refused(&copy.path, "the command 'rt' of the Rattle kit");
    }
    let ended = run_info(&[Path::new("--help")]);
    assert!(ended.status.success() && ended.stdout.starts_with(b"usage: ./run-info IMAGE\n"));
    let path: &Path = &copy.path;
    for args in [&[][..], &[path, path]] {
        let ended = run_info(args);
        assert!(ended.status.code() == Some(2) && ended.stdout.is_empty());
    }
}

/// The first time it may have to prove the program and says so; once that is proved, nothing but the answer is said.
#[test]
fn an_image_and_its_answer() {
    let copy = Copy::with(&bench_image(), "answer");
    let mut command = Command::new(root().join("run-info"));
    command.arg(&copy.path).stdin(Stdio::null()).stdout(Stdio::piped());
    assert_eq!(ended(&mut command).0, SOUND);
    assert_eq!(ended(&mut command), (SOUND.into(), String::new()));
    let status = command.stdout(full()).status().expect("run-info");
    assert_eq!(status.code(), Some(1));
}

/// By a name elsewhere, as in a folder of the PATH. The `rt` beside it proves
/// nothing, so this is about the name alone.
#[test]
fn a_link_to_it() {
    let copy = Copy::with(&bench_image(), "link");
    let folder = copy.path.with_extension("folder");
    _ = fs::remove_dir_all(&folder);
    fs::create_dir(&folder).unwrap();
    symlink(root().join("run-info"), folder.join("run-info")).unwrap();
    symlink("/bin/true", folder.join("rt")).unwrap();
    let mut command = Command::new(folder.join("run-info"));
    command.env("PATH", format!("{}:/usr/bin:/bin", folder.display()));
    let told = ended(command.arg(&copy.path).stdout(Stdio::piped()));
    fs::remove_dir_all(folder).unwrap();
    assert_eq!(told.0, SOUND, "{}", told.1);
}

/// The small program with these streams: what it writes, and what it complains
/// of.
fn image_info(input: Stdio, output: Stdio) -> (String, String) {
    ended(program().stdin(input).stdout(output))
}

fn program() -> Command {
    let path = root().join("crates/image_info/out/image_info");
    assert!(path.exists(), "`rt run` in crates/image_info builds {}", path.display());
    Command::new(path)
}

fn full() -> Stdio {
    File::options().write(true).open("/dev/full").expect("/dev/full").into()
}

fn ended(command: &mut Command) -> (String, String) {
    let child = command.stderr(Stdio::piped()).spawn().expect("a program");
    let ended = child.wait_with_output().expect("the program ends");
    let text = |bytes| String::from_utf8(bytes).expect("ASCII");
    (text(ended.stdout), text(ended.stderr))
}

#[test]
fn the_program_without_its_streams() {
    let copy = Copy::with(&bench_image(), "program");
    let image = || Stdio::from(File::open(&copy.path).unwrap());
    assert_eq!(image_info(image(), Stdio::piped()), (SOUND.into(), String::new()));
    let error = image_info(image(), full()).1;
    assert_eq!(error, "standard output: No space left on device (os error 28)\n");
    let directory = File::open("/").expect("/");
    let wanted = (String::new(), "standard input: Is a directory (os error 21)\n".into());
    assert_eq!(image_info(directory.into(), Stdio::piped()), wanted);
}

#[test]
fn short_reads_from_a_pipe_are_not_the_end() {
    let mut command = program();
    command.stdin(Stdio::piped()).stdout(Stdio::piped());
    let mut child = command.spawn().expect("image_info");
    let mut input = child.stdin.take().expect("its input");
    for part in bench_image().chunks(3000) {
        input.write_all(part).expect("a part");
        std::thread::sleep(Duration::from_millis(20));
    }
    drop(input);
    assert_eq!(child.wait_with_output().expect("image_info ends").stdout, SOUND.as_bytes());
}

/// A `read` that gives 4,096 bytes at the most, is interrupted before each
/// call, and fails after FAIL_AFTER calls, with EIO.
const READ: &str = "
#define _GNU_SOURCE
#include <errno.h>
#include <stdlib.h>
#include <sys/syscall.h>
#include <unistd.h>
static int calls;
ssize_t read(int fd, void *to, size_t n)
{
    const char *most = getenv(\"FAIL_AFTER\");
    calls++;
    if (calls % 2) { errno = EINTR; return -1; }
    if (most && calls / 2 > atoi(most)) { errno = EIO; return -1; }
    return syscall(SYS_read, fd, to, n < 4096 ? n : 4096);
}
";

#[test]
fn interrupted_reads_go_on_and_failed_ones_end() {
    let source = Copy::with(READ.as_bytes(), "read");
    let library = source.path.with_extension("so");
    let mut gcc = Command::new("gcc");
    gcc.args(["-shared", "-fPIC", "-x", "c"]).arg(&source.path).arg("-o").arg(&library);
    assert!(gcc.status().expect("gcc").success());
    let copy = Copy::with(&bench_image(), "interrupted");
    let run = |most: Option<&str>| {
        let mut command = program();
        command.env("LD_PRELOAD", &library).envs(most.map(|most| ("FAIL_AFTER", most)));
        ended(command.stdin(File::open(&copy.path).unwrap()).stdout(Stdio::piped()))
    };
    assert_eq!(run(None), (SOUND.into(), String::new()));
    // The first 4,096 bytes alone would be an image too.
    for most in ["0", "1", "2"] {
        let failed = "standard input: Input/output error (os error 5)\n";
        assert_eq!(run(Some(most)), (String::new(), failed.into()));
    }
    fs::remove_file(library).unwrap();
}
