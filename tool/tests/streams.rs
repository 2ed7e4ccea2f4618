//! Standard input and output that fail: a sentence that does not blame the
//! image, and exit code 1.

mod common;

use std::fs::File;
use std::io::pipe;
use std::process::{Command, Output, Stdio};

use common::{bench_image, with_clusters, Copy};

const LOOKS: [&str; 7] =
    ["info", "check", "map", "read 0 5", "check --json", "read 0 5 --json", "check --frob --json"];

/// A command on the copy with these streams; standard error is caught.
fn run(copy: &Copy, line: &str, input: Stdio, output: Stdio) -> Output {
    let mut words = line.split(' ');
    let mut command = Command::new(env!("CARGO_BIN_EXE_qstore"));
    command.args(words.next()).arg(&copy.path).args(words);
    command.stdin(input).stdout(output).stderr(Stdio::piped());
    command.spawn().expect("qstore").wait_with_output().expect("qstore ends")
}

fn full() -> Stdio {
    File::options().write(true).open("/dev/full").expect("/dev/full").into()
}

/// Whose reader is gone.
fn broken() -> Stdio {
    pipe().expect("a pipe").1.into()
}

#[test]
fn output_that_cannot_be_written() {
    let copy = Copy::with(&bench_image(), "full");
    let kept = Copy::of("22-v3-512-snapshot.qcow2", "full-kept");
    let snapshots = ["read 0 64k --snapshot 1", "read 0 64k --snapshot 1 --json"];
    let lines = LOOKS.iter().map(|line| (&copy, line));
    for (copy, line) in lines.chain(snapshots.iter().map(|line| (&kept, line))) {
        for (output, fault) in [(full(), "No space left"), (broken(), "Broken pipe")] {
            let ended = run(copy, line, Stdio::null(), output);
            let error = String::from_utf8_lossy(&ended.stderr);
            assert_eq!(ended.status.code(), Some(1), "{line}");
            assert!(error.starts_with(&format!("qstore: standard output: {fault}")), "{error}");
        }
    }
}

#[test]
fn help_that_cannot_be_written() {
    for word in ["--help", "--version", "--man"] {
        let mut command = Command::new(env!("CARGO_BIN_EXE_qstore"));
        let ended = command.arg(word).stdout(full()).output().expect("qstore");
        assert_eq!(ended.status.code(), Some(1), "{word}");
        assert!(ended.stderr.starts_with(b"qstore: standard output: "), "{word}");
    }
}

/// Standard error then has the report, since the change is made.
#[test]
fn a_change_whose_report_cannot_be_written() {
    let leaking = || {
        let mut image = bench_image();
        image[1024 + 2 * 5 + 1] = 1;
        image
    };
    for (line, report) in [
        ("write 0", "finished, only its report could not be written: wrote 0 bytes at 0: 0 units"),
        ("discard 0 512 --json", "finished, only its report could not be written: discarded 512"),
        ("repair", "finished, only its report could not be written: repaired: 1 counts set"),
        ("repair --allowance 0", "stopped, only its report could not be written: stopped after 0"),
        (
            "extend 16k",
            "finished, only its report could not be written: extended from 8192 to 16384",
        ),
    ] {
        let copy = Copy::with(&leaking(), "full-write");
        let ended = run(&copy, line, Stdio::null(), full());
        let error = String::from_utf8_lossy(&ended.stderr);
        assert_eq!(ended.status.code(), Some(1));
        assert!(error.starts_with("qstore: standard output: No space left"), "{error}");
        assert!(error.contains(&format!(": the command {report}")), "{error}");
        assert_eq!(copy.bytes() == bench_image(), line == "repair", "{line}");
    }
}

/// A terminal would obey what is in the name.
#[test]
fn control_characters_of_a_name() {
    for (name, shown) in [("a\u{1b}[2Jb", "a\\u{1b}[2Jb"), ("a\nb", "a\\u{a}b")] {
        let mut command = Command::new(env!("CARGO_BIN_EXE_qstore"));
        let ended = command.args(["check", name]).output().expect("qstore");
        let error = String::from_utf8_lossy(&ended.stderr);
        assert!(error.starts_with(&format!("qstore: {shown}: No such file")), "{error}");
        let mut command = Command::new(env!("CARGO_BIN_EXE_qstore"));
        let ended = command.args(["check", "a", name]).output().expect("qstore");
        let error = String::from_utf8_lossy(&ended.stderr);
        assert!(error.starts_with(&format!("qstore: check: '{shown}' is one")), "{error}");
    }
}

#[test]
fn input_that_cannot_be_read() {
    let copy = Copy::with(&bench_image(), "directory");
    let directory = || Stdio::from(File::open("/").expect("/"));
    let ended = run(&copy, "write 33285", directory(), Stdio::piped());
    let error = String::from_utf8_lossy(&ended.stderr);
    assert_eq!(ended.status.code(), Some(1));
    assert!(error.starts_with("qstore: standard input: Is a directory"), "{error}");
    let ended = run(&copy, "write 33285 --json", directory(), Stdio::piped());
    let text = String::from_utf8_lossy(&ended.stdout);
    assert_eq!(ended.status.code(), Some(1));
    assert!(text.contains("\"failed\": \"standard input: Is a directory"), "{text}");
    assert!(copy.bytes() == bench_image());
}

/// A look and a change with less memory than the image has bytes.
#[test]
fn too_little_memory() {
    const LENGTH: u64 = 1 << 30;
    let copy = Copy::with(&with_clusters(16, 4, 1 << 30), "memory");
    File::options().write(true).open(&copy.path).unwrap().set_len(LENGTH).unwrap();
    for words in ["check", "map --json", "discard 0 64k", "extend 1G"] {
        let (name, rest) = words.split_once(' ').unwrap_or((words, ""));
        let line = format!("ulimit -v 500000; exec \"$0\" {name} \"$1\" {rest}");
        let mut shell = Command::new("sh");
        shell.args(["-c", &line, env!("CARGO_BIN_EXE_qstore")]).arg(&copy.path);
        let ended = shell.output().expect("sh");
        let said = [ended.stdout, ended.stderr].concat();
        let said = String::from_utf8_lossy(&said);
        assert_eq!(ended.status.code(), Some(1), "{words}: {said}");
        let fault = format!("there is not enough memory for its {LENGTH} bytes");
        assert!(said.contains(&fault), "{words}: {said}");
    }
}

/// Standard error that fails changes no exit code.
#[test]
fn complaints_that_cannot_be_written() {
    for (line, exit) in [(&["check", "/nowhere"][..], 1), (&["frob"], 1)] {
        let mut command = Command::new(env!("CARGO_BIN_EXE_qstore"));
        let status = command.args(line).stdout(Stdio::null()).stderr(full()).status();
        assert_eq!(status.expect("qstore").code(), Some(exit), "{line:?}");
    }
}
