//! Answers that are far longer than the image: they are written as they are
//! made, so memory does not depend on their length. One test, since the peak is
//! that of all children.

mod common;

use std::fmt::Write;
use std::fs::{self, File};
use std::path::Path;
use std::process::{Command, Stdio};

use common::made::{made, put64};
use common::Copy;
use qstore_sys::peak_of_children;

const CLUSTER: usize = 512;
const TABLES: usize = 16_384;
const SIZE: u64 = (TABLES * CLUSTER / 8 * CLUSTER) as u64;
const RUNS: usize = TABLES * CLUSTER / 8;
const MOST: u64 = 16 << 20;

/// All L1 entries name one L2 table, of which each second entry is 0: a small
/// file with a million runs. The only data cluster is at the place given.
fn image_of_many_runs() -> (Vec<u8>, usize) {
    let mut made = made(3, 9, 300, SIZE);
    let table = made.l1_at + 8 * TABLES;
    let data = table + CLUSTER;
    let entry = |place: usize| place as u64 | 1 << 63;
    (0..TABLES).for_each(|index| put64(&mut made.image, made.l1_at + 8 * index, entry(table)));
    (0..CLUSTER / 16).for_each(|pair| put64(&mut made.image, table + 16 * pair, entry(data)));
    (0..CLUSTER).for_each(|at| made.image[data + at] = (at % 251) as u8);
    (made.image, data)
}

/// The exit code; what is written goes to a file, for it would count as memory
/// of the next child.
fn run(copy: &Copy, line: &str, output: impl Into<Stdio>) -> Option<i32> {
    let mut words = line.split(' ');
    let mut command = Command::new(env!("CARGO_BIN_EXE_qstore"));
    command.args(words.next()).arg(&copy.path).args(words).stdout(output);
    command.status().expect("qstore").code()
}

fn expected(image: &Path, data: usize) -> (String, String) {
    let mut text = String::from("guest\tlength\tkind\thost\n");
    let mut json =
        format!("{{\"image\": \"{}\", \"disk_size\": {SIZE}, \"runs\": [", image.display());
    for index in 0..RUNS {
        let (guest, comma) = (index * CLUSTER, if index == 0 { "" } else { ", " });
        let (kind, host, last) = match index % 2 {
            0 => ("host", data.to_string(), format!(", \"host\": {data}")),
            _ => ("absent", "-".into(), String::new()),
        };
        writeln!(text, "{guest}\t512\t{kind}\t{host}").unwrap();
        let start = format!("{comma}{{\"guest\": {guest}, \"length\": 512, \"kind\": \"{kind}\"");
        json += &format!("{start}{last}}}");
    }
    (text, json + "]}\n")
}

#[test]
fn a_million_runs_in_little_memory() {
    let (image, data) = image_of_many_runs();
    let copy = Copy::with(&image, "many-runs");
    let [text, json, hex] = ["text", "json", "hex"].map(|name| copy.path.with_extension(name));
    let create = |path: &Path| File::create(path).unwrap();
    let lines = [
        ("map", create(&text)),
        ("map --json", create(&json)),
        ("read 0 32M --json", create(&hex)),
    ];
    for (line, output) in lines {
        assert_eq!(run(&copy, line, output), Some(0), "{line}");
        let peak = peak_of_children().unwrap();
        assert!(peak < MOST, "{line}: {peak}");
    }
    assert_eq!(run(&copy, &format!("read 0 {SIZE}"), Stdio::null()), Some(0));
    let peak = peak_of_children().unwrap();
    assert!(peak < MOST, "read: {peak}");

    let wanted = expected(&copy.path, data);
    assert!(fs::read_to_string(&text).unwrap() == wanted.0);
    assert!(fs::read_to_string(&json).unwrap() == wanted.1);
    let cluster: String = (0..CLUSTER).map(|at| format!("{:02x}", at % 251)).collect();
    let pair = cluster + &"00".repeat(CLUSTER);
    let members = format!("\"offset\": 0, \"length\": {}", 32 << 20);
    let start = format!("{{\"image\": \"{}\", {members}, \"data\": \"", copy.path.display());
    assert!(fs::read_to_string(&hex).unwrap() == start + &pair.repeat(32 << 10) + "\"}\n");
    [text, json, hex].iter().for_each(|path| fs::remove_file(path).unwrap());
}
