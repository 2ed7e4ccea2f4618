//! The images made by an independent program, with what is known of them.

use std::fs;
use std::path::{Path, PathBuf};

use answers::{Calls, Over};

pub struct Real {
    pub file: String,
    pub bytes: Vec<u8>,
    /// What the paper's small program writes.
    pub report: String,
    /// "yes", also over a backing file, or why the guest bytes cannot be compared.
    pub read_equal: String,
    pub guest: Option<Guest>,
    /// The same of each snapshot.
    pub snapshots: Vec<Guest>,
    /// The bytes of its backing file.
    pub backing: Vec<u8>,
}

impl Real {
    /// Are the guest bytes those that the independent program reads?
    pub fn reads_equal(&self) -> bool {
        self.read_equal.starts_with("yes")
    }

    /// The implementation, lent this image's backing file.
    pub fn over<'c>(&'c self, calls: &'c dyn Calls) -> Over<'c> {
        Over { calls, backing: &self.backing }
    }
}

/// Guest content as runs of one byte: length and byte.
pub struct Guest {
    runs: Vec<(u64, u8)>,
}

impl Guest {
    pub fn size(&self) -> u64 {
        self.runs.iter().map(|&(length, _)| length).sum()
    }

    pub fn bytes(&self, offset: u64, len: usize) -> Vec<u8> {
        let (mut bytes, mut start) = (Vec::with_capacity(len), 0);
        let stop = offset + len as u64;
        for &(length, byte) in &self.runs {
            let (from, to) = (start.max(offset), (start + length).min(stop));
            bytes.resize(bytes.len() + to.saturating_sub(from) as usize, byte);
            start += length;
        }
        assert_eq!(bytes.len(), len, "range past the guest's end");
        bytes
    }
}

fn directory() -> PathBuf {
    Path::new(env!("CARGO_MANIFEST_DIR")).join("../../images")
}

/// Every row of MANIFEST.tsv.
pub fn all() -> Vec<Real> {
    let text = fs::read_to_string(directory().join("MANIFEST.tsv")).expect("MANIFEST.tsv");
    text.lines().skip(1).map(row).collect()
}

/// What the small program writes for each image of the gate, those made by hand
/// too: the image's bytes and the lines.
pub fn suite() -> Vec<(String, Vec<u8>, String)> {
    let suite = directory().join("../crates/image_suite");
    let text = fs::read_to_string(suite.join("stdout")).expect("stdout");
    let mut said: Vec<(String, Vec<u8>, String)> = Vec::new();
    for line in text.lines() {
        match said.last_mut() {
            Some((_, _, lines)) if !line.ends_with(".qcow2") => *lines += &format!("{line}\n"),
            _ => {
                let bytes = fs::read(suite.join("data").join(line)).expect("an image");
                said.push((line.into(), bytes, String::new()));
            }
        }
    }
    said
}

fn row(line: &str) -> Real {
    let fields: Vec<&str> = line.split('\t').collect();
    let path = directory().join(fields[0]);
    let bytes = fs::read(&path).unwrap_or_else(|error| panic!("{}: {error}", fields[0]));
    assert_eq!(bytes.len().to_string(), fields[1], "{}", fields[0]);
    let read = |end: &str| Some(parse(&fs::read_to_string(path.with_extension(end)).ok()?));
    let whole = |guest: Guest| guest.bytes(0, guest.size() as usize);
    let lines = fields[2].split(" | ").map(|line| line.replace(' ', "\t") + "\n");
    Real {
        file: fields[0].into(),
        bytes,
        report: lines.collect(),
        read_equal: fields[4].into(),
        guest: read("guest"),
        snapshots: (0..).map_while(|k| read(&format!("{k}.guest"))).collect(),
        backing: read("backing").map_or_else(Vec::new, whole),
    }
}

fn parse(text: &str) -> Guest {
    let run = |line: &str| {
        let (length, byte) = line.split_once(' ').expect("length and byte");
        (length.parse().expect("length"), u8::from_str_radix(byte, 16).expect("byte"))
    };
    Guest { runs: text.lines().map(run).collect() }
}
