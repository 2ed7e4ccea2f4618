//! The built program run on copies of the images made by qemu.
#![allow(dead_code)]

pub mod batches;
pub mod drive;
pub mod growing;
pub mod kept;
pub mod kinds;
pub mod made;
pub mod portions;
pub mod promise;
pub mod series;

use std::fs;
use std::io::Write;
use std::path::{Path, PathBuf};
use std::process::{Command, Output, Stdio};
use std::time::{Duration, Instant};

pub fn images() -> PathBuf {
    Path::new(env!("CARGO_MANIFEST_DIR")).join("../images")
}

/// A file of its own, removed at the end.
pub struct Copy {
    pub path: PathBuf,
}

impl Copy {
    pub fn of(image: &str, test: &str) -> Copy {
        Copy::with(&fs::read(images().join(image)).expect(image), test)
    }

    pub fn with(bytes: &[u8], test: &str) -> Copy {
        let name = format!("{test}-{}.qcow2", std::process::id());
        let path = Path::new(env!("CARGO_TARGET_TMPDIR")).join(name);
        fs::write(&path, bytes).expect("a file in the target directory");
        Copy { path }
    }

    pub fn bytes(&self) -> Vec<u8> {
        fs::read(&self.path).expect("the copy")
    }

    /// Runs a command on this file; `IMAGE` stands for it.
    pub fn run(&self, line: &str) -> Answer {
        self.feed(line, &[])
    }

    /// The same with standard input.
    pub fn feed(&self, line: &str, input: &[u8]) -> Answer {
        let image = self.path.to_str().expect("a name in UTF-8");
        let args: Vec<&str> =
            line.split(' ').map(|word| if word == "IMAGE" { image } else { word }).collect();
        qstore(&args, input)
    }
}

/// An image and the backing file that is given for it.
pub struct Pair {
    pub image: Copy,
    pub backing: Copy,
}

impl Pair {
    pub fn of(image: &str, test: &str) -> Pair {
        Pair::with(&fs::read(images().join(image)).expect(image), &beneath(image), test)
    }

    pub fn with(image: &[u8], backing: &[u8], test: &str) -> Pair {
        let backing = Copy::with(backing, &format!("{test}-beneath"));
        Pair { image: Copy::with(image, test), backing }
    }

    pub fn run(&self, line: &str) -> Answer {
        self.feed(line, &[])
    }

    /// Runs a command with the backing file given, which must be left alone.
    pub fn feed(&self, line: &str, input: &[u8]) -> Answer {
        let before = (self.backing.bytes(), changed(&self.backing.path));
        let backing = self.backing.path.to_str().expect("a name in UTF-8");
        let answer = self.image.feed(&format!("{line} --backing {backing}"), input);
        assert!((self.backing.bytes(), changed(&self.backing.path)) == before, "{line}");
        answer
    }
}

/// When a file was changed last.
fn changed(path: &Path) -> std::time::SystemTime {
    path.metadata().and_then(|metadata| metadata.modified()).expect("a file")
}

impl Drop for Copy {
    fn drop(&mut self) {
        _ = fs::remove_file(&self.path);
    }
}

pub struct Answer {
    pub exit: i32,
    pub out: Vec<u8>,
    pub text: String,
    pub error: String,
}

pub fn qstore(args: &[&str], input: &[u8]) -> Answer {
    let mut command = Command::new(env!("CARGO_BIN_EXE_qstore"));
    command.args(args).stdin(Stdio::piped()).stdout(Stdio::piped()).stderr(Stdio::piped());
    let mut child = command.spawn().expect("qstore");
    // A refusal may come before all is read.
    _ = child.stdin.take().expect("its input").write_all(input);
    let output = child.wait_with_output().expect("qstore ends");
    Answer {
        exit: output.status.code().expect("an exit code"),
        text: String::from_utf8_lossy(&output.stdout).into_owned(),
        out: output.stdout,
        error: String::from_utf8_lossy(&output.stderr).into_owned(),
    }
}

/// What a command comes to that has to end by itself, with nothing to read.
pub fn ended(command: &mut Command) -> Output {
    command.stdin(Stdio::null()).stdout(Stdio::piped()).stderr(Stdio::piped());
    let mut child = command.spawn().expect("qstore");
    let due = Instant::now() + Duration::from_secs(20);
    while child.try_wait().unwrap().is_none() {
        if Instant::now() > due {
            _ = child.kill();
            _ = child.wait();
            panic!("it waits");
        }
        std::thread::sleep(Duration::from_millis(5));
    }
    child.wait_with_output().unwrap()
}

pub struct Row {
    pub file: String,
    pub report: String,
    pub read_equal: bool,
}

/// The rows of MANIFEST.tsv.
pub fn manifest() -> Vec<Row> {
    let text = fs::read_to_string(images().join("MANIFEST.tsv")).expect("MANIFEST.tsv");
    let row = |line: &str| {
        let fields: Vec<&str> = line.split('\t').collect();
        let read_equal = fields[4] == "yes";
        Row { file: fields[0].into(), report: fields[2].into(), read_equal }
    };
    text.lines().skip(1).map(row).collect()
}

/// The guest bytes of an image as qemu reads them.
pub fn guest(file: &str) -> Vec<u8> {
    of_runs(&images().join(file).with_extension("guest"))
}

/// The bytes of its backing file.
pub fn beneath(file: &str) -> Vec<u8> {
    of_runs(&images().join(file).with_extension("backing"))
}

fn of_runs(path: &Path) -> Vec<u8> {
    let mut bytes = Vec::new();
    for line in fs::read_to_string(path).expect("runs of bytes").lines() {
        let (length, byte) = line.split_once(' ').expect("length and byte");
        let length: usize = length.parse().expect("length");
        let byte = u8::from_str_radix(byte, 16).expect("byte");
        bytes.resize(bytes.len() + length, byte);
    }
    bytes
}

/// An accepted image in memory: version 3, clusters of 512 bytes, 16 of them,
/// a disk of 65,536 bytes.
pub fn bench_image() -> Vec<u8> {
    let mut image = vec![0; 8192];
    let mut put = |at: usize, bytes: &[u8]| image[at..at + bytes.len()].copy_from_slice(bytes);
    put(0, &[0x51, 0x46, 0x49, 0xFB, 0, 0, 0, 3]);
    put(20, &9u32.to_be_bytes());
    put(24, &65_536u64.to_be_bytes());
    put(36, &2u32.to_be_bytes());
    put(40, &1536u64.to_be_bytes());
    put(48, &512u64.to_be_bytes());
    put(56, &1u32.to_be_bytes());
    put(96, &4u32.to_be_bytes());
    put(100, &104u32.to_be_bytes());
    put(512, &1024u64.to_be_bytes());
    put(1024, &[0, 1, 0, 1, 0, 1, 0, 1]);
    image
}

/// The bench image's layout with this many clusters of 2^bits bytes each, and
/// a disk of this size.
pub fn with_clusters(bits: u32, clusters: usize, size: u64) -> Vec<u8> {
    let cluster = 1usize << bits;
    let mut image = bench_image();
    let counts = image[1024..1032].to_vec();
    image.truncate(104);
    image.resize(clusters * cluster, 0);
    let mut put = |at: usize, number: u64| {
        image[at..at + 8].copy_from_slice(&number.to_be_bytes());
    };
    put(24, size);
    put(40, 3 * cluster as u64);
    put(48, cluster as u64);
    put(cluster, 2 * cluster as u64);
    image[23] = bits as u8;
    image[2 * cluster..][..8].copy_from_slice(&counts);
    image
}
