//! What is no image file, files that end early or cannot be read, and files
//! with holes.

mod common;

use std::fs::{self, File, OpenOptions};
use std::os::unix::fs::{FileExt, MetadataExt};
use std::os::unix::net::UnixListener;
use std::path::{Path, PathBuf};
use std::process::Command;

use common::{bench_image, ended, Copy};
use qstore::disk::Disk;
use qstore::extents;

fn place(name: &str) -> PathBuf {
    let path =
        Path::new(env!("CARGO_TARGET_TMPDIR")).join(format!("{name}-{}", std::process::id()));
    _ = fs::remove_file(&path);
    path
}

/// The error of a command, which has to end by itself.
fn ends(path: &Path, words: &[&str]) -> String {
    let mut command = Command::new(env!("CARGO_BIN_EXE_qstore"));
    command.arg(words[0]).arg(path).args(&words[1..]);
    let output = ended(&mut command);
    assert_eq!(output.status.code(), Some(1));
    String::from_utf8_lossy(&output.stderr).into_owned()
}

#[test]
fn what_is_no_regular_file() {
    let (fifo, socket) = (place("fifo"), place("socket"));
    assert!(Command::new("mkfifo").arg(&fifo).status().unwrap().success());
    let _listener = UnixListener::bind(&socket).unwrap();
    for (path, what) in [
        (&*fifo, "a FIFO"),
        (&*socket, "a socket"),
        (Path::new("/dev/zero"), "a device"),
        (Path::new(env!("CARGO_TARGET_TMPDIR")), "a folder"),
    ] {
        let sentence = format!("it is {what}, and an image has to be a regular file\n");
        for words in [&["check"][..], &["check", "--share"], &["write", "0"], &["extend", "1M"]] {
            let error = ends(path, words);
            assert!(error.ends_with(&sentence), "{error}");
        }
    }
    assert!(ends(&place("nothing"), &["info"]).contains("No such file"));
    _ = fs::remove_file(fifo);
    _ = fs::remove_file(socket);
}

/// A file is made longer by zeros, and never shorter.
#[test]
fn lengths() {
    let copy = Copy::with(&bench_image(), "lengths");
    let mut file = OpenOptions::new().read(true).write(true).open(&copy.path).unwrap();
    let error = file.lengthen(8191).unwrap_err();
    assert_eq!(error.to_string(), "it would be made shorter");
    for length in [8192, 10_000] {
        file.lengthen(length).unwrap();
        assert_eq!(file.length().unwrap(), length);
    }
    let mut wanted = bench_image();
    wanted.resize(10_000, 0);
    assert!(copy.bytes() == wanted);
    let error = File::open(&copy.path).unwrap().lengthen(20_000).unwrap_err().to_string();
    assert!(error.starts_with("making it 20000 bytes long: ") && copy.bytes() == wanted, "{error}");
}

/// The system does not let it be so long.
#[test]
fn a_file_that_cannot_be_made_longer() {
    let copy = Copy::with(&bench_image(), "no-longer");
    let program = env!("CARGO_BIN_EXE_qstore");
    let line = "trap '' XFSZ; ulimit -f 100; exec \"$0\" extend \"$1\" 256k";
    let output = Command::new("sh").args(["-c", line, program]).arg(&copy.path).output().unwrap();
    let error = String::from_utf8_lossy(&output.stderr);
    assert_eq!(output.status.code(), Some(1), "{error}");
    assert!(
        error.contains(": not changed: making it 262144 bytes long: File too large"),
        "{error}"
    );
    assert!(copy.bytes() == bench_image());
}

#[test]
fn a_file_that_ends_early() {
    let copy = Copy::with(&bench_image(), "ends-early");
    let file = File::open(&copy.path).unwrap();
    assert!(extents::read(&file, 8192, "reading").unwrap() == bench_image());
    for length in [8193, 1 << 20] {
        let error = extents::read(&file, length, "reading").unwrap_err();
        assert_eq!(error.to_string(), "it became shorter while being read");
    }
    let error = file.load(8000, &mut [0; 512]).unwrap_err();
    assert_eq!(error.to_string(), "it became shorter while being read");
}

/// The first page of a process is never there.
#[test]
fn a_read_error_names_the_offset() {
    let memory = File::open("/proc/self/mem").unwrap();
    let error = memory.load(24, &mut [0; 8]).unwrap_err().to_string();
    assert!(error.starts_with("reading at offset 24: ") && error.contains("os error"), "{error}");
    let mut full = OpenOptions::new().write(true).open("/dev/full").unwrap();
    let error = full.store(24, &[0; 8]).unwrap_err().to_string();
    assert!(error.starts_with("storing at offset 24: ") && error.contains("os error"), "{error}");
}

/// Data at the start, in the middle and before the end, holes elsewhere.
#[test]
fn holes_are_zeros() {
    let path = place("holes");
    let file = OpenOptions::new().read(true).write(true).create_new(true).open(&path).unwrap();
    let length = 40 << 20;
    file.set_len(length).unwrap();
    let mut wanted = vec![0; length as usize];
    for (at, len) in [(0, 5000), (9 << 20, 6 << 20), ((32 << 20) - 1, 2), (39 << 20, 4096)] {
        let data: Vec<u8> = (0..len).map(|k: usize| (k % 255) as u8 + 1).collect();
        file.write_all_at(&data, at).unwrap();
        wanted[at as usize..][..len].copy_from_slice(&data);
    }
    assert!(extents::read(&file, length, "reading").unwrap() == wanted);
    assert!(extents::holds(&file, &wanted).unwrap());
    for at in [0, 5000, 1 << 20, 10 << 20, (32 << 20) + 1, (39 << 20) + 5000, (40 << 20) - 1] {
        wanted[at] ^= 1;
        assert!(!extents::holds(&file, &wanted).unwrap(), "byte {at}");
        wanted[at] ^= 1;
    }
    file.set_len(length + 1).unwrap();
    assert!(!extents::holds(&file, &wanted).unwrap());
    file.set_len(length - 1).unwrap();
    assert!(!extents::holds(&file, &wanted).unwrap());
    _ = fs::remove_file(path);
}

/// Where the file system can tell, only what is there is called data.
#[test]
fn data_is_where_it_was_stored() {
    let path = place("data");
    let file = OpenOptions::new().read(true).write(true).create_new(true).open(&path).unwrap();
    file.set_len(8 << 20).unwrap();
    let sparse = file.metadata().unwrap().blocks() == 0 && file.data(0).unwrap().is_none();
    file.write_all_at(&[1; 4096], 4 << 20).unwrap();
    let range = file.data(0).unwrap().unwrap();
    assert!(range.start <= 4 << 20 && range.end >= (4 << 20) + 4096);
    assert!(!sparse || range.end - range.start < 1 << 20, "{range:?}");
    assert_eq!(file.data(range.end).unwrap(), None);
    assert_eq!(file.data(9 << 20).unwrap(), None);
    _ = fs::remove_file(path);
}
