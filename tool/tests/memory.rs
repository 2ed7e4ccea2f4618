//! Time and memory of a small change to a long file: holes cost neither, and
//! memory has the image once. One test, since the peak is that of all children.

mod common;

use std::fs::OpenOptions;
use std::os::unix::fs::{FileExt, MetadataExt};
use std::time::{Duration, Instant};

use common::{with_clusters, Copy};
use qstore_sys::peak_of_children;

const MIB: u64 = 1 << 20;

/// Clusters of 65,536 bytes: one refcount block covers a file of 1 GiB.
fn long(test: &str, length: u64) -> Copy {
    let copy = Copy::with(&with_clusters(16, 4, 1 << 30), test);
    OpenOptions::new().write(true).open(&copy.path).unwrap().set_len(length).unwrap();
    copy
}

fn write_a_byte(copy: &Copy, offset: u64) -> Duration {
    let start = Instant::now();
    let answer = copy.feed(&format!("write IMAGE {offset}"), b"x");
    assert!(answer.text.starts_with("wrote 1 bytes"), "{}", answer.error);
    start.elapsed()
}

#[test]
fn one_byte_in_a_long_file() {
    let copy = long("sparse", 1024 * MIB);
    let quickest = (0..3).map(|turn| write_a_byte(&copy, turn << 28)).min().unwrap();
    assert!(quickest < Duration::from_secs(1), "{quickest:?}");
    assert!(peak_of_children().unwrap() < 100 * MIB, "{}", peak_of_children().unwrap());
    assert_eq!(copy.run("check IMAGE").exit, 0);

    // A file of 16 clusters of 4,096 bytes made as long as can be: 127 blocks.
    let copy = Copy::with(&with_clusters(12, 16, 1 << 22), "extended");
    let start = Instant::now();
    let answer = copy.run("extend IMAGE 1G");
    assert!(answer.text.contains(" to 1073741824 bytes: 127 new refcount"), "{}", answer.error);
    assert!(start.elapsed() < Duration::from_secs(20), "{:?}", start.elapsed());
    assert!(peak_of_children().unwrap() < 100 * MIB, "{}", peak_of_children().unwrap());
    let stored = 512 * copy.path.metadata().unwrap().blocks();
    assert!(stored < 4 * MIB, "{stored}");
    assert_eq!(copy.run("check IMAGE").exit, 0);

    // A byte in 200 MiB of bytes that nothing refers to.
    let copy = long("full", 200 * MIB);
    let file = OpenOptions::new().write(true).open(&copy.path).unwrap();
    let data = vec![1; MIB as usize];
    (1..200).for_each(|at| file.write_all_at(&data, at * MIB).unwrap());
    write_a_byte(&copy, 0);
    let peak = peak_of_children().unwrap();
    assert!((200 * MIB..300 * MIB).contains(&peak), "{peak}");
}
