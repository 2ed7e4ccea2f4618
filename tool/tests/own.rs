//! The file as it is: its own facts, notes and advice, whatever was mended in
//! memory or could not be read.

mod common;

use std::fs::OpenOptions;

use common::made::{made, put64, Made};
use common::{bench_image, Copy};

fn with(test: &str, change: &dyn Fn(&mut Vec<u8>)) -> Copy {
    let mut image = bench_image();
    change(&mut image);
    Copy::with(&image, test)
}

#[test]
fn notes_on_files_that_are_too_long() {
    let copy = with("own-long", &|_| ());
    OpenOptions::new().write(true).open(&copy.path).unwrap().set_len((1 << 30) + 512).unwrap();
    for line in ["info IMAGE", "check IMAGE", "map IMAGE", "read IMAGE 0 1"] {
        let answer = copy.run(&format!("{line} --share --as-if-mended"));
        assert!(answer.exit == 1 && answer.error.contains("note: looked at without a lock"));
        assert!(answer
            .error
            .contains("note: as it is: --as-if-mended mends no file of this length"));
        let json = copy.run(&format!("{line} --share --json")).text;
        assert!(json.contains("\"notes\": [\"looked at without a lock"), "{json}");
        assert!(!copy.run(line).error.contains("note: "));
    }
}

/// Other versions have other fields.
#[test]
fn versions_that_are_not_known() {
    for version in [0, 1, 4] {
        let copy = with("own-version", &|image| (image[7], image[35]) = (version, 9));
        let text = copy.run("info IMAGE").text;
        let wanted = format!("version: {version}\nfile size: 8192\nrefused (3): ");
        assert!(text.starts_with(&wanted), "{text}");
        let json = copy.run("info IMAGE --json").text;
        assert!(json.contains(&format!("\"version\": {version}, \"file_size\": 8192, \"refused\"")));
    }
}

#[test]
fn facts_of_the_file_itself() {
    let copy = with("own-facts", &|image| (image[103] = 112, image.truncate(1552)).1);
    let text = copy.run("info IMAGE --as-if-mended").text;
    assert!(text.contains("header length: 112\n") && text.contains("file size: 1552 "), "{text}");
    assert!(text.contains("verdict: sound"), "{text}");
    let json = copy.run("info IMAGE --as-if-mended --json").text;
    assert!(json.contains("\"header_length\": 112,") && json.contains("\"file_size\": 1552,"));
    // Version 2 has no header_length.
    let two = Copy::with(&made(2, 9, 40, 65_536).image, "own-two");
    assert!(two.run("info IMAGE --json").text.contains("\"header_length\": null,"));
}

/// A repair would refuse the file as it is.
#[test]
fn leaks_of_an_image_as_if_mended() {
    let leaking = |image: &mut Vec<u8>| image[1024 + 2 * 10 + 1] = 1;
    let copy = with("own-leaks", &|image| (image[103] = 112, leaking(image)).1);
    let answer = copy.run("check IMAGE --as-if-mended");
    assert_eq!(answer.exit, 3);
    assert!(answer.text.contains("first do what 'qstore check' without"), "{}", answer.text);
    let copy = with("own-leaks", &leaking);
    let answer = copy.run("check IMAGE --as-if-mended");
    assert!(answer.exit == 3 && !answer.text.contains("first do"), "{}", answer.text);
}

/// The last L1 entry reaches past the disk's end.
#[test]
fn ranges_end_with_the_disk() {
    let Made { mut image, l1_at, .. } = made(3, 9, 40, 33_280);
    put64(&mut image, l1_at + 8, 3);
    let copy = Copy::with(&image, "own-range");
    let text = copy.run("check IMAGE").text;
    assert!(text.contains("L1 entry 1 (512 bytes at guest offset 32768)"), "{text}");
    let json = copy.run("check IMAGE --json").text;
    assert!(json.contains("\"guest_offset\": 32768, \"length\": 512,"), "{json}");
}
