//! --as-if-mended: what is printed is what the mended file gives, and the file
//! is not changed.

mod common;

use std::fs;

use common::made::made;
use common::{bench_image, images, Copy};

const LINES: [&str; 4] = ["info IMAGE", "check IMAGE", "map IMAGE", "read IMAGE 0 40000"];

/// The file with the two remedies made.
fn mended(bytes: &[u8]) -> Vec<u8> {
    let mut bytes = bytes.to_vec();
    let cluster = 1usize << bytes[23];
    bytes.resize(bytes.len().next_multiple_of(cluster), 0);
    if bytes[7] == 3 {
        bytes[103] = 104;
    }
    bytes
}

/// Without the lines of info that are about the file as it is.
fn shown<'a>(line: &str, text: &'a str) -> Vec<&'a str> {
    let own = ["file size: ", "header length: "];
    let of_file = |text: &&str| line == LINES[0] && own.iter().any(|own| text.starts_with(own));
    text.lines().filter(|text| !of_file(text)).collect()
}

fn as_if(name: &str, bytes: &[u8], notes: &[&str]) {
    let (copy, other) = (Copy::with(bytes, name), Copy::with(&mended(bytes), "mended-other"));
    for line in LINES {
        let wanted = other.run(line);
        assert_eq!(wanted.exit, 0, "{name}: {}", wanted.error);
        let answer = copy.run(&format!("{line} --as-if-mended"));
        let same = shown(line, &answer.text) == shown(line, &wanted.text);
        assert!(same && answer.exit == 0, "{name}: {line}: {}", answer.error);
        for note in notes {
            assert!(answer.error.contains(note), "{name}: {line}: {}", answer.error);
        }
        assert_eq!(answer.error.matches("note: ").count(), notes.len(), "{}", answer.error);
        let json = copy.run(&format!("{line} --as-if-mended --json"));
        assert!(json.exit == 0 && json.error.is_empty() && json.text.contains("\"notes\": ["));
        assert!(copy.bytes() == bytes, "{name}: {line}");
    }
}

#[test]
fn what_is_printed_is_what_the_mended_file_gives() {
    let refused = |name: &str| fs::read(images().join("refused").join(name)).unwrap();
    let padded = "as if padded with 496 zero bytes to 2048; the file is not changed";
    let length = "as if header_length were 104, not 112; the file is not changed";
    as_if("mended-made", &refused("05-v3-empty-as-made.qcow2"), &[padded, length]);
    as_if("mended-length", &refused("06-v3-data-hl112.qcow2"), &[length]);
    // Snapshots are not in the way.
    let mut kept = fs::read(images().join("22-v3-512-snapshot.qcow2")).unwrap();
    kept[103] = 112;
    as_if("mended-snapshot", &kept, &[length]);
    let mut both = bench_image();
    both[103] = 112;
    both.truncate(1552);
    as_if("mended-both", &both, &[padded, length]);
    // Version 2 has no header_length.
    let mut two = made(2, 9, 40, 65_536).image;
    two[103] = 112;
    two.truncate(9 * 512 + 1);
    as_if("mended-two", &two, &["as if padded with 511 zero bytes to 5120"]);
    as_if("mended-nothing", &bench_image(), &["as it is: --as-if-mended found nothing to mend"]);
}

#[test]
fn what_is_not_mended() {
    let mut bytes = bench_image();
    bytes[63] = 65;
    let many = Copy::with(&bytes, "mended-snapshots");
    for line in LINES {
        let answer = many.run(&format!("{line} --as-if-mended"));
        assert_eq!(answer.exit, 1, "{line}");
        let shown = answer.text + &answer.error;
        assert!(shown.contains("refused (6): the image has 65 internal"), "{line}: {shown}");
        assert!(shown.contains("found nothing to mend"), "{line}: {shown}");
    }
    // Not for commands that change the file.
    for line in ["write IMAGE 0 --as-if-mended", "repair IMAGE --as-if-mended"] {
        let answer = many.run(line);
        assert!(answer.exit == 1 && answer.error.contains("no option '--as-if-mended' here"));
    }
}
