//! Every image made by qemu: info, check, map and read against MANIFEST.tsv.

mod common;

use common::{guest, images, manifest, qstore, Row};

fn words(line: &str) -> Vec<&str> {
    line.split(' ').collect()
}

fn path(row: &Row) -> String {
    images().join(&row.file).to_str().unwrap().into()
}

#[test]
fn exit_codes_of_check() {
    for row in manifest() {
        let last = words(row.report.rsplit(" | ").next().unwrap());
        let (exit, verdict) = match last[..] {
            ["verdict", "sound"] => (0, "\"verdict\": \"sound\"".to_string()),
            ["verdict", "leaks", number] => {
                (3, format!("\"verdict\": \"leaks\", \"leaks\": {number},"))
            }
            ["verdict", "damaged", "entry", l1, l2] => {
                (2, format!("\"entry\", \"l1_index\": {l1}, \"l2_index\": {l2},"))
            }
            ["verdict", "damaged", kind, cluster] => {
                (2, format!("\"finding\": \"{kind}\", \"cluster\": {cluster}"))
            }
            ["refused", number] => (1, format!("\"refused\": {number},")),
            _ => panic!("{}", row.report),
        };
        let answer = qstore(&["check", &path(&row), "--json"], &[]);
        assert_eq!(answer.exit, exit, "{}", row.file);
        assert!(answer.text.contains(&verdict), "{}: {}", row.file, answer.text);
        let answer = qstore(&["check", &path(&row)], &[]);
        assert_eq!(answer.exit, exit, "{}", row.file);
        if exit == 1 {
            assert!(answer.text.is_empty());
            assert!(answer.error.contains(&format!("refused ({})", last[1])), "{}", answer.error);
        } else {
            assert!(answer.text.starts_with(last[1]), "{}: {}", row.file, answer.text);
        }
    }
}

#[test]
fn figures_of_info() {
    for row in manifest() {
        let answer = qstore(&["info", &path(&row), "--json"], &[]);
        let lines: Vec<&str> = row.report.split(" | ").collect();
        if lines.len() == 1 {
            assert_eq!(answer.exit, 1, "{}", row.file);
            continue;
        }
        assert_eq!(answer.exit, 0, "{}", row.file);
        let (image, clusters) = (words(lines[0]), words(lines[1]));
        let leaked = if clusters[3] == "-" { "null" } else { clusters[3] };
        for (name, value) in [
            ("version", image[1]),
            ("cluster_size", image[2]),
            ("clusters", image[3]),
            ("disk_size", image[4]),
            ("l1_size", image[5]),
            ("clusters_in_use", clusters[1]),
            ("clusters_free", clusters[2]),
            ("clusters_leaked", leaked),
        ] {
            let member = format!("\"{name}\": {value},");
            assert!(answer.text.contains(&member), "{}: {member} {}", row.file, answer.text);
        }
        let text = qstore(&["info", &path(&row)], &[]).text;
        assert!(text.starts_with(&format!("version: {}\n", image[1])), "{text}");
    }
}

#[test]
fn reads_equal_those_of_qemu() {
    let mut compared = 0;
    for row in manifest().iter().filter(|row| row.read_equal) {
        let guest = guest(&row.file);
        let size = guest.len().to_string();
        let answer = qstore(&["read", &path(row), "0", &size], &[]);
        assert_eq!(answer.exit, 0, "{}: {}", row.file, answer.error);
        assert!(answer.out == guest, "{}", row.file);
        compared += 1;
    }
    assert!(compared >= 14);
}

/// The runs of the map join to the disk, and its data are the guest's.
#[test]
fn maps_cover_the_disk() {
    for row in manifest().iter().filter(|row| row.read_equal) {
        let answer = qstore(&["map", &path(row)], &[]);
        assert_eq!(answer.exit, 0, "{}", row.file);
        let (guest, image) = (guest(&row.file), std::fs::read(path(row)).unwrap());
        let mut start = 0;
        for line in answer.text.lines().skip(1) {
            let fields: Vec<&str> = line.split('\t').collect();
            let number = |text: &str| text.parse::<usize>().expect(text);
            assert_eq!(number(fields[0]), start, "{}", row.file);
            let length = number(fields[1]);
            let part = &guest[start..start + length];
            match fields[2] {
                "host" => assert!(part == &image[number(fields[3])..][..length], "{}", row.file),
                _ => assert!(part.iter().all(|&byte| byte == 0), "{}", row.file),
            }
            start += length;
        }
        assert_eq!(start, guest.len(), "{}", row.file);
    }
}
