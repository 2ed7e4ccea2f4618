//! The name of a backing file that stands in an image: shown whatever it is, obeyed
//! by no terminal, and never opened.

mod common;

use std::fs::{self, OpenOptions};
use std::os::unix::ffi::OsStrExt;
use std::path::{Path, PathBuf};
use std::process::Command;

use common::made::{made, over, put64};
use common::{bench_image, ended, Copy, Pair};

const LOOKS: [&str; 5] =
    ["info IMAGE", "check IMAGE", "map IMAGE", "read IMAGE 0 1", "read IMAGE 0 1 --snapshot x"];
const CHANGES: [&str; 4] =
    ["write IMAGE 0", "discard IMAGE 0 512", "repair IMAGE", "extend IMAGE 32M"];

/// Clusters of 4,096 bytes, so that the longest name fits.
fn named(name: &[u8], format: Option<&[u8]>) -> Vec<u8> {
    let mut image = made(3, 12, 16, 65_536).image;
    over(&mut image, name, format);
    image
}

/// What may stand on a terminal.
fn is_tame(text: &str) {
    assert!(text.chars().all(|letter| letter == '\n' || !letter.is_control()), "{text:?}");
}

/// Names, as they are shown, and as JSON has them.
fn hostile() -> Vec<(Vec<u8>, String, String)> {
    let long = vec![b'n'; 1023];
    let wild: Vec<u8> = (0..1023).map(|k| (k % 256) as u8).collect();
    let row = |name: &[u8], shown: &str, json: &str| (name.to_vec(), shown.into(), json.into());
    let (text, null) = (String::from_utf8(long.clone()).unwrap(), "\"backing_file_hex\": null");
    vec![
        row(
            b"\x1b[2J\x1b]0;owned\x07",
            r#""\u{1b}[2J\u{1b}]0;owned\u{7}""#,
            r#""\u001b[2J\u001b]0;owned\u0007""#,
        ),
        row(b"a\nverdict: sound\n", r#""a\nverdict: sound\n""#, r#""a\nverdict: sound\n""#),
        row(
            b"a\", \"refused\": 1, \"",
            r#""a\", \"refused\": 1, \"""#,
            r#""a\", \"refused\": 1, \"""#,
        ),
        row(
            "\u{9b}31mrot\u{202e}".as_bytes(),
            r#""\u{9b}31mrot\u{202e}""#,
            "\"\\u009b31mrot\u{202e}\"",
        ),
        row(b"\0", r#""\0""#, r#""\u0000""#),
        row(
            b"\xff\xfe/etc",
            r#""\xFF\xFE/etc""#,
            "\"\u{fffd}\u{fffd}/etc\", \"backing_file_hex\": \"fffe2f657463\"",
        ),
        row(&long, &format!("\"{text}\""), &format!("\"{text}\", {null}")),
        row(&wild, r#""\0\u{1}\u{2}"#, r#""\u0000\u0001\u0002"#),
    ]
}

#[test]
fn hostile_names_are_shown() {
    for (name, shown, json) in hostile() {
        let pair = Pair::with(&named(&name, Some(&name[..name.len().min(40)])), &[1; 9], "hostile");
        for answer in [pair.run("info IMAGE"), pair.image.run("info IMAGE")] {
            is_tame(&(answer.text.clone() + &answer.error));
            let line = format!("\nbacking file: {shown}");
            assert!(answer.text.contains(&line), "{}", answer.text);
            assert!(answer.text.contains("\nbacking file's format: \""), "{}", answer.text);
            // What the name says is no line of the answer.
            let verdicts = answer.text.lines().filter(|line| line.starts_with("verdict: "));
            assert_eq!(verdicts.count(), usize::from(answer.exit == 0), "{}", answer.text);
        }
        for answer in [pair.run("info IMAGE --json"), pair.image.run("info IMAGE --json")] {
            is_tame(&answer.text);
            assert!(answer.text.contains(&format!("\"backing_file\": {json}")), "{}", answer.text);
            assert!(answer.text.ends_with("}\n") && answer.text.lines().count() == 1);
        }
        for line in LOOKS.iter().chain(&CHANGES) {
            let answer = pair.image.feed(line, b"x");
            is_tame(&(answer.text.clone() + &answer.error));
            is_tame(&pair.image.feed(&format!("{line} --json"), b"x").text);
            is_tame(&(pair.feed(line, b"x").error));
        }
        assert!(pair.image.run("check IMAGE").error.contains(&shown[..4.min(shown.len())]));
    }
}

/// A name in an image that is refused for something else is shown too; a bad one is
/// not read.
#[test]
fn names_of_refused_images() {
    for spoil in [&|image: &mut Vec<u8>| image.push(0), &|image: &mut Vec<u8>| image[103] = 120]
        as [&dyn Fn(&mut Vec<u8>); 2]
    {
        let mut image = named(b"b\x1b.raw", None);
        spoil(&mut image);
        let text = Copy::with(&image, "name-refused").run("info IMAGE").text;
        assert!(text.contains("\nbacking file: \"b\\u{1b}.raw\"\n"), "{text}");
    }
    for (at, length, sentence) in [
        (200, 0, "whose name has no byte"),
        (200, 1024, "has 1024 bytes; at most 1023 are accepted"),
        (512, 1, "1 bytes at 512, does not lie inside the first cluster of 512 bytes"),
        (508, 5, "5 bytes at 508, does not lie inside"),
        (u64::MAX, 1, "1 bytes at 18446744073709551615, does not lie inside"),
        (u64::MAX, u32::MAX, "has 4294967295 bytes; at most"),
    ] {
        let mut image = bench_image();
        put64(&mut image, 8, at);
        image[16..20].copy_from_slice(&length.to_be_bytes());
        let pair = Pair::with(&image, &[1; 9], "name-bad");
        for answer in [pair.run("check IMAGE"), pair.image.run("check IMAGE")] {
            assert!(answer.error.contains("refused (19): "), "{}", answer.error);
            assert!(answer.error.contains(sentence), "{}", answer.error);
            // qemu refuses all of them but the first.
            let refuses = answer.error.contains("such a name of a backing file, and qemu refuses");
            assert_eq!(refuses, length != 0, "{}", answer.error);
        }
        assert!(pair.run("info IMAGE").text.contains("\nbacking file: not readable\n"));
    }
    // The last byte of the cluster is inside.
    let mut image = bench_image();
    put64(&mut image, 8, 511);
    image[19] = 1;
    assert_eq!(Pair::with(&image, &[1; 9], "name-last").run("check IMAGE").text, "sound\n");
}

/// A FIFO that no one writes to: whoever opens it waits.
struct Trap(PathBuf);

impl Trap {
    fn new() -> Trap {
        let name = format!("trap-{}", std::process::id());
        let path = Path::new(env!("CARGO_TARGET_TMPDIR")).join(name);
        _ = fs::remove_file(&path);
        assert!(Command::new("mkfifo").arg(&path).status().unwrap().success());
        Trap(path)
    }
}

impl Drop for Trap {
    fn drop(&mut self) {
        _ = fs::remove_file(&self.0);
    }
}

/// The exit code of a command that has to end by itself.
fn ends(copy: &Copy, line: &str) -> i32 {
    let image = copy.path.to_str().unwrap();
    let words = line.split(' ').map(|word| if word == "IMAGE" { image } else { word });
    let mut command = Command::new(env!("CARGO_BIN_EXE_qstore"));
    // A name without a folder would be looked for here.
    command.args(words).current_dir(env!("CARGO_TARGET_TMPDIR"));
    ended(&mut command).status.code().unwrap()
}

/// By its path, and by its name beside the image, with and without a file that is
/// given; and one that is not there is not made.
#[test]
fn the_named_file_is_not_opened() {
    let trap = Trap::new();
    let beside = trap.0.file_name().unwrap().as_bytes();
    let missing = trap.0.with_extension("missing");
    for name in [trap.0.as_os_str().as_bytes(), beside, missing.as_os_str().as_bytes()] {
        let pair = Pair::with(&named(name, Some(b"raw")), &[1; 9], "trap");
        let given = format!(" --backing {}", pair.backing.path.to_str().unwrap());
        for line in LOOKS.iter().chain(&CHANGES) {
            assert_eq!(ends(&pair.image, line), 1, "{line}");
            // 11 without a snapshot, 20 without an L2 table.
            let accepted = !line.contains("--snapshot") && !line.starts_with("discard");
            assert_eq!(ends(&pair.image, &format!("{line}{given}")) == 0, accepted, "{line}");
            let json = format!("{line}{given} --json");
            assert_eq!(ends(&pair.image, &json) == 0, accepted, "{line}");
        }
        for line in LOOKS {
            ends(&pair.image, &format!("{line} --share --as-if-mended"));
            ends(&pair.image, &format!("{line}{given} --share --as-if-mended"));
        }
        assert!(!missing.exists());
    }
}

/// Nor by a command that is advised: qemu is told of the file that is given, or the
/// advice is to give one.
#[test]
fn no_advised_command_opens_it() {
    let mut image = named(b"/etc/passwd", Some(b"raw"));
    image[79] = 1;
    let pair = Pair::with(&image, &[1; 9], "advised");
    for command in ["check IMAGE", "info IMAGE"] {
        let answer = pair.image.run(command);
        let said = answer.text + &answer.error;
        assert!(said.contains("refused (7)") && !said.contains('`'), "{said}");
        assert!(said.contains("would open the file that the image names"), "{said}");
        assert!(said.contains("Ask again with --backing FILE"), "{said}");
        let answer = pair.run(command);
        let said = answer.text + &answer.error;
        let given = format!("backing.file.filename={} ", pair.backing.path.to_str().unwrap());
        for command in said.split('`').skip(1).step_by(2) {
            assert!(command.contains("--image-opts") && command.contains(&given), "{command}");
        }
        assert_eq!(said.matches("`qemu-img ").count(), 2, "{said}");
        assert!(said.contains("has the backing file's bytes in it, and no backing file"), "{said}");
    }
    // The same where the file is too long to be read.
    let file = OpenOptions::new().write(true).open(&pair.image.path).unwrap();
    file.set_len((1 << 30) + 4096).unwrap();
    for command in ["check IMAGE", "info IMAGE"] {
        let (with, without) = (pair.run(command), pair.image.run(command));
        assert!((without.text + &without.error).contains("Ask again with --backing FILE"));
        let said = with.text + &with.error;
        assert!(said.contains("refused (5)"), "{said}");
        assert_eq!(said.matches("backing.file.filename=").count(), 2, "{said}");
    }
    file.set_len(65_536).unwrap();
    // A name of the file that is given which no command can have.
    let odd = pair.backing.path.with_extension("\u{1b}");
    fs::copy(&pair.backing.path, &odd).unwrap();
    let words = ["check", pair.image.path.to_str().unwrap(), "--backing", odd.to_str().unwrap()];
    let said = common::qstore(&words, &[]).error;
    assert!(said.contains("The backing file's name cannot be printed") && !said.contains('`'));
    fs::remove_file(odd).unwrap();
}
