//! What info says of the header, and all obstacles of a refused image.

mod common;

use std::fs::OpenOptions;

use common::made::{get64, over, put64};
use common::{bench_image, images, qstore, Copy};

const PLACE: u64 = 0x00FF_FFFF_FFFF_FE00;

fn with(test: &str, change: &dyn Fn(&mut Vec<u8>)) -> Copy {
    let mut image = bench_image();
    change(&mut image);
    Copy::with(&image, test)
}

/// The numbers that are listed; they stand in the text and in JSON.
fn numbers(copy: &Copy) -> Vec<u32> {
    let before = copy.bytes();
    let (text, json) = (copy.run("info IMAGE"), copy.run("info IMAGE --json"));
    assert!(copy.bytes() == before);
    let after = |text: &str, mark: &str| -> Vec<u32> {
        let digits = |part: &str| part.chars().take_while(char::is_ascii_digit).collect::<String>();
        text.split(mark).skip(1).map(|part| digits(part).parse().unwrap()).collect()
    };
    let numbers = after(&text.text, "\nrefused (");
    assert_eq!(after(&json.text, "\"number\": "), numbers, "{}", json.text);
    let exit = i32::from(!numbers.is_empty());
    assert_eq!((text.exit, json.exit), (exit, exit));
    if let Some(first) = numbers.first() {
        // The first is the core's own number.
        let check = copy.run("check IMAGE").error;
        assert!(check.contains(&format!("refused ({first})")), "{check}");
        assert!(json.text.contains(&format!("\"refused\": {first}, ")));
    }
    numbers
}

#[test]
fn all_obstacles() {
    type Case<'a> = (&'a [u32], &'a dyn Fn(&mut Vec<u8>));
    let cases: [Case; 37] = [
        (&[], &|_| ()),
        (&[1], &|image| image.truncate(511)),
        (&[2], &|image| image[0] = 0),
        (&[3], &|image| image[7] = 4),
        (&[4], &|image| image[23] = 8),
        (&[4, 6, 7], &|image| (image[23], image[63], image[79]) = (30, 65, 1)),
        (&[5], &|image| image.push(0)),
        (&[5, 6], &|image| (image.truncate(1552), image[103] = 112).1),
        (&[5, 6, 7, 8, 18, 9], &|image| {
            image.push(0);
            (image[35], image[79], image[24], image[31], image[43]) = (1, 1, 1, 1, 1);
        }),
        (&[6, 7], &|image| (image[63], image[79]) = (65, 8)),
        (&[6, 7, 10], &|image| (image[103], image[79], image[518]) = (112, 2, 5)),
        // The width of the counts is not known, nor which blocks there should be.
        (&[6], &|image| (image[99], image[518]) = (7, 5)),
        (&[6, 8], &|image| (image[99], image[24], image[518]) = (7, 1, 5)),
        (&[10], &|image| (image[99], image[518]) = (3, 5)),
        (&[6, 10], &|image| (image[99], image[63], image[518]) = (6, 65, 5)),
        (&[7, 10], &|image| (image[79], image[518]) = (1, 5)),
        (&[8], &|image| image[24] = 1),
        (&[8, 18], &|image| (image[24], image[31]) = (1, 1)),
        (&[8], &|image| image[39] = 0),
        (&[8, 9], &|image| (image[36], image[518]) = (1, 5)),
        (&[18], &|image| (image[31], image[39]) = (1, 3)),
        (&[18, 9], &|image| (image[29], image[31], image[55]) = (0, 1, 1)),
        (&[9], &|image| (image[43], image[518]) = (1, 5)),
        (&[10], &|image| image[518] = 5),
        (&[21], &|image| (image[63], image[71]) = (1, 1)),
        (&[21], &|image| (image[63], image[70], image[2055]) = (1, 8, 1)),
        (&[], &|image| (image[63], image[70], image[1033]) = (1, 8, 1)),
        (&[5, 6, 21], &|image| {
            (image.push(0), (image[63], image[71], image[103]) = (64, 1, 112)).1
        }),
        (&[7, 21], &|image| (image[63], image[71], image[79]) = (1, 1, 1)),
        // Without snapshots their table is not looked at.
        (&[6], &|image| (image[63], image[71]) = (65, 1)),
        (&[8, 18, 21], &|image| (image[24], image[31], image[63], image[71]) = (1, 1, 1, 1)),
        // A name of no byte, a good one, one that is too long, and one past the cluster.
        (&[19], &|image| image[15] = 200),
        (&[19], &|image| over(image, b"b.raw", None)),
        (&[19], &|image| (image[15], image[18]) = (200, 4)),
        (&[5, 6, 7, 19, 21], &|image| {
            over(image, b"b.raw", Some(b"raw"));
            (image[63], image[71], image[79], image[103]) = (1, 1, 1, 112);
            image.push(0);
        }),
        (&[19, 21], &|image| {
            (image[14], image[15], image[19], image[63], image[71]) = (1, 255, 2, 1, 1)
        }),
        // Behind 10 it cannot be asked for.
        (&[10], &|image| (image[15], image[518]) = (200, 5)),
    ];
    for (index, (wanted, change)) in cases.into_iter().enumerate() {
        let copy = with("obstacles", change);
        let text = copy.run("info IMAGE").text;
        assert_eq!(numbers(&copy), wanted, "case {index}: {text}");
    }
}

/// Changes to the file are told one by one; a new image is told once, for all.
#[test]
fn remedies_in_the_order_of_doing() {
    let copy = with("in-place", &|image| (image.truncate(1552), image[103] = 112).1);
    let text = copy.run("info IMAGE").text;
    let (pad, set) = (text.find("`truncate -s %512 "), text.find("`printf h | dd of="));
    assert!(pad.is_some() && pad < set && !text.contains("qemu-img"), "{text}");
    let copy = with("anew", &|image| {
        image.truncate(1552);
        (image[63], image[79]) = (65, 1);
    });
    let text = copy.run("info IMAGE").text;
    assert_eq!(numbers(&copy), [5, 6, 7]);
    assert_eq!(text.matches("`qemu-img convert ").count(), 1, "{text}");
    assert_eq!(text.matches("The new image does not have this.").count(), 2, "{text}");
    assert!(!text.contains("truncate -s %512") && text.contains("lacks the snapshots"), "{text}");
    // A new image made by qemu would lack the last bytes of such a disk.
    let copy = with("sectors", &|image| (image[63], image[29], image[31]) = (65, 0, 3));
    let text = copy.run("info IMAGE").text;
    assert_eq!(numbers(&copy), [6, 18]);
    assert!(
        text.contains("lacks the snapshots") && text.contains("and the disk's last 3 bytes"),
        "{text}"
    );
    // Sentences tell of the header as it is, whatever was mended in memory.
    let copy = with("disk-and-sectors", &|image| (image[36], image[24], image[31]) = (1, 1, 3));
    let text = copy.run("info IMAGE").text;
    assert_eq!(numbers(&copy), [8, 18, 9]);
    assert!(text.contains("(18): the disk has 72057594037993475 bytes,"), "{text}");
    assert!(text.contains("the L1 table stands at 1536 and has 134217744 bytes"), "{text}");
    // What no new image changes keeps its own sentence.
    let copy = with("disk", &|image| (image[63], image[24]) = (65, 1));
    let text = copy.run("info IMAGE").text;
    assert_eq!(numbers(&copy), [6, 8]);
    assert!(text.contains("No command makes a disk shorter"), "{text}");
}

#[test]
fn compressed_clusters_are_an_obstacle() {
    let copy = with("obstacle-13", &|image| {
        _ = qcow2_core::write(image, &[], 0, b"x", u64::MAX);
        let table = (get64(image, 1536) & PLACE) as usize;
        put64(image, table, 1 << 62 | 4000);
        image[103] = 112;
        image.push(0);
    });
    let text = copy.run("info IMAGE").text;
    assert!(text.contains("\nrefused (5)") && text.contains("\nrefused (6)"), "{text}");
    assert!(text.contains("\nrefused (13): 1 cluster(s) of the disk are compressed"), "{text}");
    assert_eq!(text.matches("`qemu-img convert ").count(), 1);
    assert!(!text.contains("dd of="), "{text}");
    let json = copy.run("info IMAGE --json").text;
    assert!(json.contains("\"compressed\": 1}]"), "{json}");
}

#[test]
fn what_the_header_says() {
    let copy = with("facts", &|image| {
        image[104..109].copy_from_slice(b"b.raw");
        (image[15], image[19]) = (104, 5);
        (image[35], image[63], image[99], image[103]) = (2, 65, 0, 112);
        (image[79], image[87], image[95]) = (0b10_0001, 1, 3);
    });
    let text = copy.run("info IMAGE").text;
    for line in [
        "version: 3\n",
        "file size: 8192 (16 clusters of 512 bytes)\n",
        "disk size: 65536\n",
        "L1 entries: 2\n",
        "refcount bits: 1\n",
        "header length: 112\n",
        "incompatible_features: 0x21: bit 0 (dirty: its counts may be wrong), bit 5 (not known)\n",
        "compatible_features: 0x1: bit 0 (lazy refcounts)\n",
        "autoclear_features: 0x3: bit 0 (persistent bitmaps), bit 1 (raw external data)\n",
        "backing file: \"b.raw\"\n",
        "encryption method: 2\n",
        "snapshots: 65\n  and 65 that cannot be listed\n",
        "refused (6): the disk is encrypted (LUKS); the \
         image has 65 internal snapshots, and at most 64 are accepted; header_length is 112 as qemu 5.1 and later make it, and \
         only 104 is accepted\n",
    ] {
        assert!(text.contains(line), "{line}: {text}");
    }
    let json = copy.run("info IMAGE --json").text;
    for member in [
        "\"version\": 3, \"file_size\": 8192, \"cluster_size\": 512, \"clusters\": 16,",
        "\"l1_size\": 2, \"crypt_method\": 2, \"snapshots\": 65,",
        "\"backing_file\": \"b.raw\", \"backing_file_hex\": null, \"backing_format\": null, ",
        "\"refcount_bits\": 1, \"header_length\": 112, \"incompatible_features\": 33,",
        "\"features\": [\"incompatible_features bit 0 (dirty: its counts may be wrong)\", ",
    ] {
        assert!(json.contains(member), "{member}: {json}");
    }
    let file = images().join("04-v2-512-data.qcow2");
    let text = qstore(&["info", file.to_str().unwrap()], &[]).text;
    assert!(text.starts_with("version: 2\n") && !text.contains("header length"), "{text}");
    let copy = Copy::with(b"no image", "facts-short");
    assert!(copy.run("info IMAGE").text.starts_with("file size: 8\nrefused (1): "));
    // Text of the image's maker cannot pass for lines of the answer.
    let copy = with("facts-name", &|image| {
        image[104..109].copy_from_slice(b"b\nok:");
        (image[15], image[19]) = (104, 5);
    });
    assert!(copy.run("info IMAGE").text.contains("backing file: \"b\\nok:\"\n"));
}

#[test]
fn files_that_are_too_long() {
    let copy = with("info-long", &|image| (image[63], image[103]) = (65, 112));
    OpenOptions::new().write(true).open(&copy.path).unwrap().set_len((1 << 30) + 512).unwrap();
    let text = copy.run("info IMAGE").text;
    assert!(text.starts_with("version: 3\nfile size: 1073742336 "), "{text}");
    assert!(text.contains("\nrefused (5): ") && text.contains("\nrefused (6): "), "{text}");
    assert_eq!(text.matches("\nrefused (").count(), 2, "{text}");
    let json = copy.run("info IMAGE --json");
    assert!(json.exit == 1 && json.text.contains("\"obstacles\": [{\"number\": 5, "));
    let shown = copy.run("check IMAGE --as-if-mended");
    assert!(shown.exit == 1 && shown.error.contains("refused (5)"), "{}", shown.error);
}
