//! The text that the paper's small program writes for an image.

use answers::{Over, Verdict};

fn number(image: &[u8], at: usize, len: usize) -> u64 {
    image[at..at + len].iter().fold(0, |value, &byte| value << 8 | u64::from(byte))
}

/// Lines with their fields parted by tabs.
pub fn report(side: Over, image: &[u8]) -> String {
    if image.len() > 65_536 {
        return "refused\tlong\n".into();
    }
    let mut scratch = vec![0; image.len()];
    let verdict = side.check(image, &mut scratch);
    if let Verdict::Refused(number) = verdict {
        return format!("refused\t{number}\n");
    }
    let cluster = 1usize << number(image, 20, 4);
    let clusters = image.len() / cluster;
    let (version, size, l1_size) =
        (number(image, 4, 4), number(image, 24, 8), number(image, 36, 4));
    let free = (0..clusters).filter(|&k| stored_count(image, cluster, k) == 0).count();
    let leaked = match verdict {
        Verdict::Sound => "0".into(),
        Verdict::Leaks(leaks) => leaks.to_string(),
        _ => "-".into(),
    };
    format!(
        "image\t{version}\t{cluster}\t{clusters}\t{size}\t{l1_size}\n\
         clusters\t{}\t{free}\t{leaked}\n\
         verdict\t{}\n",
        clusters - free,
        spell(verdict)
    )
}

fn stored_count(image: &[u8], cluster: usize, index: usize) -> u64 {
    let order = if number(image, 4, 4) == 2 { 4 } else { number(image, 96, 4) };
    let (width, per_block) = (1usize << order, (8 * cluster) >> order);
    let table = number(image, 48, 8) as usize;
    let block = number(image, table + 8 * (index / per_block), 8) as usize;
    let bit = width * (index % per_block);
    match width {
        8.. => number(image, block + bit / 8, width / 8),
        _ => number(image, block + bit / 8, 1) >> (bit % 8) & ((1 << width) - 1),
    }
}

fn spell(verdict: Verdict) -> String {
    match verdict {
        Verdict::Sound => "sound".into(),
        Verdict::Leaks(leaks) => format!("leaks\t{leaks}"),
        Verdict::BadL1(l1) => format!("damaged\tentry\t{l1}\t-"),
        Verdict::BadL2(l1, l2) => format!("damaged\tentry\t{l1}\t{l2}"),
        Verdict::SnapshotBadL1(l1, snapshot) => format!("damaged\tentry\t{l1}\t-\t{snapshot}"),
        Verdict::SnapshotBadL2(l1, l2, snapshot) => {
            format!("damaged\tentry\t{l1}\t{l2}\t{snapshot}")
        }
        Verdict::Shared(cluster) => format!("damaged\tshared\t{cluster}"),
        Verdict::Short(cluster) => format!("damaged\tshort\t{cluster}"),
        Verdict::MarkL1(l1) => format!("damaged\tmark\t{l1}\t-"),
        Verdict::MarkL2(l1, l2) => format!("damaged\tmark\t{l1}\t{l2}"),
        Verdict::Refused(number) => format!("refused\t{number}"),
    }
}
