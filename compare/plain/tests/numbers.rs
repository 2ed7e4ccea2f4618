//! Headers broken at each number, alone and with a later break beside it, and
//! the limits of the image's length.
#![forbid(unsafe_code)]

use made::breaks::{break_header, ORDER};
use made::drive::usable;
use made::image::Made;
use made::longest;
use made::plan::{bench_image, Plan};
use made::rng::Rng;
use plain::{Found, Outcome, Over, Plain, Verdict, ALONE};

/// Every call refuses the image with this number and changes nothing.
fn all_refuse(made: &mut Made, number: u32) {
    let before = made.bytes.clone();
    let (side, image) = (Over { calls: &Plain, backing: &made.backing }, &mut made.bytes);
    let (mut scratch, mut out, mut numbers) = ([7; 3], [7; 3], [7; 3]);
    assert_eq!(side.translate(image, u64::MAX), Found::Refused(number));
    assert_eq!(side.read(image, u64::MAX, &mut out), Err(number));
    assert_eq!(side.read_snapshot(image, u64::MAX, u64::MAX, &mut out), Err(number));
    assert!(side.lookup(image, 0).is_empty());
    assert_eq!(side.geometry(image), Err(number));
    assert_eq!(side.runs(image, u64::MAX, u64::MAX, &mut numbers), Err(number));
    assert_eq!(side.write(image, u64::MAX, &out, 9), Outcome::Refused(number));
    assert_eq!(side.discard(image, u64::MAX, 9), Outcome::Refused(number));
    assert_eq!(side.check(image, &mut scratch[..0]), Verdict::Refused(number));
    assert_eq!(side.repair(image, &mut scratch, 9), Outcome::Refused(number));
    // A good name is enough there.
    if number != 19 {
        let n = image.len() as u64;
        assert_eq!(side.calls.extend(image, n, 9), Outcome::Refused(number));
    }
    assert!(*image == before && scratch == [7; 3] && out == [7; 3] && numbers == [7; 3]);
}

#[test]
fn breaks() {
    let mut rng = Rng::from_env("breaks", 1);
    let mut tried = [0; ORDER.len()];
    for _ in 0..400 {
        let sound = usable(&mut rng);
        for (first, &number) in ORDER.iter().enumerate() {
            for (last, &later) in ORDER.iter().enumerate().skip(first) {
                let mut made = sound.clone();
                let beside = last > first && break_header(&mut made, later, &mut rng);
                if break_header(&mut made, number, &mut rng) {
                    all_refuse(&mut made, number);
                    tried[first] += 1 + u32::from(beside);
                }
            }
        }
    }
    assert!(tried.iter().all(|&count| count > 100), "{tried:?}");
}

fn refusal(image: &[u8]) -> u32 {
    match ALONE.check(image, &mut vec![0; image.len() / 256 + 1]) {
        Verdict::Refused(number) => number,
        _ => 0,
    }
}

#[test]
fn longest_images() {
    for (cluster_bits, order) in [(9, 4), (9, 0), (16, 6), (21, 0)] {
        let mut made = longest::last_two_free(cluster_bits, order);
        assert_eq!((made.bytes.len(), refusal(&made.bytes)), (1_073_741_824, 0));
        longest::lengthen(&mut made);
        assert_eq!(refusal(&made.bytes), 5);
    }
}

#[test]
fn edges() {
    let mut k = 0;
    made::edges::each(|image, number| {
        assert_eq!(refusal(image), number, "edge {k}");
        k += 1;
    });
    assert!(k > 400, "{k} edges");
}

#[test]
fn snapshot_edges() {
    let mut k = 0;
    made::snapshot_edges::each(|image, number| {
        assert_eq!(refusal(image), number, "edge {k}");
        k += 1;
    });
    assert!(k > 200, "{k} edges");
}

#[test]
fn tables_at_the_end() {
    // An L1 table of no entries may stand at the image's end, not past it.
    let mut made = bench_image();
    made.put64(24, 0);
    made.put32(36, 0);
    for (place, number) in [(8192, 0), (8192 + 512, 9), (0, 0), (u64::MAX - 511, 9)] {
        made.put64(40, place);
        assert_eq!(refusal(&made.bytes), number);
    }
    // One that ends where the image ends.
    let mut made = bench_image();
    for (l1_size, number) in [(64, 0), (65, 9)] {
        made.put32(36, l1_size);
        made.put64(40, 15 * 512);
        made.bytes[15 * 512..].fill(0);
        assert_eq!(refusal(&made.bytes), number);
    }
}

/// The last guest cluster may be partly beyond the disk's end.
#[test]
fn partial_cluster() {
    let plan = Plan {
        version: 3,
        cluster_bits: 10,
        order: 4,
        size: 65_024,
        l1_size: 1,
        spare: 2,
        longer_table: 0,
        autoclear: 0,
    };
    let mut made = plan.build(&mut Rng::new(3));
    let image = &mut made.bytes;
    assert_eq!(ALONE.write(image, 65_023, &[5, 5], u64::MAX), Outcome::Refused(11));
    assert_eq!(ALONE.write(image, 65_023, &[5], u64::MAX), Outcome::Finished(2052));
    assert_eq!(ALONE.lookup(image, 65_023), [5]);
    assert_eq!(ALONE.lookup(image, 64_512).len(), 512);
    assert_eq!(ALONE.translate(image, 65_024), Found::Refused(11));
    assert_eq!(ALONE.discard(image, 64, u64::MAX), Outcome::Refused(11));
    assert_eq!(ALONE.discard(image, 63, u64::MAX), Outcome::Finished(2));
    assert_eq!(ALONE.translate(image, 65_023), Found::Absent);
}

#[test]
fn order_after_ten() {
    let mut made = bench_image();
    let mut scratch = [7; 32];
    made.put64(made.l1_at, 1);
    let image = &mut made.bytes;
    // 11 before the entry, a length of 0 looks at none, 15 before the verdict.
    assert_eq!(ALONE.translate(image, 65_536), Found::Refused(11));
    assert_eq!(ALONE.translate(image, 65_535), Found::Absent);
    assert_eq!(ALONE.translate(image, 0), Found::Refused(12));
    assert_eq!(ALONE.read(image, 0, &mut [0; 65_537]), Err(11));
    assert_eq!(ALONE.read(image, 32_767, &mut [0; 2]), Err(12));
    assert_eq!(ALONE.read(image, 0, &mut []), Ok(()));
    assert_eq!(ALONE.write(image, 0, &[], 0), Outcome::Finished(0));
    assert_eq!(ALONE.write(image, 0, &[1], 0), Outcome::Refused(12));
    assert_eq!(ALONE.discard(image, 63, 0), Outcome::Refused(12));
    assert_eq!(ALONE.check(image, &mut scratch[..31]), Verdict::Refused(15));
    assert_eq!(ALONE.repair(image, &mut scratch[..31], 0), Outcome::Refused(15));
    assert_eq!(scratch, [7; 32]);
    assert_eq!(ALONE.repair(image, &mut scratch, 0), Outcome::Refused(17));
    assert_eq!(scratch[..10], [0, 1, 0, 1, 0, 1, 0, 1, 0, 0]);
    assert_eq!(scratch[10..], [0; 22]);
}
