//! Broken headers one by one, real images under random requests, and images of
//! the greatest length.
#![forbid(unsafe_code)]

use answers::{Found, Outcome, Over, Verdict};
use made::breaks::{break_header, ORDER};
use made::drive::usable;
use made::full::{self, Layout, Shape};
use made::image::{Kind, Made};
use made::longest;
use made::pair::Pair;
use made::real::{self, Real};
use made::requests::{Request, Requests};
use made::rng::Rng;
use plain::{Plain, ALONE};
use qcow2_core::Core;

const ALL: u64 = u64::MAX;

#[test]
fn breaks() {
    let mut rng = Rng::from_env("breaks", 61);
    let mut pair = Pair::new(&Core, &Plain);
    for _ in 0..40 {
        let sound = usable(&mut rng);
        for (first, &number) in ORDER.iter().enumerate() {
            for (last, &later) in ORDER.iter().enumerate().skip(first) {
                let mut made = sound.clone();
                if last > first {
                    break_header(&mut made, later, &mut rng);
                }
                break_header(&mut made, number, &mut rng);
                pair.load(&made);
                let mut requests = Requests::new(&made);
                (0..8).for_each(|_| _ = pair.run(&requests.any(&mut rng)));
            }
        }
    }
}

#[test]
fn edges() {
    let mut pair = Pair::new(&Core, &Plain);
    made::edges::each(|image, _| {
        pair.load_bytes(image, &[]);
        pair.run(&Request::Check { scratch: image.len() / 256 });
        pair.run(&Request::Translate { offset: 0 });
        pair.run(&Request::Translate { offset: (1 << 40) - 1 });
        pair.run(&Request::Translate { offset: 1 << 40 });
        pair.run(&write(0, 1, ALL));
    });
}

/// Snapshot tables, and what they let be read.
#[test]
fn snapshot_edges() {
    let mut pair = Pair::new(&Core, &Plain);
    made::snapshot_edges::each(|image, _| {
        pair.load_bytes(image, &[]);
        pair.run(&Request::Check { scratch: image.len() / 256 });
        for (snapshot, offset) in [(0, 0), (0, 1 << 15), (0, 1 << 40), (63, 0), (64, 0)] {
            pair.run(&Request::ReadSnapshot { snapshot, offset, len: 1 });
        }
        pair.run(&write(0, 1, 0));
    });
}

/// A made image's fields, taken from a real one of clusters of 512 bytes.
fn as_made(real: &Real) -> Made {
    let size = real.guest.as_ref().map_or(65_536, |guest| guest.size());
    let (bytes, backing) = (real.bytes.clone(), real.backing.clone());
    Made { bytes, size, backing, ..made::plan::bench_image() }
}

#[test]
fn real_images() {
    let mut rng = Rng::from_env("real images", 62);
    let mut pair = Pair::new(&Core, &Plain);
    for real in real::all() {
        let made = as_made(&real);
        let mut requests = Requests::new(&made);
        for k in 0..2000 {
            if k % 50 == 0 {
                pair.load(&made);
            }
            pair.run(&requests.any(&mut rng));
        }
    }
}

fn write(offset: u64, len: usize, allowance: u64) -> Request {
    Request::Write { offset, data: vec![0xAB; len], allowance }
}

#[test]
fn full_images() {
    let mut pair = Pair::new(&Core, &Plain);
    for (cluster_bits, order) in [(9, 4), (9, 0), (13, 5), (16, 1), (21, 3)] {
        let shape = Shape { order, ..Shape::of(cluster_bits) };
        let made = full::full_of(shape, Kind::Data, Layout::Rising);
        let (cluster, scratch) = (made.cluster(), made.scratch());
        pair.load(&made);
        pair.run(&Request::Check { scratch });
        pair.run(&Request::Check { scratch: scratch - 1 });
        pair.run(&Request::Read { offset: 0, len: made.size as usize });
        pair.run(&write(made.size - 1, 1, ALL));
        pair.run(&Request::Discard { cluster: made.guest_clusters() - 1, allowance: 1 });
        pair.run(&write(made.size - 1, 1, ALL));
        pair.run(&Request::Repair { scratch, allowance: ALL });
        pair.run(&write(made.size - cluster as u64, cluster, ALL));
        pair.run(&Request::Check { scratch });
    }
}

#[test]
fn last_cluster_free() {
    let mut pair = Pair::new(&Core, &Plain);
    for (cluster_bits, order) in [(9, 4), (9, 2), (9, 6), (16, 0), (21, 5)] {
        let shape = Shape { order, ..Shape::of(cluster_bits) };
        let (made, guest) = full::nearly_full(shape, 1);
        pair.load(&made);
        let offset = guest << cluster_bits;
        for allowance in [0, 1, ALL] {
            pair.run(&write(offset, 3, allowance));
        }
        pair.run(&Request::Lookup { offset });
        pair.run(&Request::Check { scratch: made.scratch() });
    }
}

/// The answer of both sides, each on an image of its own.
fn both<A: PartialEq>(images: &mut [Made; 2], call: impl Fn(Over, &mut [u8]) -> A) -> A {
    let [core, plain] = images;
    let answer = call(Over::none(&Core), &mut core.bytes);
    assert!(answer == call(ALONE, &mut plain.bytes), "the sides answer differently");
    answer
}

/// The verdict, where `offset` lies and what is read around it.
fn look(images: &mut [Made; 2], offset: u64) -> (Verdict, Found) {
    let scratch = images[0].scratch();
    let found = both(images, |side, image| {
        let (mut scratch, mut out) = (vec![7; scratch], [7; 6]);
        let verdict = side.check(image, &mut scratch);
        let read = side.read(image, offset - 4, &mut out);
        (
            verdict,
            side.translate(image, offset),
            scratch,
            read,
            out,
            side.lookup(image, offset).len(),
        )
    });
    (found.0, found.1)
}

/// Cluster sizes and orders. Clusters of 2^14 bytes with counts of 2 bits have
/// the most counts of one block in use, and with 2^21 bytes and 1 bit the fewest
/// of those it has room for.
const LONGEST: [(u32, u32); 4] = [(9, 4), (9, 0), (14, 1), (21, 0)];

/// The greatest length, with the last two clusters allotted and freed. No copy
/// of the images is made: they take little memory.
#[test]
fn longest_images() {
    for (cluster_bits, order) in LONGEST {
        let images = &mut [(); 2].map(|()| longest::last_two_free(cluster_bits, order));
        let (scratch, size) = (images[0].scratch(), images[0].size);
        let (offset, guest) = (size - 2, (size - 1) >> cluster_bits);
        let write = |side: Over, image: &mut [u8]| side.write(image, offset, b"ab", ALL);
        let (verdict, found) = look(images, offset);
        assert!(matches!(verdict, Verdict::Leaks(500..)), "{verdict:?}");
        assert_eq!(found, Found::Absent);
        assert_eq!(both(images, write), Outcome::Finished((2 << cluster_bits) + 4));
        assert_eq!(look(images, offset), (verdict, Found::Host((1 << 30) - 2)));
        assert_eq!(both(images, write), Outcome::Finished(2));
        let elsewhere = both(images, |side, image| side.write(image, 0, b"ab", ALL));
        assert_eq!(elsewhere, Outcome::Refused(14));
        let cut = both(images, |side, image| side.discard(image, guest, 1));
        assert_eq!(cut, Outcome::Stopped(1));
        let repaired = both(images, |side, image| side.repair(image, &mut vec![7; scratch], ALL));
        assert!(matches!(repaired, Outcome::Finished(500..)), "{repaired:?}");
        assert_eq!(look(images, offset), (Verdict::Sound, Found::Absent));
        assert!(images[0].bytes == images[1].bytes);
        images.iter_mut().for_each(longest::lengthen);
        assert_eq!(look(images, offset).0, Verdict::Refused(5));
    }
}
