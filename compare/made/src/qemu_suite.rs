//! Snapshots of qemu's and its images over a backing file under one implementation,
//! and what qemu says afterwards.

use answers::{Calls, Over, Verdict};
use plain::plain_disk::{Call, Series};

use crate::plan::per_block;
use crate::qemu::{installed, Qemu};
use crate::rng::Rng;

const OPTIONS: [(&str, u32, u32); 5] = [
    ("compat=0.10,cluster_size=512", 9, 4),
    ("compat=0.10,cluster_size=4096", 12, 4),
    ("compat=1.1,cluster_size=512,refcount_bits=2", 9, 1),
    ("compat=1.1,cluster_size=1024,refcount_bits=64", 10, 6),
    ("compat=1.1,cluster_size=65536,refcount_bits=8", 16, 3),
];
const NAMES: [&str; 2] = ["one", "another"];

pub fn snapshots(calls: &dyn Calls) {
    let side = Over::none(calls);
    if !installed() {
        println!("qemu-img is not installed");
        return;
    }
    for (options, bits, order) in OPTIONS {
        let qemu = with_snapshots(&format!("{}-{bits}-{order}", calls.name()), options);
        let mut image = qemu.bytes();
        accept(&mut image, bits, order);
        let read = |image: &[u8]| read_all(side, image, qemu.raw(None).len());
        let [now, kept @ ..] = read(&image);
        assert!(now == qemu.raw(None), "{options}");
        assert!(NAMES.iter().zip(&kept).all(|(name, kept)| *kept == qemu.raw(Some(name))));
        change(side, &mut image);
        qemu.set_bytes(&image);
        assert!(qemu.check(), "{options}: qemu-img check");
        let after = read(&image);
        assert!(after[0] == qemu.raw(None) && after[0] != now && after[1..] == kept, "{options}");
        assert!(NAMES.iter().zip(&kept).all(|(name, kept)| *kept == qemu.raw(Some(name))));
    }
}

/// Images over a raw disk that is shorter than theirs: read as qemu reads them, and
/// what is written is read by qemu.
pub fn backing(calls: &dyn Calls) {
    if !installed() {
        println!("qemu-img is not installed");
        return;
    }
    let backing = &Rng::new(9).bytes(300_077);
    let side = Over { calls, backing };
    for (options, bits, order) in OPTIONS {
        let name = format!("{}-over-{bits}-{order}", calls.name());
        let qemu = Qemu::create_over(&name, options, "512k", backing);
        qemu.io(&["write -P 0x11 5000 30000", "write -z 100000 70000", "discard 65536 65536"]);
        let mut image = qemu.bytes();
        accept(&mut image, bits, order);
        assert_eq!(calls.backing_name(&image), Ok(&b"base"[..]));
        let read = |image: &[u8]| {
            let mut out = vec![0xC3; 512 << 10];
            assert_eq!(side.read(image, 0, &mut out), Ok(()), "{options}");
            out
        };
        let before = read(&image);
        assert!(before == qemu.raw(None), "{options}");
        change(side, &mut image);
        qemu.set_bytes(&image);
        assert!(qemu.check(), "{options}: qemu-img check");
        let after = read(&image);
        assert!(after == qemu.raw(None) && after != before, "{options}");
    }
}

/// Guest bytes, a snapshot, more bytes, another snapshot, and more.
fn with_snapshots(name: &str, options: &str) -> Qemu {
    let qemu = Qemu::create(name, options, "512k");
    qemu.io(&["write -P 0x11 5000 30000", "write -P 0x22 300000 9000"]);
    qemu.snapshot(NAMES[0]);
    qemu.io(&["write -P 0x33 10000 3000", "discard 16384 8192", "write -P 0x44 450000 70000"]);
    qemu.snapshot(NAMES[1]);
    qemu.io(&["write -P 0x55 12000 500", "write -P 0x66 200000 40000"]);
    qemu
}

/// Whole clusters, header_length as it was once, and some room.
fn accept(image: &mut Vec<u8>, bits: u32, order: u32) {
    image.resize(image.len().next_multiple_of(1 << bits), 0);
    let clusters = image.len() >> bits;
    let room = clusters.next_multiple_of(per_block(bits, order)) - clusters;
    image.resize((clusters + room.min(20)) << bits, 0);
    if image[7] == 3 {
        image[100..104].copy_from_slice(&104u32.to_be_bytes());
    }
}

/// The bytes of the disk and of both snapshots, in a sound image.
fn read_all(side: Over, image: &[u8], len: usize) -> [Vec<u8>; 3] {
    assert_eq!(side.check(image, &mut vec![7; image.len() / 256]), Verdict::Sound);
    let mut out = [(); 3].map(|()| vec![0xC3; len]);
    assert_eq!(side.read(image, 0, &mut out[0]), Ok(()));
    assert_eq!(side.read_snapshot(image, 0, 0, &mut out[1]), Ok(()));
    assert_eq!(side.read_snapshot(image, 1, 0, &mut out[2]), Ok(()));
    assert_eq!(side.read_snapshot(image, 2, 0, &mut []), Err(11));
    out
}

/// Writes and discards all over the disk, then a repair.
fn change(side: Over, image: &mut [u8]) {
    let mut series = Series::start(side, image).expect("a sound image");
    let mut rng = Rng::new(8);
    let mut step = |call, allowance| {
        series.step(image, call, allowance).unwrap_or_else(|fault| panic!("{fault}: {call:?}"))
    };
    // Own data, whatever else is free to be stored.
    step(Call::Write { offset: 200_100, data: b"own" }, u64::MAX);
    for _ in 0..60 {
        let offset = rng.below(512 << 10);
        step(Call::Write { offset, data: &[0xAB; 40] }, rng.below(3000));
        step(Call::Discard { cluster: rng.below(1024) }, rng.below(4));
    }
    step(Call::Repair { scratch: 1 << 20 }, u64::MAX);
}
