//! A file that is made longer, on a drive that forgets: whatever of the stores and
//! of the length since the last flush a power cut leaves, every guest and snapshot
//! byte is as it was, and the same command finishes the work.

mod common;

use std::io;
use std::sync::atomic::{AtomicUsize, Ordering};

use ::made::image::{Made, AUTOCLEAR};
use ::made::longer::{self, Longer};
use ::made::plan::bench_image_of;
use ::made::rng::Rng;
use common::drive::Random;
use common::growing::{all_torn, extend, Growing, Promise, Sent};
use common::promise::verdict_over;
use qstore::disk::Disk;
use qstore::report::Failure;

const ALL: u64 = u64::MAX;

/// A small one with so many new blocks, whose disk and snapshots are read often.
fn small(blocks: usize, rng: &mut Rng) -> Longer {
    loop {
        let longer = longer::usable(rng);
        let made = &longer.made;
        let reach = made.per_table() << made.cluster_bits;
        let long = made.snapshots.iter().any(|it| it.l1_size * reach > 1 << 18);
        let fits = longer.new_blocks().end <= made.table_clusters * made.cluster() / 8;
        let few = longer.new_blocks().len() == blocks && made.bytes.len() <= 1 << 20;
        if fits && few && !long && made.size <= 1 << 18 {
            return longer;
        }
    }
}

/// The bytes that an image of no backing file is lent must not matter.
fn backing(made: &Made) -> &[u8] {
    if made.is_backed() {
        &made.backing
    } else {
        &[]
    }
}

/// The file as it was before, or as long as it is to be with any bytes there.
#[test]
fn a_cut_anywhere() {
    let mut random = Random(1);
    let mut rng = Rng::from_env("files made longer and cut", 23);
    for tried in 0..120 {
        let longer = small(tried % 4, &mut rng);
        let (made, old) = (&longer.made, longer.old);
        let image = if tried % 3 == 0 { &made.bytes[..] } else { &made.bytes[..old] };
        let promise = Promise::of(image, old, backing(made), made.bytes.len());
        let mut drive = Growing::with(image);
        assert!(extend(&mut drive, backing(made), made.bytes.len(), ALL).is_ok());
        if image.len() == made.bytes.len() {
            assert!(drive.cache == longer.taken_in());
        }
        assert!(verdict_over(&drive.cache, backing(made)).is_usable());
        assert!(drive.open.is_empty() && drive.epochs[0].is_empty());
        for state in all_torn(image, &drive, &mut random) {
            assert_eq!(promise.fault(&state), None);
        }
    }
}

/// One cut after another, until the work is done.
#[test]
fn many_cuts_one_after_another() {
    let mut random = Random(2);
    let mut rng = Rng::from_env("files made longer and cut often", 29);
    let mut cuts = 0;
    for tried in 0..60 {
        let longer = small(1 + tried % 3, &mut rng);
        let (made, bytes) = (&longer.made, longer.made.bytes.len());
        let mut state = made.bytes[..longer.old].to_vec();
        let promise = Promise::of(&state, longer.old, backing(made), bytes);
        while state != promise.finished {
            let mut drive = Growing::with(&state);
            assert!(extend(&mut drive, backing(made), bytes, ALL).is_ok());
            let mut states = all_torn(&state, &drive, &mut random);
            state = states.swap_remove(random.below(states.len()));
            assert_eq!(promise.fault(&state), None);
            cuts += 1;
        }
    }
    assert!(cuts > 120, "{cuts}");
}

/// The bench image of 64-bit counts and so many clusters, of which a block counts 64.
fn image(bits: u64, clusters: usize) -> Vec<u8> {
    let mut made = bench_image_of(6);
    made.put64(AUTOCLEAR, bits);
    made.bytes.resize(512 * clusters, 0);
    made.bytes
}

const SPAN: usize = 64 * 512;

fn bytes(at: usize, bytes: &[u8]) -> Vec<Sent> {
    vec![Sent::Bytes(at, bytes.to_vec())]
}

/// Each flush, and what is stored before it: nothing; the length; the autoclear bits;
/// a block and its entry, each for itself.
#[test]
fn each_flush_in_its_place() {
    let one = bytes(SPAN + 7, &[1]);
    for bits in [0, 1 << 24] {
        let mut drive = Growing::with(&image(bits, 16));
        assert!(extend(&mut drive, &[], 2 * SPAN + 512, ALL).is_ok());
        let mut wanted = vec![
            vec![],
            vec![Sent::Length(2 * SPAN + 512)],
            bytes(AUTOCLEAR + 4, &[0]),
            one.clone(),
            bytes(512 + 8 + 6, &[0x80]),
            bytes(2 * SPAN + 7, &[1]),
            bytes(512 + 16 + 5, &[1]),
        ];
        if bits == 0 {
            wanted.remove(2);
        }
        assert_eq!(drive.epochs, wanted);
        assert!(drive.open.is_empty());
        // There is nothing more to do.
        let mut again = Growing::with(&drive.cache);
        assert!(extend(&mut again, &[], 2 * SPAN + 512, ALL).is_ok());
        assert_eq!(again.epochs, [[]]);
    }
    // What is stored already is not flushed again.
    let mut cut = image(0, 2 * 64);
    cut[SPAN + 7] = 1;
    let mut drive = Growing::with(&cut);
    assert!(extend(&mut drive, &[], 2 * SPAN, ALL).is_ok());
    assert_eq!(drive.epochs, [vec![], bytes(512 + 8 + 6, &[0x80])]);
    // A length within what the last block counts.
    let mut drive = Growing::with(&image(1, 16));
    assert!(extend(&mut drive, &[], SPAN, ALL).is_ok());
    assert_eq!(drive.epochs, [vec![], vec![Sent::Length(SPAN)]]);
}

/// A drive that does not make the flush after the bits or after a block is found out.
/// The others keep the order that the proof is about, and are told by their places.
#[test]
fn a_flush_that_is_not_made() {
    let (before, bytes) = (image(1 << 24, 16), 2 * SPAN + 512);
    let promise = Promise::of(&before, 16 * 512, &[], bytes);
    // First, length, bits, block, entry, block, entry.
    let words = ["the autoclear bits stand", "does not finish the work", "Short(128)"];
    for (deaf, word) in [2, 3, 5].into_iter().zip(words) {
        let mut drive = Growing { deaf: Some(deaf), ..Growing::with(&before) };
        assert!(extend(&mut drive, &[], bytes, ALL).is_ok());
        let states = all_torn(&before, &drive, &mut Random(deaf as u64));
        let faults: Vec<String> = states.iter().filter_map(|it| promise.fault(it)).collect();
        assert!(faults.iter().any(|fault| fault.contains(word)), "{deaf}: {faults:?}");
    }
}

/// Of a block of several sectors over other bytes any of them may be there; its entry
/// comes after it.
#[test]
fn a_block_over_other_bytes() {
    let made = longer::empty(12, 6, 3 << 20);
    let mut before = made.bytes.clone();
    before.resize(3 << 20, 0xEE);
    let promise = Promise::of(&before, made.bytes.len(), &[], before.len());
    let mut drive = Growing::with(&before);
    assert!(extend(&mut drive, &[], before.len(), ALL).is_ok());
    assert_eq!(drive.epochs.len(), 3);
    let torn = all_torn(&before, &drive, &mut Random(9));
    assert!(torn.len() > 10 && torn.iter().all(|state| promise.fault(state).is_none()));
    // Without the flush the entry may be there before them.
    let mut drive = Growing { deaf: Some(1), ..Growing::with(&before) };
    assert!(extend(&mut drive, &[], before.len(), ALL).is_ok());
    let torn = all_torn(&before, &drive, &mut Random(10));
    assert!(torn.iter().any(|state| promise.fault(state).is_some()));
}

fn text(failure: Failure) -> String {
    match failure {
        Failure::Other(text) => text,
        _ => panic!("another kind of failure"),
    }
}

/// The length, stores and flushes that fail, one after the other: what is said, and
/// what is left.
#[test]
fn a_drive_that_fails() {
    let (before, bytes) = (image(1 << 24, 16), 2 * SPAN + 512);
    let promise = Promise::of(&before, 16 * 512, &[], bytes);
    let kinds = "F LF SF SF SF SF SF".replace(' ', "");
    for (left, kind) in kinds.chars().enumerate() {
        let mut drive = Growing { left: Some(left), ..Growing::with(&before) };
        let failure = text(extend(&mut drive, &[], bytes, ALL).err().expect("a failure"));
        let units = [0, 0, 0, 0, 0, 1, 1, 513, 513, 514, 514, 1026, 1026][left];
        let broken = format!("broken off after {units} units or more: ");
        match (left, kind) {
            (0, _) => assert!(failure.starts_with("not changed: flushing failed: no more.")),
            (_, 'L') => assert_eq!(failure, "not changed: no more"),
            (_, 'S') => {
                assert!(failure.starts_with(&format!("{broken}no more.\n  The same command ")));
            }
            _ => {
                assert!(failure.starts_with(&format!("{broken}flushing failed: no more.")));
                assert!(failure.contains("What reached the drive is not known."), "{failure}");
                assert!(failure.ends_with("The same command then finishes the work."));
            }
        }
        assert!(left < 2 || failure.contains("finishes the work") || kind == 'L', "{failure}");
        for state in all_torn(&before, &drive, &mut Random(left as u64)) {
            assert_eq!(promise.fault(&state), None);
        }
    }
    let mut drive = Growing { left: Some(kinds.len()), ..Growing::with(&before) };
    assert!(extend(&mut drive, &[], bytes, ALL).is_ok());
}

/// An allowance that stops the work anywhere: the file holds just the first units.
#[test]
fn every_allowance() {
    let (before, bytes) = (image(1, 16), SPAN + 512);
    let promise = Promise::of(&before, 16 * 512, &[], bytes);
    for allowance in 0..=515 {
        let mut drive = Growing::with(&before);
        let report = extend(&mut drive, &[], bytes, allowance).ok().expect("no failure");
        let mut wanted = before.clone();
        wanted.resize(bytes, 0);
        _ = qcow2_core::extend(&mut wanted, 16 * 512, allowance);
        assert!(drive.cache == wanted && drive.open.is_empty());
        assert_eq!(report.exit, u8::from(allowance < 514));
        assert_eq!(report.text.starts_with("stopped after"), allowance < 514);
        assert_eq!(promise.fault(&drive.cache), None);
    }
}

/// The command was killed and the cache is ahead of the drive: it is flushed before
/// anything is judged.
#[test]
fn a_cache_that_is_ahead() {
    let (before, bytes) = (image(1 << 24, 16), 2 * SPAN + 512);
    let promise = Promise::of(&before, 16 * 512, &[], bytes);
    let mut whole = Growing::with(&before);
    assert!(extend(&mut whole, &[], bytes, ALL).is_ok());
    for lost in 1..whole.epochs.len() {
        let mut held = Growing::behind(&before, whole.epochs[..lost].concat()).cache;
        if lost == 1 {
            held = before.clone();
        }
        let ahead = whole.epochs[lost].clone();
        let mut drive = Growing::behind(&held, ahead.clone());
        assert!(extend(&mut drive, &[], bytes, ALL).is_ok());
        assert_eq!(drive.epochs[0], ahead);
        assert!(drive.cache == promise.finished);
        for state in all_torn(&held, &drive, &mut Random(lost as u64)) {
            assert_eq!(promise.fault(&state), None);
        }
    }
}

/// A drive that does not store what it is told to, or that can be read so often alone.
struct Faulty {
    drive: Growing,
    deaf: bool,
    loads: AtomicUsize,
}

impl Disk for Faulty {
    fn length(&self) -> io::Result<u64> {
        self.drive.length()
    }

    fn load(&self, at: u64, bytes: &mut [u8]) -> io::Result<()> {
        let left = self.loads.load(Ordering::Relaxed).checked_sub(1);
        self.loads.store(left.ok_or(io::Error::other("no more"))?, Ordering::Relaxed);
        self.drive.load(at, bytes)
    }

    fn store(&mut self, at: u64, bytes: &[u8]) -> io::Result<()> {
        match self.deaf {
            true => Ok(()),
            false => self.drive.store(at, bytes),
        }
    }

    fn lengthen(&mut self, length: u64) -> io::Result<()> {
        self.drive.lengthen(length)
    }

    fn flush(&mut self) -> io::Result<()> {
        self.drive.flush()
    }
}

/// Memory and file are compared at the end.
#[test]
fn what_is_not_stored_is_found() {
    let drive = Growing::with(&image(0, 16));
    let mut disk = Faulty { drive, deaf: true, loads: AtomicUsize::new(usize::MAX) };
    let failure = text(extend(&mut disk, &[], 2 * SPAN, ALL).err().expect("a failure"));
    assert!(failure.starts_with("broken off after 513 units: the core answered"), "{failure}");
}

/// Reading fails at the start, before the stores, and at the last comparison.
#[test]
fn failed_loads() {
    let before = image(0, 16);
    let promise = Promise::of(&before, 16 * 512, &[], 2 * SPAN);
    let mut kinds = vec![];
    for loads in 0.. {
        let drive = Growing::with(&before);
        let mut disk = Faulty { drive, deaf: false, loads: AtomicUsize::new(loads) };
        let Err(failure) = extend(&mut disk, &[], 2 * SPAN, ALL) else { break };
        let failure = text(failure);
        let (kind, _) = failure.split_once("no more").expect("the drive's words");
        assert_eq!(promise.fault(&disk.drive.cache), None);
        kinds.push(kind.to_string());
    }
    let wanted = [
        "",
        "broken off after 0 units or more: ",
        "broken off after 512 units or more: ",
        "all 513 units are stored and flushed, but the file could not be read again to compare it: ",
    ];
    assert_eq!(kinds, wanted);
}
