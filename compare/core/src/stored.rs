//! The C interface itself: the numbers that each call stores beside each of its
//! answers, and that a refusal stores 0 and changes no lent byte and no row.

use answers::CheckBytes;
use made::breaks::{break_header, ORDER};
use made::image::{Kind, Made, USED};
use made::plan::bench_image;
use made::rng::Rng;
use made::snapshots::keep_all;

use crate::{ffi, lend};

pub const ALL: u64 = u64::MAX;
/// What the numbers hold before a call; no call gives it.
const HELD: u64 = 0xC3C3_C3C3_C3C3_C3C3;
const CLUSTERS: usize = 16;
const OLD: u64 = 512 * CLUSTERS as u64;
/// The scratch that a check needs.
pub const SCRATCH: usize = 2 * CLUSTERS;
/// Numbers that are there to be lent.
const ROWS: usize = 31;
/// L1 entry 1 has the table of the guest clusters from 64 on.
const GUEST: u64 = 64;
const OFFSET: u64 = GUEST * 512;

/// A call, with how much of the scratch it is lent and its allowance.
#[derive(Clone, Copy, Debug)]
pub enum Call {
    Geometry,
    BackingName,
    Translate(u64),
    Read(u64),
    ReadSnapshot(u64, u64),
    Runs { offset: u64, len: u64, room: usize },
    Write { offset: u64, allowance: u64 },
    Discard { cluster: u64, allowance: u64 },
    Repair { scratch: usize, allowance: u64 },
    Extend { old: u64, allowance: u64 },
    WriteSteps { offset: u64, len: u64, room: usize },
    DiscardSteps { cluster: u64, room: usize },
    RepairSteps { scratch: usize, room: usize },
    Check { scratch: usize },
    Portion { scratch: usize, may: u64 },
}

/// All that a call is lent but its numbers.
#[derive(Clone, PartialEq)]
pub struct Lent {
    image: Vec<u8>,
    backing: Vec<u8>,
    bytes: [u8; 3],
    rows: [u64; ROWS],
    scratch: [u8; SCRATCH + 1],
    pub state: CheckBytes,
}

impl Lent {
    pub fn of(made: &Made) -> Lent {
        let (image, backing) = (made.bytes.clone(), made.backing.clone());
        let (rows, scratch) = ([HELD; ROWS], [0x5A; SCRATCH + 1]);
        Lent { image, backing, bytes: *b"abc", rows, scratch, state: CheckBytes::NEW }
    }

    /// Makes the call; its answer, and its numbers after it.
    pub fn call(&mut self, call: Call) -> (u32, Vec<u64>) {
        let (image, n) = (self.image.as_mut_ptr(), self.image.len());
        let (backing, b) = lend(&self.backing);
        let (bytes, len) = (self.bytes.as_mut_ptr(), self.bytes.len());
        let (rows, figures) = (self.rows.as_mut_ptr(), self.scratch.as_mut_ptr());
        let state = self.state.0.as_mut_ptr();
        let [x, y, z] = &mut [HELD; 3];
        macro_rules! over {
            ($call:ident, $($arg:expr),+) => { ffi::$call(image, n, backing, b, $($arg),+) };
        }
        assert!(call.room() <= self.rows.len() && call.scratch() <= self.scratch.len());
        // SAFETY: see the head of lib.rs; no call is lent more rows or scratch than there are.
        let code = unsafe {
            match call {
                Call::Geometry => over!(qcow2_backed_geometry, x, y, z),
                Call::BackingName => ffi::qcow2_backing_name(image, n, x, y),
                Call::Translate(offset) => over!(qcow2_backed_translate, offset, x),
                Call::Read(offset) => over!(qcow2_backed_read, offset, bytes, len),
                Call::ReadSnapshot(snapshot, offset) => {
                    over!(qcow2_backed_read_snapshot, snapshot, offset, bytes, len)
                }
                Call::Runs { offset, len, room } => {
                    over!(qcow2_backed_runs, offset, len, rows, room, x)
                }
                Call::Write { offset, allowance } => {
                    over!(qcow2_backed_write, offset, bytes, len, allowance, x)
                }
                Call::Discard { cluster, allowance } => {
                    over!(qcow2_backed_discard, cluster, allowance, x)
                }
                Call::Repair { scratch, allowance } => {
                    over!(qcow2_backed_repair, figures, scratch, allowance, x)
                }
                Call::Extend { old, allowance } => ffi::qcow2_extend(image, n, old, allowance, x),
                Call::WriteSteps { offset, len, room } => {
                    over!(qcow2_backed_write_steps, offset, len, rows, room, x)
                }
                Call::DiscardSteps { cluster, room } => {
                    over!(qcow2_backed_discard_steps, cluster, rows, room, x)
                }
                Call::RepairSteps { scratch, room } => {
                    over!(qcow2_backed_repair_steps, figures, scratch, rows, room, x)
                }
                Call::Check { scratch } => over!(qcow2_backed_check, figures, scratch, x, y, z),
                Call::Portion { scratch, may } => {
                    over!(qcow2_backed_check_portion, state, figures, scratch, may, x, y, z)
                }
            }
        };
        (code, [*x, *y, *z][..call.numbers()].to_vec())
    }
}

impl Call {
    /// How many numbers it stores.
    fn numbers(self) -> usize {
        match self {
            Call::Read(_) | Call::ReadSnapshot(..) => 0,
            Call::BackingName => 2,
            Call::Geometry | Call::Check { .. } | Call::Portion { .. } => 3,
            _ => 1,
        }
    }

    /// The rows that it is lent.
    fn room(self) -> usize {
        match self {
            Call::Runs { room, .. }
            | Call::WriteSteps { room, .. }
            | Call::DiscardSteps { room, .. }
            | Call::RepairSteps { room, .. } => room,
            _ => 0,
        }
    }

    /// The scratch that it is lent.
    fn scratch(self) -> usize {
        match self {
            Call::Repair { scratch, .. }
            | Call::RepairSteps { scratch, .. }
            | Call::Portion { scratch, .. }
            | Call::Check { scratch } => scratch,
            _ => 0,
        }
    }
}

/// One call on a fresh copy of the image.
fn answer(made: &Made, call: Call) -> (u32, Vec<u64>) {
    Lent::of(made).call(call)
}

/// The call is refused with `number`: its numbers are 0, all else is as it was.
fn refused(made: &Made, call: Call, number: u32) {
    let (mut lent, before) = (Lent::of(made), Lent::of(made));
    let (code, numbers) = lent.call(call);
    assert_eq!(code, number, "{call:?}");
    assert!(numbers.iter().all(|&stored| stored == 0), "{call:?} stored {numbers:?}");
    assert!(lent == before, "{call:?} changed what it was lent");
}

/// The bench image with an L2 table in cluster 4: data in cluster 5, zeros, and
/// not allocated from there on.
pub fn sound() -> Made {
    let (mut made, mut rng) = (bench_image(), Rng::new(7));
    let table = made.add_table(1).expect("room for a table");
    assert_eq!(table, 4 * 512);
    assert!(made.add_entry(table, 0, Kind::Data, &mut rng));
    assert!(made.add_entry(table, 1, Kind::ZerosWithoutPlace, &mut rng));
    made
}

/// The same with one more L2 entry, for the guest cluster after the zeros.
pub fn with_entry(entry: u64) -> Made {
    let mut made = sound();
    made.put64(4 * 512 + 8 * 2, entry);
    made
}

/// The same with another stored count.
pub fn with_count(cluster: usize, count: u64) -> Made {
    let mut made = sound();
    made.set_count(cluster, count);
    made
}

const COMPRESSED: u64 = 1 << 62;
pub const BAD: u64 = 2;
const AFTER_ZEROS: u64 = OFFSET + 1024;

fn check(made: &Made) -> (u32, Vec<u64>) {
    answer(made, Call::Check { scratch: SCRATCH })
}

#[test]
fn host() {
    let made = sound();
    assert_eq!(answer(&made, Call::Translate(OFFSET + 3)), (0, vec![5 * 512 + 3]));
    assert_eq!(answer(&made, Call::Translate(OFFSET + 512)), (answers::ZEROS, vec![0]));
    assert_eq!(answer(&made, Call::Translate(OFFSET + 1024)), (answers::ABSENT, vec![0]));
    assert_eq!(answer(&made, Call::Translate(0)), (answers::ABSENT, vec![0]));
}

#[test]
fn count() {
    let made = sound();
    let runs = |len, room| answer(&made, Call::Runs { offset: OFFSET, len, room });
    assert_eq!(runs(2048, 9), (0, vec![3]));
    assert_eq!(runs(2048, 8), (0, vec![2]));
    assert_eq!(runs(2048, 2), (0, vec![0]));
    assert_eq!(runs(0, 9), (0, vec![0]));
}

#[test]
fn units() {
    let made = sound();
    let write = |offset, allowance| answer(&made, Call::Write { offset, allowance });
    assert_eq!(write(OFFSET, ALL), (0, vec![3]));
    assert_eq!(write(OFFSET, 1 << 32), (0, vec![3]));
    assert_eq!(write(OFFSET, 2), (ffi::STOPPED, vec![2]));
    assert_eq!(write(OFFSET, 0), (ffi::STOPPED, vec![0]));
    let discard = |cluster, allowance| answer(&made, Call::Discard { cluster, allowance });
    assert_eq!(discard(GUEST, ALL), (0, vec![2]));
    assert_eq!(discard(GUEST, 1), (ffi::STOPPED, vec![1]));
    assert_eq!(discard(0, ALL), (0, vec![0]));
    let repair = |made, allowance| answer(made, Call::Repair { scratch: SCRATCH, allowance });
    let leaking = with_count(9, 3);
    assert_eq!(repair(&leaking, ALL), (0, vec![1]));
    assert_eq!(repair(&leaking, 0), (ffi::STOPPED, vec![0]));
    assert_eq!(repair(&made, ALL), (0, vec![0]));
}

/// The sound image with so many clusters.
fn longer(clusters: usize) -> Made {
    let mut made = sound();
    made.bytes.resize(512 * clusters, 0);
    made
}

#[test]
fn units_of_extending() {
    let extend = |made: &Made, old, allowance| answer(made, Call::Extend { old, allowance });
    let made = longer(600);
    assert_eq!(extend(&made, OLD, ALL), (0, vec![2 * 513]));
    assert_eq!(extend(&made, OLD, 1 << 32), (0, vec![2 * 513]));
    assert_eq!(extend(&made, OLD, 1025), (ffi::STOPPED, vec![1025]));
    assert_eq!(extend(&made, OLD, 0), (ffi::STOPPED, vec![0]));
    assert_eq!(extend(&longer(256), OLD, 0), (0, vec![0]));
    assert_eq!(extend(&sound(), OLD, 0), (0, vec![0]));
    for old in [0, 511, 8193, 600 * 513, ALL] {
        refused(&made, Call::Extend { old, allowance: ALL }, 10);
    }
    let mut named = longer(600);
    named.set_name(104, 1024);
    refused(&named, Call::Extend { old: OLD, allowance: ALL }, 19);
    named.set_name(104, 7);
    assert_eq!(extend(&named, OLD, 7), (ffi::STOPPED, vec![7]));
}

#[test]
fn geometry() {
    assert_eq!(answer(&sound(), Call::Geometry), (0, vec![9, 65_536, 16]));
    assert_eq!(answer(&kept(), Call::Geometry), (0, vec![9, 65_536, 16]));
}

/// How many steps are listed, and the rows: the first of them, and no number
/// past these.
#[test]
fn steps() {
    let leaking = with_count(9, 3);
    for room in 0..=ROWS {
        let table = listed(&leaking, Call::WriteSteps { offset: 3, len: 2, room });
        assert_eq!(table.len(), 4 * (room / 4).min(6));
        let new = Call::WriteSteps { offset: AFTER_ZEROS, len: 512, room };
        assert_eq!(listed(&leaking, new).len(), 4 * (room / 4).min(3));
        let freed = listed(&leaking, Call::DiscardSteps { cluster: GUEST, room });
        let wanted = [4 * 512, 8, 1, 1, 1024 + 10, 2, 1, 2];
        assert_eq!(freed, wanted[..4 * (room / 4).min(2)]);
        let repaired = listed(&leaking, Call::RepairSteps { scratch: SCRATCH, room });
        assert_eq!(repaired, [1024 + 18, 2, 1, 1][..4 * (room / 4).min(1)]);
        let nothing = Call::DiscardSteps { cluster: 0, room };
        assert_eq!(listed(&leaking, nothing), [0; 0]);
    }
    let in_place = Call::WriteSteps { offset: OFFSET + 3, len: 4, room: ROWS };
    assert_eq!(listed(&sound(), in_place), [5 * 512 + 3, 4, 4, 1]);
    assert_eq!(listed(&sound(), Call::RepairSteps { scratch: SCRATCH, room: ROWS }), [0; 0]);
}

/// The numbers that are listed; what else was lent is as it was, but for the
/// scratch of a repair, which is as the check leaves it.
fn listed(made: &Made, call: Call) -> Vec<u64> {
    let (mut lent, mut before) = (Lent::of(made), Lent::of(made));
    let (code, numbers) = lent.call(call);
    let filled = 4 * numbers[0] as usize;
    assert_eq!(code, 0, "{call:?}");
    if let Call::RepairSteps { scratch, .. } = call {
        assert!(matches!(before.call(Call::Check { scratch }).0, 0 | ffi::LEAKS));
    }
    before.rows[..filled].copy_from_slice(&lent.rows[..filled]);
    assert!(lent == before, "{call:?} changed what it was lent");
    lent.rows[..filled].to_vec()
}

#[test]
fn first_second_and_third() {
    assert_eq!(check(&sound()), (0, vec![0, 0, 0]));
    assert_eq!(check(&with_count(9, 3)), (ffi::LEAKS, vec![1, 0, 0]));
    assert_eq!(check(&with_entry(BAD)), (ffi::BAD_L2, vec![1, 2, 0]));
    assert_eq!(check(&with_entry(USED | 5 * 512)), (ffi::SHARED, vec![5, 0, 0]));
    assert_eq!(check(&with_count(5, 0)), (ffi::SHORT, vec![5, 0, 0]));
    let mut made = sound();
    made.put64(made.l1_entry(1), 1);
    assert_eq!(check(&made), (ffi::BAD_L1, vec![1, 0, 0]));
    made.put64(made.l1_entry(1), 4 * 512);
    assert_eq!(check(&made), (ffi::MARK_L1, vec![1, 0, 0]));
    let mut made = sound();
    made.put64(4 * 512, 5 * 512);
    assert_eq!(check(&made), (ffi::MARK_L2, vec![1, 0, 0]));
    made.put64(4 * 512, 0);
    made.put64(4 * 512 + 8 * 7, 5 * 512);
    assert_eq!(check(&made), (ffi::MARK_L2, vec![1, 7, 0]));
}

/// The sound image with two snapshots of it; the table in cluster 4 and the data
/// in cluster 5 are theirs too. The snapshots' L1 tables are in clusters 7 and 8.
pub fn kept() -> Made {
    let mut made = sound();
    keep_all(&mut made, 2);
    assert_eq!((made.snapshots[0].l1_at, made.snapshots[1].l1_at), (7 * 512, 8 * 512));
    made
}

#[test]
fn third_beside_snapshots() {
    assert_eq!(check(&kept()), (0, vec![0, 0, 0]));
    let mut made = kept();
    made.put64(8 * 512, 1);
    assert_eq!(check(&made), (ffi::SNAPSHOT_BAD_L1, vec![0, 0, 1]));
    made.put64(7 * 512 + 8, 1);
    assert_eq!(check(&made), (ffi::SNAPSHOT_BAD_L1, vec![1, 0, 0]));
    // A table of its own for the second snapshot, with a bad entry.
    let mut made = kept();
    made.put64(8 * 512 + 8, 9 * 512);
    made.put64(9 * 512 + 8 * 3, BAD);
    assert_eq!(check(&made), (ffi::SNAPSHOT_BAD_L2, vec![1, 3, 1]));
}

#[test]
fn beside_snapshots() {
    let made = kept();
    let (mut lent, mut wanted) = (Lent::of(&made), Lent::of(&made));
    assert_eq!(lent.call(Call::ReadSnapshot(1, OFFSET + 2)), (0, vec![]));
    wanted.bytes.copy_from_slice(&made.bytes[5 * 512 + 2..][..3]);
    assert!(lent == wanted);
    refused(&made, Call::ReadSnapshot(2, 0), 11);
    refused(&made, Call::ReadSnapshot(ALL, 0), 11);
    refused(&made, Call::ReadSnapshot(0, 65_534), 11);
    refused(&made, Call::Write { offset: OFFSET, allowance: ALL }, 22);
    refused(&made, Call::Discard { cluster: GUEST, allowance: ALL }, 22);
    refused(&made, Call::WriteSteps { offset: OFFSET, len: 1, room: ROWS }, 22);
    refused(&made, Call::DiscardSteps { cluster: GUEST, room: ROWS }, 22);
    let mut lent = Lent::of(&made);
    assert_eq!(lent.call(Call::Check { scratch: SCRATCH }), (0, vec![0, 0, 0]));
    assert_eq!(lent.scratch[..14], [0, 1, 0, 1, 0, 1, 0, 1, 0, 3, 0, 3, 0, 1]);
    assert_eq!(lent.scratch[SCRATCH], 0x5A);
}

#[test]
fn refused_requests() {
    let made = sound();
    let end = made.size;
    refused(&made, Call::Translate(end), 11);
    refused(&made, Call::Read(end - 2), 11);
    refused(&made, Call::Runs { offset: end, len: 1, room: 9 }, 11);
    refused(&made, Call::Write { offset: 510, allowance: ALL }, 11);
    refused(&made, Call::Discard { cluster: end / 512, allowance: ALL }, 11);
    refused(&made, Call::Repair { scratch: SCRATCH - 1, allowance: ALL }, 15);
    refused(&made, Call::Check { scratch: SCRATCH - 1 }, 15);
    refused(&made, Call::Portion { scratch: SCRATCH - 1, may: ALL }, 15);
    refused(&with_count(5, 0), Call::Discard { cluster: GUEST, allowance: ALL }, 16);
    refused(&made, Call::WriteSteps { offset: 510, len: 3, room: ROWS }, 11);
    refused(&made, Call::WriteSteps { offset: 0, len: ALL, room: ROWS }, 11);
    refused(&made, Call::WriteSteps { offset: ALL, len: ALL, room: ROWS }, 11);
    refused(&made, Call::DiscardSteps { cluster: end / 512, room: ROWS }, 11);
    refused(&made, Call::RepairSteps { scratch: SCRATCH - 1, room: ROWS }, 15);
    refused(&with_count(5, 0), Call::DiscardSteps { cluster: GUEST, room: ROWS }, 16);
    let mut full = sound();
    (6..CLUSTERS).for_each(|cluster| full.set_count(cluster, 1));
    refused(&full, Call::Write { offset: 0, allowance: ALL }, 14);
    refused(&full, Call::Write { offset: AFTER_ZEROS, allowance: ALL }, 14);
    refused(&full, Call::WriteSteps { offset: 0, len: 1, room: ROWS }, 14);
}

#[test]
fn refused_on_the_way() {
    for (entry, number) in [(BAD, 12), (COMPRESSED, 13)] {
        let made = with_entry(entry);
        refused(&made, Call::Translate(AFTER_ZEROS), number);
        refused(&made, Call::Read(AFTER_ZEROS - 2), number);
        refused(&made, Call::Write { offset: AFTER_ZEROS, allowance: ALL }, number);
        refused(&made, Call::Discard { cluster: GUEST + 2, allowance: ALL }, number);
        refused(&made, Call::WriteSteps { offset: AFTER_ZEROS, len: 1, room: ROWS }, number);
        refused(&made, Call::DiscardSteps { cluster: GUEST + 2, room: ROWS }, number);
    }
}

/// 17 alone changes something: the scratch, as the check does.
#[test]
fn repair_of_damage() {
    let shared = USED | 5 * 512;
    for (made, figure) in [(with_entry(BAD), 1), (with_entry(shared), 2), (with_count(5, 0), 1)] {
        let mut wanted = Lent::of(&made);
        wanted.scratch[..SCRATCH].fill(0);
        for (cluster, figure) in [1, 1, 1, 1, 1, figure].into_iter().enumerate() {
            wanted.scratch[2 * cluster + 1] = figure;
        }
        for repair in [
            Call::Repair { scratch: SCRATCH + 1, allowance: ALL },
            Call::RepairSteps { scratch: SCRATCH + 1, room: ROWS },
        ] {
            let mut lent = Lent::of(&made);
            assert_eq!(lent.call(repair), (17, vec![0]));
            assert!(lent == wanted, "not the figures, or other bytes");
        }
    }
}

#[test]
fn refused_headers() {
    let mut rng = Rng::from_env("refused headers", 71);
    for _ in 0..20 {
        for number in ORDER {
            let mut made = sound();
            if break_header(&mut made, number, &mut rng) {
                refused_by_all(&made, number);
                // Where the name is good it needs no bytes of a backing file.
                if number != 19 {
                    refused(&made, Call::Extend { old: OLD, allowance: ALL }, number);
                }
            }
        }
    }
}

/// Every call is refused with the header's number; a lookup gives no bytes.
fn refused_by_all(made: &Made, number: u32) {
    for call in [
        Call::Geometry,
        Call::Translate(OFFSET),
        Call::Read(OFFSET),
        Call::ReadSnapshot(0, OFFSET),
        Call::Runs { offset: OFFSET, len: 512, room: 9 },
        Call::Write { offset: OFFSET, allowance: ALL },
        Call::Discard { cluster: GUEST, allowance: ALL },
        Call::Repair { scratch: SCRATCH + 1, allowance: ALL },
        Call::WriteSteps { offset: OFFSET, len: 3, room: ROWS },
        Call::DiscardSteps { cluster: GUEST, room: ROWS },
        Call::RepairSteps { scratch: SCRATCH + 1, room: ROWS },
        Call::Check { scratch: SCRATCH + 1 },
        Call::Portion { scratch: SCRATCH + 1, may: ALL },
    ] {
        refused(made, call, number);
    }
    let ((image, n), (under, b)) = (lend(&made.bytes), lend(&made.backing));
    // SAFETY: see the head of lib.rs.
    assert_eq!(unsafe { ffi::qcow2_backed_lookup(image, n, under, b, OFFSET) }, 0);
}

/// The sound image over a backing file that ends inside the guest cluster after the
/// zeros.
fn backed() -> Made {
    let mut made = sound();
    made.set_name(104, 7);
    made.backing = Rng::new(8).bytes(AFTER_ZEROS as usize + 208);
    made
}

#[test]
fn name() {
    assert_eq!(answer(&sound(), Call::BackingName), (0, vec![0, 0]));
    let mut made = backed();
    for (at, length) in [(104, 7), (1, 511), (511, 1), (505, 7)] {
        made.set_name(at, length);
        for backing in [made.backing.clone(), Vec::new()] {
            let made = Made { backing, ..made.clone() };
            assert_eq!(answer(&made, Call::BackingName), (0, vec![at, length.into()]));
        }
    }
    for (at, length) in [(104, 0), (512, 1), (506, 7), (1, 512), (1, u32::MAX), (ALL, 2)] {
        made.set_name(at, length);
        refused(&made, Call::BackingName, 19);
        refused_by_all(&made, 19);
    }
    made.set_name(0, u32::MAX);
    assert_eq!(answer(&made, Call::BackingName), (0, vec![0, 0]));
    refused_by_all(&Made { backing: Vec::new(), ..backed() }, 19);
}

/// The bytes that are read, with all else as it was.
fn read_bytes(made: &Made, offset: u64) -> [u8; 3] {
    let (mut lent, mut wanted) = (Lent::of(made), Lent::of(made));
    assert_eq!(lent.call(Call::Read(offset)), (0, vec![]));
    wanted.bytes = lent.bytes;
    assert!(lent == wanted, "a read at {offset} changed what it was lent");
    lent.bytes
}

#[test]
fn over_a_backing_file() {
    let made = backed();
    let (under, end) = (&made.backing, made.backing.len());
    assert_eq!(answer(&made, Call::Translate(AFTER_ZEROS)), (answers::ABSENT, vec![0]));
    assert_eq!(read_bytes(&made, 0), under[..3]);
    assert_eq!(read_bytes(&made, AFTER_ZEROS - 2), [0, 0, under[AFTER_ZEROS as usize]]);
    assert_eq!(read_bytes(&made, end as u64 - 2), [under[end - 2], under[end - 1], 0]);
    let mut lent = Lent::of(&made);
    let new = Call::Write { offset: AFTER_ZEROS + 1, allowance: ALL };
    assert_eq!(lent.call(new), (0, vec![514]));
    let mut wanted = under[AFTER_ZEROS as usize..].to_vec();
    wanted.resize(512, 0);
    wanted[1..4].copy_from_slice(b"abc");
    assert_eq!(lent.image[6 * 512..7 * 512], wanted);
    assert!(lent.backing == *under);
    for (cluster, units) in [(GUEST, 2), (GUEST + 1, 0), (GUEST + 2, 1)] {
        let mut lent = Lent::of(&made);
        assert_eq!(lent.call(Call::Discard { cluster, allowance: ALL }), (0, vec![units]));
        let at = 4 * 512 + 8 * (cluster - GUEST) as usize;
        assert_eq!(lent.image[at..at + 8], 1u64.to_be_bytes());
    }
    refused(&made, Call::Discard { cluster: 0, allowance: ALL }, 20);
    refused(&made, Call::DiscardSteps { cluster: 0, room: ROWS }, 20);
}
