//! Calls planned into batches: on the bench image one by one, and on random ones by
//! what a drive holds after a power cut.
#![forbid(unsafe_code)]

use made::batch_rows::compare;
use made::batches::{follow, follow_on, Met};
use made::drive;
use made::image::{Kind, Made, AUTOCLEAR};
use made::plan::{bench_image, Plan, MAX_ORDER};
use made::rng::{setting, Rng};
use made::steps::any_usable;
use plain::{batch_discard, batch_repair, batch_write, discard, write, Plain, Planned};

const ALL: u64 = u64::MAX;

/// The bench image with an L2 table in cluster 4: data in cluster 5, a zero mark
/// over cluster 6, one without a place.
fn sound() -> Made {
    let mut made = bench_image();
    let table = made.add_table(1).expect("room");
    for (index, kind) in
        [Kind::Data, Kind::ZerosWithPlace, Kind::ZerosWithoutPlace].into_iter().enumerate()
    {
        assert!(made.add_entry(table, index, kind, &mut Rng::new(1)));
    }
    made
}

/// A batch as a store keeps it.
struct Batch {
    image: Vec<u8>,
    rows: Vec<u64>,
    held: usize,
}

impl Batch {
    fn of(made: &Made, room: usize) -> Batch {
        Batch { image: made.bytes.clone(), rows: vec![9; room], held: 0 }
    }

    /// The new rows of a call, which is then made; or that the batch ends.
    fn add(&mut self, planned: Planned) -> Option<Vec<[u64; 4]>> {
        let Planned::Rows(count) = planned else { return None };
        let new = self.rows[4 * self.held..4 * count].as_chunks().0.to_vec();
        self.held = count;
        Some(new)
    }

    /// One byte at this offset.
    fn write(&mut self, offset: u64) -> Option<Vec<[u64; 4]>> {
        let planned = batch_write(&self.image, &[], offset, 1, &mut self.rows, self.held);
        let new = self.add(planned)?;
        write(&mut self.image, &[], offset, &[7], ALL);
        Some(new)
    }

    fn discard(&mut self, cluster: u64) -> Option<Vec<[u64; 4]>> {
        let planned = batch_discard(&self.image, &[], cluster, &mut self.rows, self.held);
        let new = self.add(planned)?;
        discard(&mut self.image, &[], cluster, ALL);
        Some(new)
    }
}

/// Each kind of call by itself.
#[test]
fn each_kind_of_call() {
    let mut made = sound();
    let (first, clears) = (64 * 512, [AUTOCLEAR as u64, 8, 1, 0]);
    let marked = vec![[6 * 512, 512, 512, 1], [4 * 512 + 8, 8, 1, 2]];
    let new = vec![[1024 + 14, 2, 1, 1], [7 * 512, 512, 512, 1], [4 * 512 + 24, 8, 1, 2]];
    let table = vec![
        [1024 + 14, 2, 1, 1],
        [7 * 512, 512, 512, 1],
        [1024 + 16, 2, 1, 1],
        [8 * 512, 512, 512, 1],
        [7 * 512 + 16, 8, 1, 1],
        [1536, 8, 1, 2],
    ];
    for bits in [0, 1] {
        made.put64(AUTOCLEAR, bits);
        let batch = || Batch::of(&made, 28);
        let cleared = |rows: &Vec<[u64; 4]>| match bits {
            0 => Some(rows.clone()),
            _ => Some([&[clears][..], rows].concat()),
        };
        assert_eq!(batch().write(first + 3), cleared(&vec![[5 * 512 + 3, 1, 1, 1]]));
        assert_eq!(batch().write(first + 515), cleared(&marked));
        assert_eq!(batch().write(first + 3 * 512), cleared(&new));
        assert_eq!(batch().write(1024), cleared(&table));
        let freed = vec![[4 * 512, 8, 1, 2], [1024 + 10, 2, 1, 3]];
        assert_eq!(batch().discard(64), cleared(&freed));
        assert_eq!(batch().discard(66), cleared(&vec![[4 * 512 + 16, 8, 1, 2]]));
        assert_eq!(batch().discard(67), Some(vec![]));
    }
}

/// The field is cleared once, by the first call that stores anything.
#[test]
fn cleared_once() {
    let mut made = sound();
    made.put64(AUTOCLEAR, 1);
    let mut batch = Batch::of(&made, 400);
    assert_eq!(batch.discard(67), Some(vec![]));
    assert_eq!(batch.write(64 * 512).unwrap().len(), 2);
    assert_eq!(batch.write(64 * 512).unwrap(), [[5 * 512, 1, 1, 1]]);
}

/// Entries of a table that is new in the batch are stored with it.
#[test]
fn entries_of_a_new_table() {
    let mut batch = Batch::of(&sound(), 400);
    assert_eq!(batch.write(0).unwrap().last(), Some(&[1536, 8, 1, 2]));
    let next = [[1024 + 18, 2, 1, 1], [9 * 512, 512, 512, 1], [7 * 512 + 8, 8, 1, 1]];
    assert_eq!(batch.write(512).unwrap(), next);
    // In another batch they are as any other.
    batch.held = 0;
    let next = [[1024 + 20, 2, 1, 1], [10 * 512, 512, 512, 1], [7 * 512 + 16, 8, 1, 2]];
    assert_eq!(batch.write(1024).unwrap(), next);
}

/// A cluster that the batch has freed is not taken in it, nor one freed that it has
/// taken; the next batch does so.
#[test]
fn a_byte_of_two_phases() {
    let mut batch = Batch::of(&sound(), 400);
    assert!(batch.discard(64).is_some() && batch.discard(65).is_some());
    assert_eq!((batch.write(68 * 512), batch.held), (None, 4));
    batch.held = 0;
    assert_eq!(batch.write(68 * 512).unwrap()[0], [1024 + 10, 2, 1, 1]);
    assert_eq!((batch.discard(68), batch.held), (None, 3));
    batch.held = 0;
    assert_eq!(batch.discard(68).unwrap()[1], [1024 + 10, 2, 1, 3]);
}

/// A count that rises and one that falls are not in one batch where they share a byte.
#[test]
fn counts_of_one_byte() {
    let mut shared = 0;
    for order in 0..=MAX_ORDER {
        let plan = Plan { version: 3, order, autoclear: 0, ..Plan::random(&mut Rng::new(3)) };
        let plan = Plan { cluster_bits: 9, size: 65_536, l1_size: 2, spare: 20, ..plan };
        let made = plan.build(&mut Rng::new(4));
        let free: Vec<usize> = (0..made.clusters()).filter(|k| made.count(*k) == 0).collect();
        let mut batch = Batch::of(&made, 400);
        // A table in the first free cluster, data in the next two.
        assert!(batch.write(0).is_some() && batch.write(512).is_some());
        batch.held = 0;
        assert!(batch.discard(0).is_some());
        batch.held = 0;
        let taken = batch.write(1024).unwrap()[0][0];
        assert_eq!(taken as usize, made.count_at(free[1]).start);
        let apart = made.count_at(free[1]) != made.count_at(free[2]);
        assert_eq!(batch.discard(1).is_some(), apart);
        shared += u32::from(!apart);
    }
    assert!((1..=3).contains(&shared), "{shared}");
}

/// No row is put past those that there is room for, and none of a refused call.
#[test]
fn short_rows() {
    let mut made = sound();
    made.put64(AUTOCLEAR, 1);
    let all = Batch::of(&made, 28).write(0).unwrap().concat();
    for (room, held) in (0..=40).flat_map(|room| [0, 1, 2, 3, ALL as usize].map(|k| (room, k))) {
        let mut rows = vec![9; room];
        let planned = batch_write(&made.bytes, &[], 0, 1, &mut rows, held);
        let count = held.saturating_add(7);
        let fits = count <= room / 4;
        assert_eq!(planned, if fits { Planned::Rows(count) } else { Planned::Ends });
        let start = held.saturating_mul(4).min(room);
        let filled = all.len().min((room - start) / 4 * 4);
        assert!(rows[start..start + filled] == all[..filled]);
        rows[start..start + filled].fill(9);
        assert!(rows.iter().all(|&number| number == 9));
        let mut rows = vec![9; room];
        let planned = batch_write(&made.bytes, &[], 65_536, 1, &mut rows, held);
        assert!(planned == Planned::Refused(11) && rows.iter().all(|&number| number == 9));
        // Nothing to store has room if those that are held have.
        let planned = batch_discard(&made.bytes, &[], 67, &mut rows, held);
        let fits = held <= room / 4;
        assert_eq!(planned, if fits { Planned::Rows(held) } else { Planned::Ends });
    }
}

/// Rows that no call has made: at the ends of their numbers and of no bytes.
#[test]
fn any_rows() {
    let made = sound();
    let meets = |at: u64, len: u64, phase: u64| {
        let mut rows = [0; 40];
        rows[..4].copy_from_slice(&[at, len, 1, phase]);
        let planned = batch_discard(&made.bytes, &[], 64, &mut rows, 1);
        (planned == Planned::Ends, rows[7])
    };
    let (count, entry) = (1024 + 10, 4 * 512);
    for (at, len, wanted) in [
        (count, 1, (true, 2)),
        (count - 1, 1, (false, 2)),
        (count - 1, 2, (true, 2)),
        (count + 1, 1, (true, 2)),
        (count + 1, 0, (false, 2)),
        (count + 2, ALL, (false, 1)),
        (0, count, (false, 2)),
        (1, count, (true, 2)),
        (ALL, ALL, (false, 2)),
        (entry, 1, (false, 1)),
        (entry + 7, 1, (false, 1)),
        (entry + 8, 1, (false, 2)),
        (entry - 3, 3, (false, 2)),
        (entry - 3, 4, (false, 1)),
        (0, ALL, (true, 1)),
    ] {
        assert_eq!(meets(at, len, 1), wanted, "{len} at {at}");
        [0, 2, 3, 4, ALL].into_iter().for_each(|phase| {
            assert_eq!(meets(at, len, phase), (false, 2), "{len} at {at} in {phase}");
        });
    }
}

#[test]
fn repairs() {
    let mut made = sound();
    made.put64(AUTOCLEAR, 1);
    [9, 12].into_iter().for_each(|cluster| made.set_count(cluster, 3));
    let (mut rows, mut scratch) = (vec![9; 24], vec![0; 32]);
    let planned = batch_repair(&made.bytes, &[], &mut scratch, &mut rows, 1);
    assert_eq!(planned, Planned::Rows(4));
    let wanted = [[88, 8, 1, 0], [1024 + 18, 2, 1, 3], [1024 + 24, 2, 1, 3]];
    assert_eq!(rows[4..16], wanted.concat());
    let planned = batch_repair(&made.bytes, &[], &mut scratch[..31], &mut rows, 1);
    assert_eq!(planned, Planned::Refused(15));
    // A count that the batch has raised is not lowered in it.
    rows[..4].copy_from_slice(&[1024 + 18, 2, 1, 1]);
    let planned = batch_repair(&made.bytes, &[], &mut scratch, &mut rows, 1);
    assert_eq!(planned, Planned::Ends);
}

fn all_met(met: &Met) {
    println!("{met:?}");
    assert!(met.refused > 0 && met.full > 0 && met.clashes > 0, "{met:?}");
    assert!(met.cuts.iter().all(|&cuts| cuts > 0), "{met:?}");
}

#[test]
fn power_cuts() {
    let mut rng = Rng::from_env("batches", 211);
    all_met(&follow(&Plain, &mut rng, setting("CALLS", 3000), any_usable));
}

#[test]
fn power_cuts_at_each_width() {
    let mut rng = Rng::from_env("batches at each width", 212);
    for order in 0..=MAX_ORDER {
        let mut met = Met::default();
        while met.calls < setting("CALLS", 3500) / 7 {
            let plan = Plan { version: 3, order, ..Plan::random_with(9, &mut rng) };
            let made = drive::usable_over(plan, &mut rng);
            follow_on(&Plain, &made, &mut rng, &mut met);
        }
        all_met(&met);
    }
}

/// What long comparisons have to meet.
#[test]
fn both_sides() {
    let mut rng = Rng::from_env("rows of batches", 214);
    let tally = compare(&Plain, &Plain, &mut rng, setting("CALLS", 20_000));
    println!("{tally:#?}");
    for call in ["write", "discard", "repair"] {
        for answer in ["Rows", "Ends"] {
            let kind = format!("{call} {answer}");
            assert!(tally.contains_key(&kind), "{kind}");
        }
    }
}
