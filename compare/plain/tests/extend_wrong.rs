//! That the tests of extend can fail: implementations with one thing wrong each are
//! found out, by the comparison or by a series.
#![forbid(unsafe_code)]

use std::cell::Cell;

use made::extend_drive::{compare, follow};
use made::fault::found;
use made::pair::Pair;
use made::rng::Rng;
use plain::{
    backing_name, check, check_portion, difference, discard, discard_steps, geometry, lookup, read,
    read_snapshot, repair, repair_steps, runs, translate, write, write_steps, Outcome, Plain,
};

const ALL: u64 = u64::MAX;

/// What is wrong.
#[derive(Clone, Copy, Debug, PartialEq)]
enum Fault {
    /// Which entries are 0 is looked up when their turn comes.
    LooksLater,
    /// Entries of earlier blocks are judged by the old length.
    OldLength,
    /// Any place will do for a new block that is named.
    NamedAnywhere,
    /// Entries past the last block are not looked at.
    NotToTheEnd,
    /// The old length is rounded down to clusters.
    Rounds,
    /// Bytes of a backing file are asked for.
    AsksForBacking,
    /// The field is not cleared.
    KeepsAutoclear,
    /// The field is cleared where there is nothing to store.
    ClearsAnyway,
    /// The entry is stored before the fill.
    EntryFirst,
    /// The block's own count is stored in 16 bits.
    Wide,
    /// What was appended stays in the block.
    NotFilled,
    /// The entry is no unit of its own.
    UnitLess,
}

const FAULTS: [Fault; 12] = [
    Fault::LooksLater,
    Fault::OldLength,
    Fault::NamedAnywhere,
    Fault::NotToTheEnd,
    Fault::Rounds,
    Fault::AsksForBacking,
    Fault::KeepsAutoclear,
    Fault::ClearsAnyway,
    Fault::EntryFirst,
    Fault::Wide,
    Fault::NotFilled,
    Fault::UnitLess,
];

thread_local!(static FAULT: Cell<Option<Fault>> = const { Cell::new(None) });

struct Wrong;

answers::calls!(functions Wrong "wrong");

fn be64(image: &[u8], at: usize) -> u64 {
    u64::from_be_bytes(image[at..at + 8].try_into().unwrap())
}

/// Of an image that is accepted: bytes of a cluster and those that a block counts,
/// and the refcount table's place and entries.
struct Shape {
    cluster: usize,
    span: usize,
    table: usize,
    entries: usize,
}

impl Shape {
    fn of(image: &[u8]) -> Shape {
        let (bits, v3) = (image[23], image[7] == 3);
        let order = if v3 { image[99] } else { 4 };
        let (cluster, span) = (1 << bits, 8 << bits << bits >> order);
        let entries = (be64(image, 52) as u32 as usize) << bits >> 3;
        Shape { cluster, span, table: be64(image, 48) as usize, entries }
    }

    fn at(&self, index: usize) -> usize {
        self.table + 8 * index
    }
}

fn right(image: &[u8], old: u64, allowance: u64) -> (Outcome, Vec<u8>) {
    let mut after = image.to_vec();
    (plain::extend(&mut after, old, allowance), after)
}

fn extend(image: &mut [u8], old: u64, allowance: u64) -> Outcome {
    let fault = FAULT.get().expect("a fault");
    let (answer, after) = match right(image, old, allowance) {
        (Outcome::Refused(number), after) => (refused(image, old, allowance, number, fault), after),
        (outcome, after) => changed(image, old, allowance, (outcome, after), fault),
    };
    image.copy_from_slice(&after);
    answer
}

/// Accepts some of what has to be refused.
fn refused(image: &mut [u8], old: u64, allowance: u64, number: u32, fault: Fault) -> Outcome {
    let mut other = image.to_vec();
    if number == 10 {
        let shape = Shape::of(image);
        let needed = |length: usize| length.div_ceil(shape.span);
        match fault {
            Fault::NamedAnywhere => {
                for index in needed(old.min(1 << 30) as usize)..needed(image.len()) {
                    let place = (index * shape.span) as u64;
                    other[shape.at(index)..][..8].copy_from_slice(&place.to_be_bytes());
                }
            }
            Fault::NotToTheEnd => {
                other[shape.at(needed(image.len()))..shape.at(shape.entries)].fill(0);
            }
            Fault::Rounds => {
                let old = old - old % shape.cluster as u64;
                return plain::extend(&mut other, old, allowance);
            }
            _ => {}
        }
    }
    plain::extend(&mut other, old, allowance)
}

/// Stores other bytes, in another order or number.
fn changed(
    image: &[u8],
    old: u64,
    allowance: u64,
    (outcome, mut after): (Outcome, Vec<u8>),
    fault: Fault,
) -> (Outcome, Vec<u8>) {
    let shape = Shape::of(image);
    let (first, n) = ((old as usize).div_ceil(shape.span), image.len().div_ceil(shape.span));
    let missing: Vec<usize> = (first..n).filter(|&it| be64(image, shape.at(it)) == 0).collect();
    let block = shape.cluster as u64 + 1;
    let number = match fault {
        Fault::OldLength => (0..first).any(|index| be64(image, shape.at(index)) >= old),
        Fault::AsksForBacking => be64(image, 8) != 0,
        _ => false,
    };
    if number {
        return (Outcome::Refused(if fault == Fault::OldLength { 10 } else { 19 }), image.to_vec());
    }
    match fault {
        Fault::LooksLater if allowance == ALL => return one_by_one(image, old, block),
        Fault::KeepsAutoclear => after[88..96].copy_from_slice(&image[88..96]),
        Fault::ClearsAnyway => after[88..96].fill(0),
        Fault::EntryFirst if !allowance.is_multiple_of(block) => {
            let whole = right(image, old, allowance.saturating_add(block)).1;
            let table = shape.table..shape.at(shape.entries);
            after[table.clone()].copy_from_slice(&whole[table]);
        }
        Fault::Wide if allowance == ALL => {
            missing.iter().for_each(|it| after[it * shape.span..][..2].copy_from_slice(&[0, 1]));
        }
        Fault::NotFilled => {
            for place in missing.iter().map(|it| it * shape.span) {
                let rest = place + shape.cluster / 2..place + shape.cluster;
                after[rest.clone()].copy_from_slice(&image[rest]);
            }
        }
        Fault::UnitLess => {
            let Outcome::Finished(units) = outcome else { return (outcome, after) };
            return (Outcome::Finished(units - missing.len() as u64), after);
        }
        _ => {}
    }
    (outcome, after)
}

/// A call for each block.
fn one_by_one(image: &[u8], old: u64, block: u64) -> (Outcome, Vec<u8>) {
    let (mut image, mut units) = (image.to_vec(), 0);
    loop {
        let clearing = u64::from(image[7] == 3 && be64(&image, 88) != 0);
        match plain::extend(&mut image, old, clearing + block) {
            Outcome::Stopped(made) => units += made,
            Outcome::Finished(made) => return (Outcome::Finished(units + made), image),
            refused => return (refused, image),
        }
    }
}

#[test]
fn each_fault_is_found_by_the_comparison() {
    for fault in FAULTS {
        FAULT.set(Some(fault));
        let work = || compare(&mut Pair::new(&Wrong, &Plain), &mut Rng::new(161), 30_000);
        let words = found(work);
        assert!(words.contains("differ"), "{fault:?}: {words}");
    }
}

/// What matters where the earlier image is sound or leaks.
#[test]
fn faults_in_what_is_stored_are_found_by_a_series() {
    let faults = [Fault::KeepsAutoclear, Fault::EntryFirst, Fault::Wide, Fault::NotFilled];
    for fault in faults.into_iter().chain([Fault::UnitLess, Fault::AsksForBacking]) {
        FAULT.set(Some(fault));
        let words = found(|| _ = follow(&Wrong, &mut Rng::new(162), 3000));
        let known = ["units of", "bytes of", "assertion", "Refused(19)"];
        assert!(known.iter().any(|it| words.contains(it)), "{fault:?}: {words}");
    }
}
