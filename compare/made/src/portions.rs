//! Checks in portions: what is kept between two of them, states of every kind, and what
//! may have changed meanwhile.

use answers::CheckBytes;

use crate::breaks::{break_header, ORDER};
use crate::damage;
use crate::drive;
use crate::image::Made;
use crate::plan::Plan;
use crate::rng::Rng;
use crate::snapshot_drive;
use crate::snapshots::FIXED;

/// What is kept between the portions of a check.
#[derive(Clone)]
pub struct Kept {
    pub state: CheckBytes,
    pub scratch: Vec<u8>,
}

impl Kept {
    /// Before the first portion; the scratch has any bytes, at times more than needed.
    pub fn new(made: &Made, rng: &mut Rng) -> Kept {
        let more = rng.pick(&[0, 0, 1, 2, 77]);
        Kept { state: CheckBytes::NEW, scratch: rng.bytes(made.scratch() + more) }
    }

    /// Some figures, at the edges too; all of them; or another length, at times one that
    /// is too short.
    pub fn change_scratch(&mut self, made: &Made, rng: &mut Rng) {
        let needed = made.scratch();
        let length = rng.pick(&[needed, needed, needed + 5, needed - 1, needed / 2, 0]);
        match rng.below(6) {
            0 => rng.fill(&mut self.scratch),
            1..=2 => self.scratch.resize(length, rng.number() as u8),
            _ => {
                let random = rng.number() as u16;
                let figure: u16 = rng.pick(&[0, 1, 2, 3, 65_534, 65_535, random]);
                let figures = self.scratch.as_chunks_mut().0;
                for _ in 0..(1 + rng.below(3)).min(figures.len() as u64) {
                    figures[rng.index(figures.len())] = figure.to_be_bytes();
                }
            }
        }
    }

    /// Another state, or one other number of it.
    pub fn change_state(&mut self, made: &Made, rng: &mut Rng) {
        let other = any_state(made, rng);
        if rng.once_in(2) {
            self.state = other;
            return;
        }
        let (mut numbers, k) = (self.state.numbers(), rng.index(7));
        numbers[k] = other.numbers()[k];
        self.state = CheckBytes::of_numbers(numbers);
    }
}

/// An image of any kind, in every second case with snapshots.
pub fn any(rng: &mut Rng) -> Made {
    match rng.once_in(2) {
        true => snapshot_drive::any_over(rng),
        false => drive::any_image(rng),
    }
}

/// The same, sound or leaking.
pub fn usable(rng: &mut Rng) -> Made {
    match rng.once_in(2) {
        true => snapshot_drive::usable_over(rng),
        false => drive::usable(rng),
    }
}

/// A state: mostly a check on its way, at or past the ends of the tables, with a verdict
/// of every kind; or any bytes.
pub fn any_state(made: &Made, rng: &mut Rng) -> CheckBytes {
    if rng.once_in(6) {
        let mut state = CheckBytes::NEW;
        rng.fill(&mut state.0);
        return state;
    }
    let stage = rng.pick(&[0, 1, 1, 1, 1, 1, 1, 1, 2, 2, 3, 256, 1 << 56, u64::MAX]);
    let root = any_root(made, rng);
    let row = any_row(made, root, rng);
    let some = rng.below(10);
    let tag = rng.pick(&[0, 0, 0, some, some, some, 256, 1 << 56, u64::MAX]);
    let [a, b, c] = [(); 3].map(|()| any_number(rng));
    CheckBytes::of_numbers([stage, root, row, tag, a, b, c])
}

fn any_root(made: &Made, rng: &mut Rng) -> u64 {
    let last = made.snapshots.len() as u64;
    let some = rng.below(last + 1);
    rng.pick(&[0, 0, some, some, some, last, last + 1, last + 2, 1 << 32, u64::MAX])
}

/// An index of L1 table `root`, or at or past its end.
pub fn any_row(made: &Made, root: u64, rng: &mut Rng) -> u64 {
    let snapshot = (root as usize).wrapping_sub(1);
    let end = made.snapshots.get(snapshot).map_or(made.l1_size, |table| table.l1_size) as u64;
    let some = rng.below(end + 1);
    // Times 8, the three before the last are 0 in 64 bits, or near it.
    let far = rng.pick(&[1 << 32, 1 << 61, (1 << 61) + 1, 1 << 63, u64::MAX]);
    rng.pick(&[0, some, some, some, end.saturating_sub(1), end, end + 1, far])
}

fn any_number(rng: &mut Rng) -> u64 {
    let (small, any) = (rng.below(4), rng.number());
    rng.pick(&[0, small, small, small, 255, 256, 257, 1 << 32, 1 << 63, any, u64::MAX])
}

/// How many entries a portion may take: few, a part of so many, all of them, more.
pub fn any_may(entries: usize, rng: &mut Rng) -> u64 {
    let (all, few) = (entries as u64, rng.below(5));
    let part = 1 + all / (2 + rng.below(6));
    rng.pick(&[0, 1, 1, 2, few, part, part, part, all, all + 1, 1 << 32, u64::MAX])
}

/// Entries of the L1 tables of an accepted image, the active one first.
pub fn l1_sizes(image: &[u8]) -> Vec<usize> {
    let number = |at: usize, len: usize| {
        image[at..at + len].iter().fold(0, |number, &byte| number << 8 | usize::from(byte))
    };
    let mut sizes = vec![number(36, 4)];
    let mut at = number(64, 8);
    for _ in 0..number(60, 4) {
        sizes.push(number(at + 8, 4));
        let length = FIXED + number(at + 36, 4) + number(at + 12, 2) + number(at + 14, 2);
        at += length.next_multiple_of(8);
    }
    sizes
}

/// Another image: with other entries or counts, with tables that are shorter or longer,
/// with more or fewer snapshots, as it once was, or a wholly different one.
pub fn change(made: &mut Made, original: &Made, rng: &mut Rng) {
    match rng.below(12) {
        0..=1 => *made = original.clone(),
        2..=3 => resize_l1(made, rng),
        4 => resize_snapshot(made, rng),
        5 => {
            let count = made.snapshots.len() as u64;
            let fewer = rng.below(count + 1);
            made.put32(60, rng.pick(&[0, fewer, count, count + 1]) as u32);
        }
        6 => *made = usable(rng),
        _ => rng.pick(&damage::ALL)(made, rng),
    }
}

/// A refused one.
pub fn refused(made: &Made, rng: &mut Rng) -> Made {
    let mut broken = made.clone();
    break_header(&mut broken, rng.pick(&ORDER), rng);
    broken
}

fn other_size(size: usize, most: usize, rng: &mut Rng) -> usize {
    let (shorter, longer) = (rng.index(size + 1), rng.index(most + 1));
    rng.pick(&[0, shorter, shorter, size.saturating_sub(1), size, size + 1, longer]).min(most)
}

/// The active L1 table, and the disk as long as it reaches at most.
fn resize_l1(made: &mut Made, rng: &mut Rng) {
    let most = (made.bytes.len() - made.l1_at) / 8;
    let l1_size = other_size(made.l1_size, most.min(70), rng);
    made.put32(36, l1_size as u32);
    made.put64(24, made.size.min(Plan::reach(made.cluster_bits, l1_size)));
}

/// The L1 table of a snapshot.
fn resize_snapshot(made: &mut Made, rng: &mut Rng) {
    if !made.snapshots.is_empty() {
        let snapshot = &made.snapshots[rng.index(made.snapshots.len())];
        let most = (made.bytes.len() - snapshot.l1_at) / 8;
        let l1_size = other_size(snapshot.l1_size, most.min(70), rng);
        made.put32(snapshot.entry + 8, l1_size as u32);
    }
}
