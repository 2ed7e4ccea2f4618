//! The list of unit stores of one write or discard, worked out from the image
//! on entry, and its first units made in order.

use answers::{Outcome, Step};

use crate::cell::Cell;
use crate::header::{lay, Header, AUTOCLEAR};

/// One run of unit stores.
#[derive(Clone, Copy)]
pub(crate) enum Store<'a> {
    /// One unit for each byte: `len` bytes from `at` on, those of `under` and then
    /// zeros, but for `data` from byte `start` of them on. A list that is only to be
    /// looked at has no data.
    Fill { at: usize, len: usize, under: &'a [u8], start: usize, data: &'a [u8] },
    /// One unit: a stored count.
    Count { cell: Cell, value: u64 },
    /// One unit: an L1 or L2 entry, or autoclear_features.
    Entry { at: usize, value: u64 },
}

/// A write with a new L2 table, after the clearing unit, has the most runs.
const MOST: usize = 7;

pub(crate) struct List<'a> {
    stores: [Store<'a>; MOST],
    len: usize,
    /// Is the first store the clearing unit?
    pub clears: bool,
}

impl<'a> List<'a> {
    pub fn of<const K: usize>(stores: [Store<'a>; K]) -> List<'a> {
        let none = [Store::Entry { at: 0, value: 0 }; MOST];
        let mut list = List { stores: none, len: K, clears: false };
        list.stores[..K].copy_from_slice(&stores);
        list
    }

    /// The unit that clears autoclear_features; none where they are 0.
    pub fn clearing(header: &Header) -> List<'a> {
        match header.autoclear {
            0 => List::of([]),
            _ => List { clears: true, ..List::of([Store::Entry { at: AUTOCLEAR, value: 0 }]) },
        }
    }

    /// This list after the clearing unit; an empty one stays empty.
    pub fn cleared_first(self, header: &Header) -> List<'a> {
        if header.autoclear == 0 || self.units() == 0 {
            return self;
        }
        let mut list = List::clearing(header);
        let len = list.len + self.len;
        list.stores[list.len..len].copy_from_slice(self.stores());
        List { len, ..list }
    }

    pub fn stores(&self) -> &[Store<'a>] {
        &self.stores[..self.len]
    }

    /// Number of units.
    pub fn units(&self) -> u64 {
        self.stores().iter().map(Store::units).sum()
    }

    /// Each store is a step. The clearing unit goes first; where the list ends
    /// with a count or an entry, this one makes use of what all others have made
    /// ready, and goes last.
    pub fn steps(&self) -> impl Iterator<Item = Step> + '_ {
        self.stores().iter().enumerate().map(|(index, store)| {
            let ends = index + 1 == self.len && !matches!(store, Store::Fill { .. });
            let epoch = match (self.clears && index == 0, ends) {
                (true, _) => 0,
                (false, false) => 1,
                (false, true) => 2,
            };
            store.step(epoch)
        })
    }

    pub fn stores_a_count(&self) -> bool {
        self.stores().iter().any(|store| matches!(store, Store::Count { .. }))
    }

    /// Makes the first `allowance` units.
    pub fn apply(&self, image: &mut [u8], allowance: u64) -> Outcome {
        let mut left = allowance;
        for store in self.stores() {
            let units = store.units();
            store.make(image, units.min(left) as usize);
            if units > left {
                return Outcome::Stopped(allowance);
            }
            left -= units;
        }
        Outcome::Finished(allowance - left)
    }
}

impl Store<'_> {
    fn units(&self) -> u64 {
        match *self {
            Store::Fill { len, .. } => len as u64,
            Store::Count { .. } | Store::Entry { .. } => 1,
        }
    }

    pub fn step(&self, epoch: u64) -> Step {
        let bytes = match *self {
            Store::Fill { at, len, .. } => at..at + len,
            Store::Count { cell, .. } => cell.bytes(),
            Store::Entry { at, .. } => at..at + 8,
        };
        Step { at: bytes.start, len: bytes.len(), units: self.units(), epoch }
    }

    /// Makes the first `units` units of this run.
    fn make(&self, image: &mut [u8], units: usize) {
        match *self {
            Store::Fill { at, under, start, data, .. } => {
                fill(&mut image[at..at + units], under, start, data);
            }
            _ if units == 0 => {}
            Store::Count { cell, value } => cell.store(image, value),
            Store::Entry { at, value } => {
                image[at..at + 8].copy_from_slice(&value.to_be_bytes());
            }
        }
    }
}

/// What lies underneath with `data` from `start` on, as far as `part` goes.
fn fill(part: &mut [u8], under: &[u8], start: usize, data: &[u8]) {
    let (head, rest) = part.split_at_mut(start.min(part.len()));
    let (body, tail) = rest.split_at_mut(data.len().min(rest.len()));
    lay(head, under);
    body.copy_from_slice(&data[..body.len()]);
    lay(tail, under.get(start + data.len()..).unwrap_or_default());
}
