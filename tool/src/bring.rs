//! What the core has changed in memory, stored step by step.

use std::io;
use std::ops::Range;

use qcow2_core::{Outcome, Step};

use crate::disk::Disk;
use crate::extents;
use crate::steps::{ranges, units};

/// Why the file was not brought further.
#[derive(Debug)]
pub enum Fault {
    Load(io::Error),
    Store(io::Error),
    /// After it nothing is known of what the drive holds.
    Flush(io::Error),
    /// A call that made other units than its steps have.
    Unexpected(u64),
}

/// Has the call made the units that its steps have?
pub fn is_told(outcome: Outcome, steps: &[Step]) -> Result<(), Fault> {
    match outcome {
        Outcome::Finished(made) | Outcome::Stopped(made) if made == units(steps) => Ok(()),
        Outcome::Finished(made) | Outcome::Stopped(made) => Err(Fault::Unexpected(made)),
        Outcome::Refused(number) => Err(Fault::Unexpected(number.into())),
    }
}

/// A step that was made in memory. One that is sure belongs to changes of which none
/// was in the file before: it is stored without a look at what the file has there.
#[derive(Clone, Copy, Debug, PartialEq)]
pub struct Change {
    pub step: Step,
    pub sure: bool,
}

impl Change {
    pub fn all(steps: &[Step], sure: bool) -> Vec<Change> {
        steps.iter().map(|&step| Change { step, sure }).collect()
    }
}

/// Stores the changed bytes as memory has them, and flushes after each epoch that
/// stored anything; `done` hears of the units up to there.
pub fn bring<D: Disk>(
    disk: &mut D,
    memory: &[u8],
    changes: &[Change],
    mut done: impl FnMut(u64),
) -> Result<(), Fault> {
    let mut spent = 0;
    for epoch in changes.chunk_by(|one, next| one.step.epoch == next.step.epoch) {
        let steps = |sure| -> Vec<Step> {
            epoch.iter().filter(|it| it.sure == sure).map(|it| it.step).collect()
        };
        let (sure, other) = (steps(true), steps(false));
        let mut stored = false;
        for range in ranges(&sure) {
            let runs = extents::beside_holes(disk, memory, range).map_err(Fault::Load)?;
            stored |= store(disk, memory, &runs)?;
        }
        for range in ranges(&other) {
            let runs = differing(disk, memory, range).map_err(Fault::Load)?;
            stored |= store(disk, memory, &runs)?;
        }
        if stored {
            disk.flush().map_err(Fault::Flush)?;
        }
        spent += units(&sure) + units(&other);
        done(spent);
    }
    Ok(())
}

/// Stores these runs: whether there are any.
fn store<D: Disk>(disk: &mut D, memory: &[u8], runs: &[Range<usize>]) -> Result<bool, Fault> {
    for run in runs {
        disk.store(run.start as u64, &memory[run.clone()]).map_err(Fault::Store)?;
    }
    Ok(!runs.is_empty())
}

/// A range may be long: what is loaded of it at once, and what is passed over if
/// nothing differs.
const PORTION: usize = 1 << 20;
const PAGE: usize = 4096;

/// What differs, on pages side by side from the first byte to the last.
fn differing<D: Disk>(
    disk: &D,
    memory: &[u8],
    range: Range<usize>,
) -> io::Result<Vec<Range<usize>>> {
    let mut buffer = vec![0; PORTION.min(range.len())];
    let mut runs: Vec<Range<usize>> = Vec::new();
    for (start, portion) in (range.start..).step_by(PORTION).zip(memory[range].chunks(PORTION)) {
        let held = &mut buffer[..portion.len()];
        disk.load(start as u64, held)?;
        let pages = held.chunks(PAGE).zip(portion.chunks(PAGE));
        for (at, (held, page)) in (start..).step_by(PAGE).zip(pages) {
            let Some((first, last)) = ends(held, page) else { continue };
            match runs.last_mut() {
                Some(run) if run.end + PAGE > at => run.end = at + last + 1,
                _ => runs.push(at + first..at + last + 1),
            }
        }
    }
    Ok(runs)
}

/// The first byte that differs and the last.
fn ends(old: &[u8], new: &[u8]) -> Option<(usize, usize)> {
    let differs = |(old, new): (&u8, &u8)| old != new;
    // Most pages are alike or differ at once.
    let first = if old == new { None } else { old.iter().zip(new).position(differs) }?;
    Some((first, old.iter().zip(new).rposition(differs)?))
}

#[cfg(test)]
mod tests {
    use super::*;

    struct Bytes(Vec<u8>);

    impl Disk for Bytes {
        fn length(&self) -> io::Result<u64> {
            Ok(self.0.len() as u64)
        }

        fn load(&self, at: u64, bytes: &mut [u8]) -> io::Result<()> {
            bytes.copy_from_slice(&self.0[at as usize..][..bytes.len()]);
            Ok(())
        }

        fn store(&mut self, at: u64, bytes: &[u8]) -> io::Result<()> {
            self.0[at as usize..][..bytes.len()].copy_from_slice(bytes);
            Ok(())
        }

        fn lengthen(&mut self, _: u64) -> io::Result<()> {
            unreachable!()
        }

        fn flush(&mut self) -> io::Result<()> {
            Ok(())
        }
    }

    /// Bytes from 5 on that differ, and the runs that are stored for them.
    #[test]
    fn what_differs() {
        let (page, portion, end) = (PAGE, PORTION, 2 * PORTION + 3 * PAGE);
        let last = end - 6;
        let cases: [(&[usize], &[(usize, usize)]); 9] = [
            (&[], &[]),
            (&[0], &[(0, 1)]),
            (&[0, last], &[(0, 1), (last, last + 1)]),
            (&[1, page - 1], &[(1, page)]),
            (&[page - 1, page, 2 * page - 1], &[(page - 1, 2 * page)]),
            (&[0, 2 * page - 1], &[(0, 2 * page)]),
            // A page between them is the same.
            (&[0, page - 1, 2 * page], &[(0, page), (2 * page, 2 * page + 1)]),
            (&[portion - page, portion + 7], &[(portion - page, portion + 8)]),
            (
                &[portion - page - 1, portion],
                &[(portion - page - 1, portion - page), (portion, portion + 1)],
            ),
        ];
        for (places, wanted) in cases {
            let mut disk = Bytes(vec![7; end + 10]);
            let mut memory = disk.0.clone();
            // What lies around the range is not looked at.
            (memory[4], memory[end]) = (1, 1);
            places.iter().for_each(|at| memory[5 + at] = 1);
            let runs = differing(&disk, &memory, 5..end).unwrap();
            let moved: Vec<Range<usize>> = wanted.iter().map(|it| it.0 + 5..it.1 + 5).collect();
            assert_eq!(runs, moved);
            assert_eq!(store(&mut disk, &memory, &runs).unwrap(), !places.is_empty());
            assert!(disk.0[5..end] == memory[5..end] && (disk.0[4], disk.0[end]) == (7, 7));
        }
    }
}
