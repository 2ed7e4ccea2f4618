//! A file as a whole, by the ranges that hold data: a hole is neither read
//! nor given memory.

use std::io;
use std::ops::Range;
use std::panic::resume_unwind;
use std::sync::atomic::{AtomicBool, Ordering};
use std::sync::{Mutex, PoisonError};
use std::thread::{self, Builder};

use crate::disk::{shorter, Disk};
use crate::memory;
use crate::progress::Progress;

const PORTION: usize = 4 << 20;
/// What is compared at once: so much stays in a processor's cache.
const COMPARED: usize = 256 << 10;
const PAGE: usize = 4096;
/// A range of this length is worth large pages.
const LONG: usize = 2 << 20;

/// A part of the bytes, and where it stands in the file.
type Part<'a> = (u64, &'a mut [u8]);

/// All bytes of the disk.
pub fn read<D: Disk>(disk: &D, length: u64, label: &'static str) -> io::Result<Vec<u8>> {
    read_longer(disk, length, length, label)
}

/// The same with zeros after them, `whole` bytes in all.
pub fn read_longer<D: Disk>(
    disk: &D,
    length: u64,
    whole: u64,
    label: &'static str,
) -> io::Result<Vec<u8>> {
    let mut bytes = qstore_sys::zeroed(whole as usize).ok_or_else(|| too_little(whole))?;
    let parts = parts(disk, &mut bytes[..length as usize])?;
    let data = parts.iter().map(|part| part.1.len() as u64).sum();
    if memory::available().is_some_and(|available| available < data) {
        return Err(too_little(length));
    }
    load(disk, parts, Progress::new(label, length))?;
    // What was cut off would have been taken for a hole.
    if disk.length()? < length {
        return Err(shorter());
    }
    Ok(bytes)
}

fn too_little(length: u64) -> io::Error {
    let fault = format!("there is not enough memory for its {length} bytes");
    io::Error::new(io::ErrorKind::OutOfMemory, fault)
}

/// The ranges of data in portions.
fn parts<'a, D: Disk>(disk: &D, bytes: &'a mut [u8]) -> io::Result<Vec<Part<'a>>> {
    let length = bytes.len();
    let (mut parts, mut rest, mut at) = (Vec::new(), bytes, 0);
    for range in data_in(disk, 0..length) {
        let range = range?;
        let (_, from) = rest.split_at_mut(range.start - at);
        let (data, after) = from.split_at_mut(range.len());
        advise(data);
        let places = (range.start as u64..).step_by(PORTION);
        parts.extend(places.zip(data.chunks_mut(PORTION)));
        (rest, at) = (after, range.end);
    }
    Ok(parts)
}

fn load<D: Disk>(disk: &D, parts: Vec<Part>, progress: Progress) -> io::Result<()> {
    let progress = Mutex::new(progress);
    each(parts, || {
        |(at, part): Part| {
            progress.lock().unwrap_or_else(PoisonError::into_inner).at(at);
            disk.load(at, part)
        }
    })
}

/// Works on each part, on two threads, which is twice as quick where two are free;
/// each of them begins with a worker of its own.
fn each<P: Send, W>(parts: Vec<P>, begin: impl Fn() -> W + Sync) -> io::Result<()>
where
    W: FnMut(P) -> io::Result<()>,
{
    let several = parts.len() > 1;
    let queue = Mutex::new(parts.into_iter());
    let next = || queue.lock().unwrap_or_else(PoisonError::into_inner).next();
    let work = || {
        let mut worker = begin();
        while let Some(part) = next() {
            worker(part)?;
        }
        Ok(())
    };
    thread::scope(|scope| {
        // If there can be no second thread, this one does all.
        let start = || Builder::new().spawn_scoped(scope, work).ok();
        let second = if several { start() } else { None };
        let first = work();
        let joined = second.map_or(Ok(Ok(())), |thread| thread.join());
        first.and(joined.unwrap_or_else(|panic| resume_unwind(panic)))
    })
}

/// Fills a range of the bytes with what the disk holds there.
pub fn read_again<D: Disk>(disk: &D, bytes: &mut [u8], range: Range<usize>) -> io::Result<()> {
    let (mut at, last) = (range.start, range.end);
    for data in data_in(disk, range).chain([Ok(last..last)]) {
        let data = data?;
        bytes[at..data.start].fill(0);
        disk.load(data.start as u64, &mut bytes[data.clone()])?;
        at = data.end;
    }
    Ok(())
}

/// What has to be stored for the disk to hold this range of the bytes, whatever it has
/// there: all but the pages of zeros in its holes.
pub fn beside_holes<D: Disk>(
    disk: &D,
    bytes: &[u8],
    range: Range<usize>,
) -> io::Result<Vec<Range<usize>>> {
    if range.len() < PAGE {
        return Ok(vec![range]);
    }
    let mut runs: Vec<Range<usize>> = Vec::new();
    let mut add = |new: Range<usize>| match runs.last_mut() {
        Some(run) if run.end == new.start => run.end = new.end,
        _ if new.is_empty() => {}
        _ => runs.push(new),
    };
    let (mut at, last) = (range.start, range.end);
    for data in data_in(disk, range).chain([Ok(last..last)]) {
        let data = data?;
        let pages = (at..).step_by(PAGE).zip(bytes[at..data.start].chunks(PAGE));
        pages.filter(|page| !is_zero(page.1)).for_each(|(at, page)| add(at..at + page.len()));
        at = data.end;
        add(data);
    }
    Ok(runs)
}

/// Does the disk hold these bytes, and no more?
pub fn holds<D: Disk>(disk: &D, bytes: &[u8]) -> io::Result<bool> {
    let (mut parts, mut end) = (Vec::new(), 0);
    for range in data_in(disk, 0..bytes.len()) {
        let range = range?;
        if !is_zero(&bytes[end..range.start]) {
            return Ok(false);
        }
        let places = (range.start as u64..).step_by(COMPARED);
        end = range.end;
        parts.extend(places.zip(bytes[range].chunks(COMPARED)));
    }
    Ok(is_zero(&bytes[end..]) && are_held(disk, parts)? && disk.length()? == bytes.len() as u64)
}

/// Does the disk hold each of these at its place?
fn are_held<D: Disk>(disk: &D, parts: Vec<(u64, &[u8])>) -> io::Result<bool> {
    let longest = parts.iter().map(|part| part.1.len()).max().unwrap_or(0);
    let same = AtomicBool::new(true);
    each(parts, || {
        let mut buffer = vec![0; longest];
        let same = &same;
        move |(at, part): (u64, &[u8])| {
            // Where one differs, the others need not be loaded.
            if same.load(Ordering::Relaxed) {
                let stored = &mut buffer[..part.len()];
                disk.load(at, stored)?;
                same.fetch_and(stored == part, Ordering::Relaxed);
            }
            Ok(())
        }
    })?;
    Ok(same.into_inner())
}

/// The ranges of data inside this one, rising.
fn data_in<D: Disk>(
    disk: &D,
    range: Range<usize>,
) -> impl Iterator<Item = io::Result<Range<usize>>> + '_ {
    let (mut at, last) = (range.start as u64, range.end as u64);
    std::iter::from_fn(move || {
        if at >= last {
            return None;
        }
        let data = match disk.data(at).transpose()? {
            Ok(data) => data.start.min(last)..data.end.min(last),
            Err(error) => return Some(Err(error)),
        };
        at = data.end;
        (!data.is_empty()).then_some(Ok(data.start as usize..data.end as usize))
    })
}

pub fn is_zero(bytes: &[u8]) -> bool {
    advise(bytes);
    // Part by part without an early end in a part, which is quick.
    bytes.chunks(PAGE).all(|part| part.iter().fold(0, |all, byte| all | byte) == 0)
}

/// For bytes that are about to be read or filled.
pub fn advise(bytes: &[u8]) {
    if bytes.len() >= LONG {
        qstore_sys::advise_large_pages(bytes);
    }
}

#[cfg(test)]
mod tests {
    use super::*;
    use qstore_sys::zeroed;

    /// A disk of 16 pages that has data in some of them, all bytes 7.
    struct Sparse<'a>(&'a [usize]);

    impl Disk for Sparse<'_> {
        fn length(&self) -> io::Result<u64> {
            Ok(16 * PAGE as u64)
        }

        fn load(&self, at: u64, bytes: &mut [u8]) -> io::Result<()> {
            let holds = |at: usize| self.0.contains(&(at / PAGE));
            assert!((at as usize..).take(bytes.len()).all(holds), "a hole is read");
            bytes.fill(7);
            Ok(())
        }

        fn data(&self, at: u64) -> io::Result<Option<Range<u64>>> {
            let page = PAGE as u64;
            let Some(first) = self.0.iter().find(|&&it| (it as u64 + 1) * page > at) else {
                return Ok(None);
            };
            let last = (*first..).find(|it| !self.0.contains(it)).unwrap_or(*first);
            Ok(Some(at.max(*first as u64 * page)..last as u64 * page))
        }

        fn store(&mut self, _: u64, _: &[u8]) -> io::Result<()> {
            unreachable!()
        }

        fn lengthen(&mut self, _: u64) -> io::Result<()> {
            unreachable!()
        }

        fn flush(&mut self) -> io::Result<()> {
            unreachable!()
        }
    }

    /// Pages with data, pages of memory that are not zero, and the pages to store.
    #[test]
    fn zeros_in_holes_are_not_stored() {
        let cases: [(&[usize], &[usize], &[Range<usize>]); 6] = [
            (&[], &[], &[]),
            (&[], &[1, 4, 5, 15], &[1..2, 4..6, 15..16]),
            (&[2, 3, 9], &[], &[2..4, 9..10]),
            (&[2, 3, 9], &[1, 4, 5, 8, 10, 12], &[1..6, 8..11, 12..13]),
            (&[0, 15], &[0, 15], &[0..1, 15..16]),
            (&[0, 1, 2, 15], &[14], &[0..3, 14..16]),
        ];
        for (data, filled, wanted) in cases {
            let mut memory = vec![0; 16 * PAGE];
            filled.iter().for_each(|page| memory[page * PAGE + 100] = 1);
            let pages = |it: &Range<usize>| it.start * PAGE..it.end * PAGE;
            let wanted: Vec<Range<usize>> = wanted.iter().map(pages).collect();
            assert_eq!(beside_holes(&Sparse(data), &memory, 0..16 * PAGE).unwrap(), wanted);
        }
        // A part of a page, and a range that begins and ends inside data.
        let zeros = vec![0; 16 * PAGE];
        assert_eq!(beside_holes(&Sparse(&[]), &zeros, 5..9).unwrap(), [5..9]);
        let inside = PAGE + 5..3 * PAGE - 5;
        assert_eq!(beside_holes(&Sparse(&[1, 2]), &zeros, inside.clone()).unwrap(), [inside]);
    }

    #[test]
    fn holes_are_not_read() {
        for data in [&[][..], &[0], &[15], &[2, 3, 9], &[0, 1, 2, 3, 4, 14, 15]] {
            let byte = |at: usize| if data.contains(&(at / PAGE)) { 7 } else { 0 };
            let held: Vec<u8> = (0..16 * PAGE).map(byte).collect();
            for range in [0..16 * PAGE, 5..6 * PAGE + 9, 3 * PAGE..3 * PAGE] {
                let mut bytes = vec![1; 16 * PAGE];
                read_again(&Sparse(data), &mut bytes, range.clone()).unwrap();
                assert!(bytes[range.clone()] == held[range.clone()]);
                assert!(bytes[..range.start].iter().chain(&bytes[range.end..]).all(|it| *it == 1));
            }
            assert!(holds(&Sparse(data), &held).unwrap());
            assert!(!holds(&Sparse(data), &held[1..]).unwrap());
            for at in [0, 3 * PAGE + 8, 9 * PAGE, 16 * PAGE - 1] {
                let mut other = held.clone();
                other[at] ^= 1;
                assert!(!holds(&Sparse(data), &other).unwrap());
            }
        }
    }

    #[test]
    fn zeros_or_none() {
        assert_eq!(zeroed(0), Some(Vec::new()));
        assert_eq!(zeroed(5), Some(vec![0; 5]));
        assert_eq!(zeroed(isize::MAX as usize), None);
        assert_eq!(zeroed(usize::MAX), None);
    }
}
