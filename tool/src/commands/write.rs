//! Standard input to guest bytes.

use std::fs::File;
use std::io::{self, ErrorKind, Read, Seek};
use std::os::fd::AsFd;

use super::change;
use crate::autoclear;
use crate::call::writes;
use crate::disk::Disk;
use crate::extents::advise;
use crate::fields::MAX_IMAGE;
use crate::image_file::ImageFile;
use crate::ordered::Ordered;
use crate::report::{self, Failure, Report, DONE, FAILED};
use crate::sentences::Request;

pub fn run<D: Disk>(
    image: ImageFile<D>,
    offset: u64,
    input: &mut dyn Read,
    allowance: u64,
) -> Result<Report, Failure> {
    write(image, offset, Input { bytes: input, told: 0 }, allowance)
}

pub fn of_stdin(image: ImageFile, offset: u64, allowance: u64) -> Result<Report, Failure> {
    let stdin = io::stdin();
    let told = told(&stdin);
    write(image, offset, Input { bytes: &mut stdin.lock(), told }, allowance)
}

/// What a write is given, and how many bytes that is by what is told of it; 0 where
/// nothing is.
struct Input<'a> {
    bytes: &'a mut dyn Read,
    told: u64,
}

/// What is left of a regular file.
fn told(stdin: &impl AsFd) -> u64 {
    let left = || {
        let mut file = File::from(stdin.as_fd().try_clone_to_owned().ok()?);
        let facts = file.metadata().ok().filter(|facts| facts.is_file())?;
        facts.len().checked_sub(file.stream_position().ok()?)
    };
    left().unwrap_or(0)
}

fn write<D: Disk>(
    image: ImageFile<D>,
    offset: u64,
    input: Input,
    allowance: u64,
) -> Result<Report, Failure> {
    let (path, mut ordered) = change::open_usable(image)?;
    let (geometry, bits) = (ordered.geometry, autoclear::bits(ordered.image()));
    let refuse = |ordered: &Ordered<D>, number, length, whole| {
        change::refused(&path, ordered, number, Request::Write { offset, length, whole })
    };
    let Some(room) = geometry.size.checked_sub(offset) else {
        return Err(refuse(&ordered, 11, 0, true));
    };
    // More bytes than the image has can find no room; they are counted alone.
    let limit = room.min(MAX_IMAGE);
    let keep = limit.min(ordered.image().len() as u64);
    let (data, length) = take(input, keep, limit)
        .map_err(|error| Failure::Stream(format!("standard input: {error}")))?;
    if length > limit {
        let number = if limit == room { 11 } else { 14 };
        return Err(refuse(&ordered, number, limit, false));
    }
    if length > data.len() as u64 {
        return Err(refuse(&ordered, 14, length, true));
    }
    let calls = writes(offset, &data, geometry.cluster_bits);
    let total = change::trial(&mut ordered, allowance, calls.clone())?
        .map_err(|(_, number)| refuse(&ordered, number, length, true))?;
    let (units, finished) = change::run(&mut ordered, "write", total, allowance, calls)?;
    let text = if finished {
        format!("wrote {} bytes at {offset}: {}\n", data.len(), report::units(units))
    } else {
        format!("stopped after {units} of {}\n", report::units(total))
    };
    let json = vec![
        ("offset", offset.into()),
        ("length", data.len().into()),
        ("units", units.into()),
        ("finished", finished.into()),
    ];
    let report = Report { text, json, exit: if finished { DONE } else { FAILED } };
    Ok(change::noting(report, bits, ordered.image()))
}

/// The first `keep` bytes, and how many there are; past `limit` the rest is not
/// read.
fn take(input: Input, keep: u64, limit: u64) -> io::Result<(Vec<u8>, u64)> {
    let Input { bytes, told } = input;
    let mut data = first(bytes, told.min(keep))?;
    bytes.take(keep - data.len() as u64).read_to_end(&mut data)?;
    let kept = data.len() as u64;
    let more = io::copy(&mut bytes.take(limit + 1 - kept), &mut io::sink())?;
    Ok((data, kept + more))
}

/// The first bytes, so many if they are there, in memory of that length at once. Where
/// that is not to be had there are none yet.
fn first(input: &mut dyn Read, wanted: u64) -> io::Result<Vec<u8>> {
    let mut data = qstore_sys::zeroed(wanted as usize).unwrap_or_default();
    advise(&data);
    let mut filled = 0;
    while filled < data.len() {
        match input.read(&mut data[filled..]) {
            Ok(0) => break,
            Ok(len) => filled += len,
            Err(error) if error.kind() == ErrorKind::Interrupted => {}
            Err(error) => return Err(error),
        }
    }
    data.truncate(filled);
    Ok(data)
}

#[cfg(test)]
mod tests {
    use super::{take, Input};

    #[test]
    fn input_is_counted_past_what_is_kept() {
        let input = [7; 100];
        // What is told may be wrong: a file may grow or shrink meanwhile.
        for told in [0, 30, 40, 99, 100, 101, 1000] {
            let taken = |keep, limit| {
                let from = Input { bytes: &mut &input[..], told };
                let (data, length) = take(from, keep, limit).unwrap();
                assert!(data == input[..data.len()]);
                (data.len(), length)
            };
            assert_eq!(taken(100, 200), (100, 100));
            assert_eq!(taken(40, 200), (40, 100));
            assert_eq!(taken(40, 100), (40, 100));
            assert_eq!(taken(40, 60), (40, 61));
            assert_eq!(taken(0, 0), (0, 1));
        }
    }
}
