//! Guest bytes to standard output.

use std::io::{self, Write};

use qcow2_core::{Found, Run};

use crate::guest::{self, Runs};
use crate::image_file::ImageFile;
use crate::json::Json;
use crate::progress::Progress;
use crate::report::{Failure, Output, Stream, DONE, PORTION};
use crate::sentences::Request;

/// Bytes that are put into hex at once.
const FEW: usize = 4096;

/// A range whose bytes can all be read.
pub struct Range {
    image: ImageFile,
    offset: u64,
    length: u64,
}

impl Range {
    /// Nothing is written unless the whole range can be read: its runs are
    /// listed first, and one that is refused refuses the range, as a read does.
    pub fn of(image: ImageFile, offset: u64, length: u64) -> Result<Range, Failure> {
        let refuse = |number| image.refused(number, Request::Read { offset, length });
        let runs = Runs::of(&image.bytes, &image.backing.bytes, offset, length).map_err(refuse)?;
        match guest::refused(runs) {
            Some(number) => Err(refuse(number)),
            None => Ok(Range { image, offset, length }),
        }
    }

    fn each_part(&self, part: &mut dyn FnMut(&[u8]) -> io::Result<()>) -> io::Result<()> {
        let ImageFile { bytes, backing, .. } = &self.image;
        let runs = Runs::of(bytes, &backing.bytes, self.offset, self.length)
            .map_err(|number| io::Error::other(number.to_string()))?;
        each_part([bytes, &backing.bytes], runs, self.length, part)
    }
}

impl Stream for Range {
    fn text(&self, out: &mut Output) -> io::Result<u8> {
        self.each_part(&mut |part| out.write_all(part))?;
        Ok(DONE)
    }

    fn members(&self) -> (Vec<(&'static str, Json)>, &'static str) {
        (vec![("offset", self.offset.into()), ("length", self.length.into())], "data")
    }

    fn json(&self, out: &mut Output) -> io::Result<u8> {
        out.write_all(b"\"")?;
        self.each_part(&mut |part| write_hex(out, part))?;
        out.write_all(b"\"")?;
        Ok(DONE)
    }
}

/// The bytes as hex digits.
pub fn write_hex(out: &mut Output, bytes: &[u8]) -> io::Result<()> {
    let mut digits = Vec::with_capacity(2 * FEW);
    bytes.chunks(FEW).try_for_each(|few| {
        digits.clear();
        few.iter().for_each(|byte| digits.extend_from_slice(&hex(*byte)));
        out.write_all(&digits)
    })
}

fn hex(byte: u8) -> [u8; 2] {
    const DIGITS: &[u8; 16] = b"0123456789abcdef";
    [DIGITS[usize::from(byte >> 4)], DIGITS[usize::from(byte & 15)]]
}

/// The bytes of the runs in parts, each straight from the image or from the
/// backing file. Of that there are none where the image is over no such file.
fn each_part(
    [image, backing]: [&[u8]; 2],
    runs: impl Iterator<Item = (u64, Run)>,
    total: u64,
    part: &mut dyn FnMut(&[u8]) -> io::Result<()>,
) -> io::Result<()> {
    let (mut progress, mut done) = (Progress::new("reading", total), 0);
    let zeros = vec![0; PORTION];
    for (at, run) in runs {
        let mut inside = 0;
        while inside < run.length {
            let length = (run.length - inside).min(PORTION as u64) as usize;
            let beneath = backing.get((at + inside) as usize..).unwrap_or_default();
            let bytes = match run.found {
                Found::Host(host) => &image[(host + inside) as usize..][..length],
                Found::Absent if !beneath.is_empty() => &beneath[..length.min(beneath.len())],
                _ => &zeros[..length],
            };
            part(bytes)?;
            inside += bytes.len() as u64;
            progress.at(done + inside);
        }
        done += run.length;
    }
    Ok(())
}

#[cfg(test)]
mod tests {
    use super::*;

    #[test]
    fn parts_of_runs() {
        let image: Vec<u8> = (0..3 * PORTION).map(|k| (k % 251) as u8).collect();
        let long = 2 * PORTION + 5;
        let found = [Found::Host(3), Found::Zeros, Found::Host(7), Found::Absent];
        let mut wanted = image[3..7].to_vec();
        wanted.resize(4 + long, 0);
        wanted.extend_from_slice(&image[7..7 + long]);
        wanted.resize(4 + 3 * long, 0);
        assert!(joined(&image, &[], found, [4, long, long, long]) == wanted);
        assert_eq!([0, 0x0f, 0xa5].map(hex), [*b"00", *b"0f", *b"a5"]);
    }

    /// What is not allocated is the backing file's, and zeros past its end; what is
    /// marked is zeros.
    #[test]
    fn parts_of_the_backing_file() {
        let backing: Vec<u8> = (0..2 * PORTION + 9).map(|k| (k % 250) as u8 + 1).collect();
        let (long, found) = (PORTION + 3, [Found::Absent, Found::Zeros, Found::Absent]);
        for length in [0, 1, long, 2 * long, 2 * long + 1, backing.len()] {
            let mut wanted = backing[..length].to_vec();
            wanted.resize(3 * long, 0);
            wanted[long..2 * long].fill(0);
            assert!(joined(&[], &backing[..length], found, [long; 3]) == wanted, "{length}");
        }
    }

    /// The bytes of these runs, one after the other from 0 on.
    fn joined<const N: usize>(
        image: &[u8],
        backing: &[u8],
        found: [Found; N],
        lengths: [usize; N],
    ) -> Vec<u8> {
        let (mut at, mut bytes) = (0, Vec::new());
        let runs = found.into_iter().zip(lengths).map(|(found, length)| {
            let run = (at, Run { found, length: length as u64 });
            at += length as u64;
            run
        });
        each_part([image, backing], runs, lengths.iter().sum::<usize>() as u64, &mut |part| {
            bytes.extend_from_slice(part);
            Ok(())
        })
        .unwrap();
        bytes
    }
}
