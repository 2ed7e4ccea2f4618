//! The bytes that a snapshot has kept, to standard output.

use std::ffi::OsStr;
use std::io::{self, Write};

use super::read::write_hex;
use crate::fields::Fields;
use crate::image_file::ImageFile;
use crate::json::Json;
use crate::progress::Progress;
use crate::report::{Failure, Output, Stream, DONE, PORTION};
use crate::sentences::Request;
use crate::snapshots::{find, Missing, Table};

/// A range of a snapshot whose bytes can all be read.
pub struct Kept {
    image: ImageFile,
    snapshot: u64,
    offset: u64,
    length: u64,
}

impl Kept {
    /// Nothing is written unless the whole range can be read, so it is read once
    /// before.
    pub fn of(image: ImageFile, word: &OsStr, offset: u64, length: u64) -> Result<Kept, Failure> {
        let refuse = |number| image.refused(number, Request::Snapshot { word, offset, length });
        // The header is judged first: no snapshot has this number, which is 11.
        match qcow2_core::read_snapshot(&image.bytes, &image.backing.bytes, u64::MAX, 0, &mut []) {
            Ok(()) | Err(11) => {}
            Err(number) => return Err(refuse(number)),
        }
        let table = Fields::read(&image.bytes).map(|fields| Table::of(&image.bytes, &fields));
        let snapshot = match find(&table.unwrap_or_default().snapshots, word) {
            Ok(snapshot) => snapshot.number,
            Err(Missing::None) => return Err(refuse(11)),
            Err(Missing::Several(numbers)) => return Err(several(word, &numbers)),
        };
        let kept = Kept { image, snapshot, offset, length };
        match kept.each_part("looking", &mut |_| Ok(())) {
            Ok(()) => Ok(kept),
            Err(Stopped::Refused(number)) => {
                Err(kept.image.refused(number, Request::Snapshot { word, offset, length }))
            }
            Err(Stopped::Output(error)) => Err(Failure::Stream(error.to_string())),
        }
    }

    /// The bytes in parts, each of them read by the core.
    fn each_part(
        &self,
        label: &'static str,
        part: &mut dyn FnMut(&[u8]) -> io::Result<()>,
    ) -> Result<(), Stopped> {
        let (image, backing) = (&self.image.bytes, &self.image.backing.bytes);
        let read = |at, bytes: &mut [u8]| {
            qcow2_core::read_snapshot(image, backing, self.snapshot, at, bytes)
        };
        // A range that runs past the end is refused before any of it is read, and
        // so is one of no bytes there.
        let end = self.offset.checked_add(self.length).ok_or(Stopped::Refused(11))?;
        read(self.offset, &mut []).and(read(end, &mut [])).map_err(Stopped::Refused)?;
        let mut buffer = vec![0; self.length.min(PORTION as u64) as usize];
        let mut progress = Progress::new(label, self.length);
        let mut at = self.offset;
        while at < end {
            let bytes = &mut buffer[..(end - at).min(PORTION as u64) as usize];
            read(at, bytes).map_err(Stopped::Refused)?;
            part(bytes).map_err(Stopped::Output)?;
            at += bytes.len() as u64;
            progress.at(at - self.offset);
        }
        Ok(())
    }

    fn written(&self, part: &mut dyn FnMut(&[u8]) -> io::Result<()>) -> io::Result<u8> {
        match self.each_part("reading", part) {
            Ok(()) => Ok(DONE),
            Err(Stopped::Output(error)) => Err(error),
            Err(Stopped::Refused(number)) => Err(io::Error::other(number.to_string())),
        }
    }
}

/// Why the bytes were not gone through to their end.
enum Stopped {
    Refused(u32),
    Output(io::Error),
}

/// A name is not guessed at.
fn several(word: &OsStr, numbers: &[u64]) -> Failure {
    let numbers: Vec<String> = numbers.iter().map(|number| format!("'#{number}'")).collect();
    Failure::Other(format!(
        "snapshots {} are all called {:?}: name one of them by such a number, or by its id",
        numbers.join(", "),
        word.to_string_lossy()
    ))
}

impl Stream for Kept {
    fn text(&self, out: &mut Output) -> io::Result<u8> {
        self.written(&mut |part| out.write_all(part))
    }

    fn members(&self) -> (Vec<(&'static str, Json)>, &'static str) {
        let members = vec![
            ("snapshot", self.snapshot.into()),
            ("offset", self.offset.into()),
            ("length", self.length.into()),
        ];
        (members, "data")
    }

    fn json(&self, out: &mut Output) -> io::Result<u8> {
        out.write_all(b"\"")?;
        let exit = self.written(&mut |part| write_hex(out, part))?;
        out.write_all(b"\"")?;
        Ok(exit)
    }
}
