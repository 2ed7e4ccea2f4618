//! Where each guest range lies.

use std::io::{self, Write};

use qcow2_core::{Found, Run};

use crate::guest::Runs;
use crate::image_file::ImageFile;
use crate::json::Json;
use crate::layout::Layout;
use crate::report::{Failure, Output, Stream, DONE, FAILED};
use crate::sentences::Request;

/// The map of an image whose header is accepted.
pub struct Map {
    image: ImageFile,
    size: u64,
}

impl Map {
    pub fn of(image: ImageFile) -> Result<Map, Failure> {
        let refused = |number| image.refused(number, Request::Look);
        // No run at all: the header is judged.
        let (bytes, backing) = (&image.bytes, &image.backing.bytes);
        qcow2_core::runs(bytes, backing, 0, 0, &mut []).map_err(refused)?;
        let layout = Layout::of(bytes).ok_or_else(|| refused(1))?;
        Runs::of(bytes, backing, 0, layout.size).map_err(refused)?;
        Ok(Map { size: layout.size, image })
    }

    /// Writes each run; the exit code.
    fn each(&self, mut write: impl FnMut(u64, Run) -> io::Result<()>) -> io::Result<u8> {
        let runs = Runs::of(&self.image.bytes, &self.image.backing.bytes, 0, self.size);
        let mut exit = DONE;
        for (start, run) in runs.map_err(|number| io::Error::other(number.to_string()))? {
            if matches!(run.found, Found::Refused(_)) {
                exit = FAILED;
            }
            write(start, run)?;
        }
        Ok(exit)
    }
}

impl Stream for Map {
    fn text(&self, out: &mut Output) -> io::Result<u8> {
        out.write_all(b"guest\tlength\tkind\thost\n")?;
        self.each(|start, run| {
            let (kind, last) = words(run.found);
            match last {
                Some((_, number)) => writeln!(out, "{start}\t{}\t{kind}\t{number}", run.length),
                None => writeln!(out, "{start}\t{}\t{kind}\t-", run.length),
            }
        })
    }

    fn members(&self) -> (Vec<(&'static str, Json)>, &'static str) {
        (vec![("disk_size", self.size.into())], "runs")
    }

    fn json(&self, out: &mut Output) -> io::Result<u8> {
        out.write_all(b"[")?;
        let exit = self.each(|start, run| {
            let comma = if start == 0 { "" } else { ", " };
            let (kind, last) = words(run.found);
            let length = run.length;
            write!(out, "{comma}{{\"guest\": {start}, \"length\": {length}, \"kind\": \"{kind}\"")?;
            match last {
                Some((name, number)) => write!(out, ", \"{name}\": {number}}}"),
                None => out.write_all(b"}"),
            }
        })?;
        out.write_all(b"]")?;
        Ok(exit)
    }
}

/// The kind, and the number that goes with it.
fn words(found: Found) -> (&'static str, Option<(&'static str, u64)>) {
    match found {
        Found::Host(host) => ("host", Some(("host", host))),
        Found::Zeros => ("zeros", None),
        Found::Absent => ("absent", None),
        Found::Refused(number) => ("refused", Some(("number", number.into()))),
    }
}
