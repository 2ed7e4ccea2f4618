//! A refusal in words: what is wrong, told by the image's own fields, and what
//! can be done about it without losing a byte.

mod backing;
mod blocks;
pub mod commands;
mod copy;
mod features;
pub mod format;
mod header;
mod held;
mod longer;
mod qemu;
pub mod request;
mod room;
mod table;
mod tail;

use std::ffi::OsStr;
use std::path::Path;

use crate::backing::Backing;
use crate::json::Json;
use crate::report::Failure;
use commands::Commands;

pub use copy::NewImage;
pub use features::{named_bits, AUTOCLEAR_BITS, COMPATIBLE_BITS, INCOMPATIBLE_BITS};

/// The file that a refusal is about.
pub struct Subject<'a> {
    pub path: &'a Path,
    pub length: u64,
    /// The whole image, or its first 512 bytes where it is too long.
    pub bytes: &'a [u8],
    /// What lies under it, as the command line gives it.
    pub backing: &'a Backing,
}

/// What was asked when the core refused.
#[derive(Clone, Copy)]
pub enum Request<'a> {
    Look,
    Read {
        offset: u64,
        length: u64,
    },
    Write {
        offset: u64,
        length: u64,
        /// Was the input read to its end? Else it is longer than `length`.
        whole: bool,
    },
    Discard {
        cluster: u64,
    },
    /// To so many bytes of the file.
    Extend {
        bytes: u64,
    },
    /// A read of the snapshot that a word names.
    Snapshot {
        word: &'a OsStr,
        offset: u64,
        length: u64,
    },
}

#[derive(Debug)]
pub struct Refusal {
    pub number: u32,
    pub what: String,
    pub advice: String,
    /// More for the JSON object.
    pub members: Vec<(&'static str, Json)>,
}

/// What can be done about a refusal.
pub enum Remedy {
    /// A change to the file that loses nothing. A new image does without it.
    InPlace(String),
    /// A new image, with what has to be said beside it.
    NewImage(String),
    /// The same with so many bytes of room in it.
    Roomy(u64, String),
    /// What a new image does not change.
    Other(String),
}

/// A refusal before its advice is put together.
pub struct Sentence {
    pub number: u32,
    pub what: String,
    pub remedy: Remedy,
    pub members: Vec<(&'static str, Json)>,
}

impl Sentence {
    fn new(number: u32, (what, remedy): (String, Remedy)) -> Sentence {
        Sentence { number, what, remedy, members: Vec::new() }
    }
}

/// The refusal for a number from 1 to 22.
pub fn refusal(number: u32, subject: &Subject, request: Request) -> Refusal {
    let Sentence { number, what, remedy, members } = sentence(number, subject, request);
    Refusal { number, what, advice: subject.advice(remedy), members }
}

/// What is wrong and what can be done.
pub fn sentence(number: u32, subject: &Subject, request: Request) -> Sentence {
    if let (5 | 9 | 10, Request::Extend { bytes }) = (number, request) {
        return Sentence::new(number, longer::sentence(number, subject, bytes));
    }
    let words = match number {
        1..=5 => header::shape(number, subject),
        6 | 7 => features::sentence(number, subject),
        8 | 9 => header::sizes(number, subject),
        10 => blocks::sentence(subject),
        12 | 13 => return request::entry(number, subject, request),
        14 => room::sentence(subject, request),
        11 | 15..=17 => request::sentence(number, subject, request),
        18 => header::sectors(subject),
        19 => backing::wrong(subject),
        20 => backing::shows(subject, request),
        21 => table::sentence(subject),
        22 => return held::sentence(subject, request),
        _ => (
            "the core answered with an unknown number".into(),
            Remedy::Other("Report this.".into()),
        ),
    };
    Sentence::new(number, words)
}

/// How to look at an image without the change that is advised.
const WITHOUT: &str = "With --as-if-mended info, check, map and read do as if that were done.";

/// Two sentences, of which the second may be empty.
pub fn joined(first: &str, second: &str) -> String {
    if second.is_empty() {
        return first.into();
    }
    format!("{first} {second}")
}

impl<'a> Subject<'a> {
    /// An image that is at hand whole.
    pub fn of(path: &'a Path, bytes: &'a [u8], backing: &'a Backing) -> Subject<'a> {
        Subject { path, length: bytes.len() as u64, bytes, backing }
    }

    /// The failure for a number that the core gave.
    pub fn refused(&self, number: u32, request: Request) -> Failure {
        Failure::Refused(refusal(number, self, request))
    }

    /// Those that name the backing file, if qemu would look for one.
    fn commands(&self) -> Commands {
        let over = format::fields(self.bytes).is_some_and(|fields| fields.is_over_backing());
        Commands::of(self.path, self.backing.path.as_deref().filter(|_| over))
    }

    pub fn advice(&self, remedy: Remedy) -> String {
        let (room, text) = match remedy {
            Remedy::InPlace(text) | Remedy::Other(text) => return self.printable(text),
            Remedy::NewImage(text) => (0, text),
            Remedy::Roomy(room, text) => (room, text),
        };
        let advice = match self.new_image(room) {
            Ok(new_image) => joined(&new_image.whole(), &text),
            Err(reason) => reason,
        };
        self.printable(advice)
    }

    /// How a new image is made that is accepted, or why none can be.
    pub fn new_image(&self, room: u64) -> Result<NewImage, String> {
        copy::new_image(self, room)
    }

    /// The advice, if the commands in it can name the files.
    pub fn printable(&self, advice: String) -> String {
        let plain = |name: &str| !name.chars().any(char::is_control);
        let names = [Some(self.path), self.backing.path.as_deref()];
        let plain = names.map(|path| path.is_none_or(|path| path.to_str().is_some_and(plain)));
        let whose = match plain {
            [true, true] => return advice,
            _ if !advice.contains(commands::MARK) => return advice,
            [false, _] => "file",
            _ => "backing file",
        };
        format!(
            "The {whose}'s name cannot be printed, so no command can name it: give it another name, \
             or a hard link with one, and ask again under that."
        )
    }
}

#[cfg(test)]
mod tests {
    use super::*;

    #[test]
    fn every_number_has_a_sentence_for_any_bytes() {
        let requests = [
            Request::Look,
            Request::Read { offset: u64::MAX, length: u64::MAX },
            Request::Write { offset: u64::MAX, length: u64::MAX, whole: true },
            Request::Write { offset: 0, length: 1 << 30, whole: false },
            Request::Discard { cluster: u64::MAX },
            Request::Extend { bytes: u64::MAX },
            Request::Extend { bytes: 1 << 30 },
            Request::Snapshot { word: OsStr::new("a"), offset: u64::MAX, length: u64::MAX },
        ];
        let long = vec![0xFF; 1024];
        let zeros = vec![0; 1024];
        for bytes in [&[][..], &long[..], &zeros[..], &long[..104]] {
            for backing in [Backing::default(), Backing::named(Some(Path::new("b")))] {
                let subject = Subject::of(Path::new("a"), bytes, &backing);
                for (number, request) in (0..24).flat_map(|it| requests.map(|one| (it, one))) {
                    let refusal = refusal(number, &subject, request);
                    assert!(!refusal.what.is_empty() && !refusal.advice.is_empty());
                    let known = (1..=22).contains(&number);
                    assert_eq!(refusal.what.contains("unknown number"), !known);
                }
            }
        }
    }
}
