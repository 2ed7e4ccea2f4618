//! All that stands in the way of an image that is refused, not the first thing
//! alone. The numbers are the core's: it is asked again with what it named
//! mended in memory.

use std::mem::take;
use std::path::Path;

use crate::backing::Backing;
use crate::damage;
use crate::fields::{Fields, HEADER_LENGTH, MAX_IMAGE, MAX_L1, MAX_SNAPSHOTS, SECTOR};
use crate::layout::Layout;
use crate::mended;
use crate::sentences::{
    joined, request, sentence, NewImage, Refusal, Remedy, Request, Sentence, Subject,
};

/// The obstacles of a file in the order of the numbers; the first is the core's
/// answer on the file as it is. `bytes` is the whole file, or its first 512
/// bytes where it is too long; it is changed.
pub fn of(path: &Path, bytes: &mut Vec<u8>, length: u64, backing: &Backing) -> Vec<Refusal> {
    let mut found = Vec::new();
    let new_image = Subject { path, length, bytes, backing }.new_image(0);
    let header = bytes.iter().take(512).copied().collect();
    let too_long = length > MAX_IMAGE;
    let mut probe = Probe { length, too_long, reach: Reach::Tables, header, bytes, backing };
    while let Some(number) = probe.number() {
        found.push(probe.sentence(path, number));
        if !probe.mend(number) {
            break;
        }
    }
    if probe.number().is_none() {
        found.extend(probe.compressed());
    }
    let mut refusals = refusals(found, &new_image);
    let subject = Subject { length, ..Subject::of(path, &[], backing) };
    refusals.iter_mut().for_each(|one| one.advice = subject.printable(take(&mut one.advice)));
    refusals
}

/// Where only a new image helps against one of them, it helps against the
/// others too, and is told once; so is that none can be made.
fn refusals(found: Vec<Sentence>, new_image: &Result<NewImage, String>) -> Vec<Refusal> {
    let is_new = |one: &Sentence| matches!(one.remedy, Remedy::NewImage(_) | Remedy::Roomy(..));
    let anew = new_image.is_ok() && found.iter().any(is_new);
    let mut told = Told { new_image, by: None, lengthened: false };
    let mut refusals = Vec::new();
    for Sentence { number, what, remedy, members } in found {
        let advice = match remedy {
            Remedy::Other(text) if number == 18 => told.lengthen(text),
            Remedy::Other(text) => text,
            Remedy::InPlace(text) if !anew => text,
            Remedy::InPlace(_) => told.anew(number, ""),
            Remedy::NewImage(text) | Remedy::Roomy(_, text) => told.anew(number, &text),
        };
        refusals.push(Refusal { number, what, advice, members });
    }
    refusals
}

/// What was told before.
struct Told<'a> {
    new_image: &'a Result<NewImage, String>,
    /// The number that the new image was told with.
    by: Option<u32>,
    /// Was it told how the disk gets whole sectors?
    lengthened: bool,
}

impl Told<'_> {
    fn anew(&mut self, number: u32, text: &str) -> String {
        let first = self.by.is_none();
        self.by.get_or_insert(number);
        match self.new_image {
            Ok(_) if !first => joined("The new image does not have this.", text),
            Ok(new_image) if self.lengthened => joined(&new_image.text, text),
            Ok(new_image) => {
                self.lengthened = !new_image.before.is_empty();
                joined(&new_image.whole(), text)
            }
            Err(_) if !first => {
                format!("What ({}) says of a new image holds here too.", self.by.unwrap_or(number))
            }
            Err(reason) => reason.clone(),
        }
    }

    /// A copy would lack the disk's last bytes, so this comes before it.
    fn lengthen(&mut self, text: String) -> String {
        match self.by {
            Some(number) if self.lengthened => {
                format!("The command that ({number}) begins with takes this away.")
            }
            _ => {
                self.lengthened = true;
                text
            }
        }
    }
}

/// Which numbers can be asked for.
#[derive(Clone, Copy, PartialEq, PartialOrd)]
enum Reach {
    /// Up to 7: the cluster size is not known.
    Features,
    /// Up to 8, and 18: the tables are not there, or of another kind.
    Sizes,
    Tables,
}

/// An image that is mended step by step.
struct Probe<'a> {
    length: u64,
    too_long: bool,
    reach: Reach,
    /// As it is in the file.
    header: Vec<u8>,
    bytes: &'a mut Vec<u8>,
    backing: &'a Backing,
}

impl Probe<'_> {
    /// Tells of the header as it is in the file.
    fn sentence(&mut self, path: &Path, number: u32) -> Sentence {
        self.change_header();
        let (length, backing) = (self.length, self.backing);
        let subject = Subject { path, length, bytes: self.bytes, backing };
        let sentence = sentence(number, &subject, Request::Look);
        self.change_header();
        sentence
    }

    /// Puts the one header in the other's place.
    fn change_header(&mut self) {
        let length = self.header.len();
        self.header.swap_with_slice(&mut self.bytes[..length]);
    }

    /// The core's number, if it is one that can be asked for.
    fn number(&self) -> Option<u32> {
        // Reading nothing judges the header.
        let number = match qcow2_core::read(self.bytes, &self.backing.bytes, 0, &mut []) {
            Err(number @ 1..=4) => number,
            _ if self.too_long => 5,
            Err(number) => number,
            Ok(()) => return None,
        };
        let reach = match number {
            1..=7 => Reach::Features,
            8 | 18 => Reach::Sizes,
            _ => Reach::Tables,
        };
        (reach <= self.reach).then_some(number)
    }

    /// Takes what the number is about out of the way; could it?
    fn mend(&mut self, number: u32) -> bool {
        let Some(fields) = Fields::read(self.bytes) else { return false };
        match number {
            4 => self.header_alone(9, Reach::Features),
            5 if self.too_long => self.header_alone(fields.cluster_bits, Reach::Sizes),
            5 => {
                mended::pad(self.bytes);
                self.length = self.bytes.len() as u64;
            }
            6 => self.mend_features(&fields),
            7 => self.put(72, &[0; 8]),
            8 => self.mend_size(&fields),
            18 => self.put(24, &[0; 8]),
            19 => self.put(8, &[0; 8]),
            21 => self.put(60, &[0; 4]),
            _ => return false,
        }
        true
    }

    fn put(&mut self, at: usize, bytes: &[u8]) {
        self.bytes[at..at + bytes.len()].copy_from_slice(bytes);
    }

    /// A cluster with the header in it: of a whole length.
    fn header_alone(&mut self, cluster_bits: u32, reach: Reach) {
        (self.reach, self.too_long) = (reach, false);
        self.bytes.truncate(512);
        self.put(20, &cluster_bits.to_be_bytes());
        self.bytes.resize(1 << cluster_bits, 0);
    }

    fn mend_features(&mut self, fields: &Fields) {
        self.put(32, &[0; 4]);
        if fields.snapshots > MAX_SNAPSHOTS {
            self.put(60, &[0; 4]);
        }
        if fields.version == 3 {
            self.put(100, &HEADER_LENGTH.to_be_bytes());
        }
        // Which blocks there should be is not known without the width.
        if fields.width().is_none() {
            self.put(96, &4u32.to_be_bytes());
            if self.reach == Reach::Tables {
                self.reach = Reach::Sizes;
            }
        }
    }

    /// The smallest disk that has as many bytes past a whole sector.
    fn mend_size(&mut self, fields: &Fields) {
        let l1_size = u64::from(fields.l1_size).min(MAX_L1) as u32;
        let size = if l1_size == 0 { 0 } else { fields.size % SECTOR };
        self.put(24, &size.to_be_bytes());
        self.put(36, &l1_size.to_be_bytes());
    }

    /// Compressed clusters of an image that would be accepted.
    fn compressed(&self) -> Option<Sentence> {
        let layout = Layout::of(self.bytes).filter(|_| self.reach == Reach::Tables)?;
        let mut scratch = vec![0; layout.scratch()];
        let verdict = qcow2_core::check(self.bytes, &self.backing.bytes, &mut scratch);
        if !damage::is_bad_entry(verdict) {
            return None;
        }
        let entries = damage::bad_entries(&layout, self.bytes).compressed;
        (entries > 0).then(|| request::compressed(entries))
    }
}
