//! A check in portions as a file keeps it between two of them: whose it is, how far
//! it is, and its scratch. A file of other bytes than were written is told by them.

use std::fs::Metadata;
use std::os::unix::fs::MetadataExt;
use std::time::{SystemTime, UNIX_EPOCH};

use qcow2_core::{CheckBytes, CHECK_STATE};

use crate::date::Date;
use crate::digest::digest;
use crate::fields::{be64, BITS, MAX_IMAGE};

/// How every version begins, and this one.
const ANY: &[u8] = b"qstore check state ";
const MAGIC: &[u8] = b"qstore check state 1\n";
/// Numbers of eight bytes after it, and the digest of all that stands before it at
/// the end.
const NUMBERS: usize = 7;
const HEAD: usize = MAGIC.len() + 8 * NUMBERS + CHECK_STATE;
const DIGEST: usize = 8;

/// No file is longer.
pub const LONGEST: usize = HEAD + (MAX_IMAGE / 256) as usize + DIGEST;

/// The image that a check is of.
#[derive(Clone, Copy, Debug, PartialEq)]
pub struct Whose {
    /// Of its bytes, as they are looked at.
    pub length: u64,
    pub cluster_bits: u32,
    /// Of its file.
    pub device: u64,
    pub inode: u64,
}

impl Whose {
    pub fn of(bytes: &[u8], cluster_bits: u32, file: &Metadata) -> Whose {
        let (device, inode) = (file.dev(), file.ino());
        Whose { length: bytes.len() as u64, cluster_bits, device, inode }
    }

    /// Bytes of the scratch.
    fn scratch(&self) -> usize {
        2 * (self.length >> self.cluster_bits) as usize
    }

    /// In words.
    pub fn shape(&self) -> String {
        format!("{} bytes in clusters of {}", self.length, 1u64 << self.cluster_bits)
    }
}

#[derive(Clone, Debug, PartialEq)]
pub struct KeptCheck {
    pub whose: Whose,
    /// Of the image at the last portion.
    pub digest: u64,
    /// Had it other bytes at another portion?
    pub changed: bool,
    /// When the last portion was, in seconds since 1970.
    pub seconds: u64,
    pub state: CheckBytes,
    pub scratch: Vec<u8>,
}

impl KeptCheck {
    /// One that is yet to begin.
    pub fn new(whose: Whose, digest: u64) -> KeptCheck {
        let scratch = vec![0; whose.scratch()];
        KeptCheck { whose, digest, changed: false, seconds: 0, state: CheckBytes::NEW, scratch }
    }

    /// The same check, of which a portion was taken of these bytes just now.
    pub fn taken(&mut self, whose: Whose, digest: u64) {
        (self.whose, self.digest) = (whose, digest);
        let now = SystemTime::now().duration_since(UNIX_EPOCH);
        self.seconds = now.map_or(0, |time| time.as_secs());
    }

    pub fn date(&self) -> Date {
        Date { seconds: self.seconds.try_into().unwrap_or(u32::MAX), nanoseconds: 0 }
    }

    /// What a file keeps.
    pub fn bytes(&self) -> Vec<u8> {
        let Whose { length, cluster_bits, device, inode } = self.whose;
        let numbers: [u64; NUMBERS] = [
            length,
            cluster_bits.into(),
            device,
            inode,
            self.digest,
            self.changed.into(),
            self.seconds,
        ];
        let mut bytes = MAGIC.to_vec();
        numbers.iter().for_each(|number| bytes.extend(number.to_be_bytes()));
        bytes.extend(self.state.0);
        bytes.extend(&self.scratch);
        bytes.extend(digest(&bytes).to_be_bytes());
        bytes
    }

    /// What a file keeps, or why it is none, with what to do.
    pub fn parse(bytes: &[u8]) -> Result<KeptCheck, &'static str> {
        if !bytes.starts_with(MAGIC) {
            return Err(if bytes.starts_with(ANY) { OTHER_VERSION } else { NONE });
        }
        parsed(bytes).ok_or(DAMAGED)
    }
}

const NONE: &str = "it keeps no check of qstore, and is left as it is.\n  Name another file; one \
                    that does not exist is made.";

const OTHER_VERSION: &str = "another version of qstore keeps a check in it.\n  Go on with that \
                             one, or name another file to begin a new check.";

const DAMAGED: &str = "the check that it keeps is damaged.\n  Remove it to begin a new one; the \
                       image has nothing to do with it.";

/// After the first line.
fn parsed(bytes: &[u8]) -> Option<KeptCheck> {
    let (all, last) = bytes.split_at_checked(bytes.len().checked_sub(DIGEST)?)?;
    let number = |k: usize| be64(all, MAGIC.len() + 8 * k);
    let whose = Whose {
        length: number(0).filter(|&length| length <= MAX_IMAGE)?,
        cluster_bits: number(1)?.try_into().ok().filter(|bits| BITS.contains(bits))?,
        device: number(2)?,
        inode: number(3)?,
    };
    let state = CheckBytes(all.get(HEAD - CHECK_STATE..HEAD)?.try_into().ok()?);
    let kept = KeptCheck {
        whose,
        digest: number(4)?,
        changed: number(5)? != 0,
        seconds: number(6)?,
        state,
        scratch: all.get(HEAD..)?.to_vec(),
    };
    let whole = kept.scratch.len() == whose.scratch() && *last == digest(all).to_be_bytes();
    (whole && is_made(&state)).then_some(kept)
}

/// Is it a state as portions make them? The core takes any, but words for people are
/// made of what it tells.
fn is_made(state: &CheckBytes) -> bool {
    let numbers @ [stage, _, _, tag, ..] = state.numbers();
    stage <= 2 && tag <= 7 && numbers.iter().all(|&number| number <= u32::MAX.into())
}

#[cfg(test)]
mod tests {
    use super::*;

    fn kept() -> KeptCheck {
        let whose = Whose { length: 8192, cluster_bits: 9, device: 1 << 40, inode: u64::MAX };
        let state = CheckBytes::of_numbers([1, 2, 3, 2, 0, 1, 0]);
        let scratch = (0..32).collect();
        KeptCheck { whose, digest: 7, changed: true, seconds: 951_782_400, state, scratch }
    }

    #[test]
    fn it_comes_back() {
        let bytes = kept().bytes();
        assert_eq!(bytes.len(), HEAD + 32 + DIGEST);
        assert_eq!(KeptCheck::parse(&bytes), Ok(kept()));
        assert_eq!(kept().date().to_string(), "2000-02-29 00:00:00 UTC");
        let whose = Whose { length: MAX_IMAGE, ..kept().whose };
        let longest = KeptCheck::new(whose, 0).bytes();
        assert_eq!(longest.len(), LONGEST);
        assert!(KeptCheck::parse(&longest).is_ok());
    }

    #[test]
    fn every_bit_and_length_counts() {
        let bytes = kept().bytes();
        for bit in 0..8 * bytes.len() {
            let mut other = bytes.clone();
            other[bit / 8] ^= 1 << (bit % 8);
            assert!(KeptCheck::parse(&other).is_err(), "bit {bit}");
        }
        for length in 0..bytes.len() {
            assert!(KeptCheck::parse(&bytes[..length]).is_err(), "{length} bytes");
        }
        assert_eq!(KeptCheck::parse(&[&bytes[..], &[0]].concat()), Err(DAMAGED));
    }

    #[test]
    fn what_it_is_else() {
        assert_eq!(KeptCheck::parse(b""), Err(NONE));
        assert_eq!(KeptCheck::parse(b"QFI\xfb\0\0\0\x03"), Err(NONE));
        assert_eq!(KeptCheck::parse(b"qstore check state 2\n"), Err(OTHER_VERSION));
        assert_eq!(KeptCheck::parse(MAGIC), Err(DAMAGED));
        // Whole, but nothing that a portion leaves.
        for (at, number) in [(0, 3), (3, 8), (1, 1 << 32), (6, u64::MAX)] {
            let mut numbers = kept().state.numbers();
            numbers[at] = number;
            let made_up = KeptCheck { state: CheckBytes::of_numbers(numbers), ..kept() };
            assert_eq!(KeptCheck::parse(&made_up.bytes()), Err(DAMAGED), "{numbers:?}");
        }
        for (length, cluster_bits) in [(MAX_IMAGE + 512, 9), (0, 8), (0, 22), (u64::MAX, 9)] {
            let whose = Whose { length, cluster_bits, ..kept().whose };
            let made_up = KeptCheck { whose, ..kept() };
            assert_eq!(KeptCheck::parse(&made_up.bytes()), Err(DAMAGED), "{whose:?}");
        }
    }
}
