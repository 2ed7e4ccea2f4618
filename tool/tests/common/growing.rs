//! A drive that forgets and that can grow, and what is promised of an image on it
//! that is made longer.

use std::collections::BTreeMap;
use std::io;
use std::path::Path;

use qcow2_core::Verdict;
use qstore::commands::extend;
use qstore::disk::Disk;
use qstore::image_file::{Access, ImageFile, View};
use qstore::report::{Failure, Report};

use super::drive::{put, sectors, Random};
use super::promise::{guest_over, kept_over, verdict_over};

const SECTOR: usize = 512;

/// What reaches the drive some time before the next flush returns.
#[derive(Clone, Debug, PartialEq)]
pub enum Sent {
    Bytes(usize, Vec<u8>),
    Length(usize),
}

/// What was sent since each flush; fails at one of these or at a flush, if so told.
#[derive(Default)]
pub struct Growing {
    /// What a load gives, flushed or not.
    pub cache: Vec<u8>,
    pub epochs: Vec<Vec<Sent>>,
    pub open: Vec<Sent>,
    pub left: Option<usize>,
    /// Flushes that were asked for, and the one among them that is not made.
    pub flushes: usize,
    pub deaf: Option<usize>,
}

impl Growing {
    pub fn with(image: &[u8]) -> Growing {
        Growing { cache: image.to_vec(), ..Growing::default() }
    }

    /// The drive holds the image; the cache is ahead of it.
    pub fn behind(image: &[u8], open: Vec<Sent>) -> Growing {
        let mut cache = image.to_vec();
        apply(&mut cache, &open);
        Growing { cache, open, ..Growing::default() }
    }

    fn spend(&mut self) -> io::Result<()> {
        match &mut self.left {
            Some(0) => Err(io::Error::other("no more")),
            Some(left) => {
                *left -= 1;
                Ok(())
            }
            None => Ok(()),
        }
    }

    fn send(&mut self, sent: Sent) -> io::Result<()> {
        self.spend()?;
        apply(&mut self.cache, std::slice::from_ref(&sent));
        self.open.push(sent);
        Ok(())
    }
}

impl Disk for Growing {
    fn length(&self) -> io::Result<u64> {
        Ok(self.cache.len() as u64)
    }

    fn load(&self, at: u64, bytes: &mut [u8]) -> io::Result<()> {
        bytes.copy_from_slice(&self.cache[at as usize..][..bytes.len()]);
        Ok(())
    }

    fn store(&mut self, at: u64, bytes: &[u8]) -> io::Result<()> {
        assert!(at as usize + bytes.len() <= self.cache.len(), "a store past the end");
        self.send(Sent::Bytes(at as usize, bytes.to_vec()))
    }

    fn lengthen(&mut self, length: u64) -> io::Result<()> {
        assert!(length as usize > self.cache.len(), "not made longer");
        self.send(Sent::Length(length as usize))
    }

    fn flush(&mut self) -> io::Result<()> {
        self.spend()?;
        if self.deaf != Some(self.flushes) {
            self.epochs.push(std::mem::take(&mut self.open));
        }
        self.flushes += 1;
        Ok(())
    }
}

fn apply(image: &mut Vec<u8>, sent: &[Sent]) {
    for one in sent {
        match one {
            Sent::Bytes(at, bytes) => put(image, &[(*at, bytes)]),
            Sent::Length(length) => image.resize(*length, 0),
        }
    }
}

/// The command on a drive.
pub fn extend<D: Disk>(
    drive: D,
    backing: &[u8],
    bytes: usize,
    allowance: u64,
) -> Result<Report, Failure> {
    let (path, view) = (Path::new("drive"), View::Lengthened(bytes as u64));
    let mut image = ImageFile::read(path, drive, Access::Change, view, None)?;
    image.backing.bytes = backing.to_vec();
    extend::run(image, bytes as u64, allowance)
}

/// States that a cut may leave while this is on its way: with any sectors forgotten,
/// among them all, none, all but one, and one; and the length, without which nothing
/// past the old end is found again.
fn torn(base: &[u8], sent: &[Sent], random: &mut Random) -> Vec<Vec<u8>> {
    let stores = sent.iter().filter_map(|one| match one {
        Sent::Bytes(at, bytes) => Some((*at, bytes.clone())),
        Sent::Length(_) => None,
    });
    let stores: Vec<(usize, Vec<u8>)> = stores.collect();
    let pieces = sectors(&stores);
    let mut longer = base.to_vec();
    sent.iter().filter(|one| matches!(one, Sent::Length(_))).for_each(|one| {
        apply(&mut longer, std::slice::from_ref(one));
    });
    let sector = |piece: &(usize, &[u8])| piece.0 / SECTOR;
    let (first, last) = (pieces.first().map(sector), pieces.last().map(sector));
    let mut states = Vec::new();
    for round in 0..12 {
        let mut drawn = BTreeMap::new();
        for at in pieces.iter().map(sector) {
            let kept = match round {
                0 | 1 => round == 1,
                2 | 3 => (Some(at) == first) == (round == 2),
                4 | 5 => (Some(at) == last) == (round == 4),
                _ => random.below(2) == 1,
            };
            drawn.entry(at).or_insert(kept);
        }
        for start in [base, &longer] {
            let mut state = start.to_vec();
            let inside = pieces.iter().filter(|(at, piece)| at + piece.len() <= state.len());
            let kept: Vec<_> = inside.filter(|piece| drawn[&sector(piece)]).copied().collect();
            put(&mut state, &kept);
            states.push(state);
        }
    }
    states.sort_unstable();
    states.dedup();
    states
}

/// All states that cuts may leave, flush by flush; the last is what the drive holds
/// in the end.
pub fn all_torn(image: &[u8], drive: &Growing, random: &mut Random) -> Vec<Vec<u8>> {
    let (mut states, mut state) = (Vec::new(), image.to_vec());
    for sent in drive.epochs.iter().chain([&drive.open]) {
        states.extend(torn(&state, sent, random));
        apply(&mut state, sent);
    }
    states.push(state);
    states
}

/// Of one image that is made so long.
pub struct Promise {
    image: Vec<u8>,
    backing: Vec<u8>,
    bytes: usize,
    guest: Vec<u8>,
    snapshots: Vec<Vec<u8>>,
    /// What the command leaves that is not cut.
    pub finished: Vec<u8>,
}

impl Promise {
    /// `earlier` is the bytes of the image that are sound or leak by themselves.
    pub fn of(image: &[u8], earlier: usize, backing: &[u8], bytes: usize) -> Promise {
        let earlier = &image[..earlier];
        let (guest, snapshots) = (guest_over(earlier, backing), kept_over(earlier, backing));
        let mut drive = Growing::with(image);
        assert!(extend(&mut drive, backing, bytes, u64::MAX).is_ok());
        let (image, backing) = (image.to_vec(), backing.to_vec());
        Promise { image, backing, bytes, guest, snapshots, finished: drive.cache }
    }

    /// In what a state breaks it.
    pub fn fault(&self, state: &[u8]) -> Option<String> {
        let verdict = verdict_over(state, &self.backing);
        match verdict {
            Verdict::Refused(10) => {}
            _ if !verdict.is_usable() => return Some(format!("{verdict:?}")),
            _ if guest_over(state, &self.backing) != self.guest => return Some("guest".into()),
            _ if kept_over(state, &self.backing) != self.snapshots => {
                return Some("a byte of a snapshot".into());
            }
            _ => {}
        }
        // Nothing but the length is stored while autoclear bits stand.
        let bits = state[7] == 3 && state[88..96] != [0; 8];
        let (first, more) = state.split_at(self.image.len());
        if bits && (first != self.image || more.iter().any(|&byte| byte != 0)) {
            return Some("the autoclear bits stand".into());
        }
        let mut drive = Growing::with(state);
        if extend(&mut drive, &self.backing, self.bytes, u64::MAX).is_err() {
            return Some("the same command does not finish the work".into());
        }
        (drive.cache != self.finished).then(|| "other bytes than without the cut".into())
    }
}
