//! A drive that forgets, behind a cache.

use std::collections::BTreeMap;
use std::io;
use std::path::Path;

use qstore::backing::Backing;
use qstore::commands::change::open_usable;
use qstore::disk::Disk;
use qstore::image_file::{Access, ImageFile, View};
use qstore::ordered::Ordered;
use qstore::report::Failure;

const SECTOR: usize = 512;

pub type Stores = Vec<(usize, Vec<u8>)>;

/// Stores since each flush; fails at a store or flush, if so told.
pub struct Drive {
    /// What a load gives, flushed or not.
    pub cache: Vec<u8>,
    pub epochs: Vec<Stores>,
    pub open: Stores,
    pub left: Option<usize>,
    /// Flushes that were asked for, and the one among them that is not made.
    pub flushes: usize,
    pub deaf: Option<usize>,
}

impl Drive {
    pub fn with(image: &[u8]) -> Drive {
        Drive::behind(image, vec![])
    }

    /// The drive holds the image; the cache is ahead by these stores.
    pub fn behind(image: &[u8], open: Stores) -> Drive {
        let mut cache = image.to_vec();
        put(&mut cache, &sectors(&open));
        Drive { cache, epochs: vec![], open, left: None, flushes: 0, deaf: None }
    }

    fn spend(&mut self) -> io::Result<()> {
        match &mut self.left {
            Some(0) => Err(io::Error::other("no more")),
            Some(left) => {
                *left -= 1;
                Ok(())
            }
            None => Ok(()),
        }
    }
}

impl Disk for Drive {
    fn length(&self) -> io::Result<u64> {
        Ok(self.cache.len() as u64)
    }

    fn load(&self, at: u64, bytes: &mut [u8]) -> io::Result<()> {
        bytes.copy_from_slice(&self.cache[at as usize..][..bytes.len()]);
        Ok(())
    }

    fn store(&mut self, at: u64, bytes: &[u8]) -> io::Result<()> {
        self.spend()?;
        self.open.push((at as usize, bytes.to_vec()));
        put(&mut self.cache, &[(at as usize, bytes)]);
        Ok(())
    }

    /// See [`Growing`](super::growing::Growing) for a drive that can grow.
    fn lengthen(&mut self, length: u64) -> io::Result<()> {
        panic!("made {length} bytes long");
    }

    fn flush(&mut self) -> io::Result<()> {
        self.spend()?;
        if self.deaf != Some(self.flushes) {
            self.epochs.push(std::mem::take(&mut self.open));
        }
        self.flushes += 1;
        Ok(())
    }
}

/// The image on a drive, as a command that changes it opens it.
pub fn open<D: Disk>(drive: D) -> Result<ImageFile<D>, Failure> {
    ImageFile::read(Path::new("drive"), drive, Access::Change, View::AsItIs, None)
}

/// The same for a write or discard.
pub fn usable<D: Disk>(drive: D) -> Ordered<D> {
    usable_over(drive, &[])
}

/// The same over these bytes of a backing file.
pub fn usable_over<D: Disk>(drive: D, backing: &[u8]) -> Ordered<D> {
    open_over(drive, backing).and_then(open_usable).ok().expect("a usable image").1
}

pub fn open_over<D: Disk>(drive: D, backing: &[u8]) -> Result<ImageFile<D>, Failure> {
    let mut image = open(drive)?;
    image.backing.bytes = backing.to_vec();
    Ok(image)
}

/// Without a look at what the image is.
pub fn accepted<D: Disk>(drive: D, image: Vec<u8>) -> Ordered<D> {
    Ordered::new(drive, image, Backing::default()).expect("an accepted image")
}

pub struct Random(pub u64);

impl Random {
    pub fn below(&mut self, end: usize) -> usize {
        self.0 =
            self.0.wrapping_mul(6_364_136_223_846_793_005).wrapping_add(1_442_695_040_888_963_407);
        (self.0 >> 33) as usize % end
    }
}

/// The stores as pieces that each lie in one sector.
pub fn sectors(stores: &[(usize, Vec<u8>)]) -> Vec<(usize, &[u8])> {
    let mut pieces = Vec::new();
    for (at, bytes) in stores {
        let (mut at, mut rest) = (*at, &bytes[..]);
        while !rest.is_empty() {
            let (piece, after) = rest.split_at(rest.len().min(SECTOR - at % SECTOR));
            pieces.push((at, piece));
            (at, rest) = (at + piece.len(), after);
        }
    }
    pieces
}

pub fn put(image: &mut [u8], pieces: &[(usize, &[u8])]) {
    for (at, piece) in pieces {
        image[*at..at + piece.len()].copy_from_slice(piece);
    }
}

/// States that a cut may leave while this is on its way to the drive: with any
/// sectors forgotten, among them all, none, all but one, and one. Or any stores
/// of a sector: it may have been on its way between two of them.
pub fn torn(base: &[u8], stores: &[(usize, Vec<u8>)], random: &mut Random) -> Vec<Vec<u8>> {
    let pieces = sectors(stores);
    let sector = |piece: &(usize, &[u8])| piece.0 / SECTOR;
    let (first, last) = (pieces.first().map(sector), pieces.last().map(sector));
    let mut choices = vec![vec![false; pieces.len()], vec![true; pieces.len()]];
    for edge in [first, last] {
        let only: Vec<bool> = pieces.iter().map(|piece| Some(sector(piece)) == edge).collect();
        choices.push(only.iter().map(|kept| !kept).collect());
        choices.push(only);
    }
    for _ in 0..6 {
        let mut drawn = BTreeMap::new();
        let mut kept = |piece| *drawn.entry(sector(piece)).or_insert_with(|| random.below(2) == 1);
        choices.push(pieces.iter().map(&mut kept).collect());
        choices.push(pieces.iter().map(|_| random.below(2) == 1).collect());
    }
    choices.sort_unstable();
    choices.dedup();
    let state = |kept: Vec<bool>| {
        let mut state = base.to_vec();
        let pieces = pieces.iter().zip(kept).filter(|(_, kept)| *kept);
        pieces.for_each(|(piece, _)| put(&mut state, &[*piece]));
        state
    };
    choices.into_iter().map(state).collect()
}

/// All states that cuts may leave, flush by flush; the last is what the drive
/// holds in the end.
pub fn all_torn(image: &[u8], drive: &Drive, random: &mut Random) -> Vec<Vec<u8>> {
    let (mut states, mut state) = (Vec::new(), image.to_vec());
    for stores in drive.epochs.iter().chain([&drive.open]) {
        states.extend(torn(&state, stores, random));
        put(&mut state, &sectors(stores));
    }
    states.push(state);
    states
}
