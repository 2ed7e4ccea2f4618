//! What is promised of an image that a power cut leaves.

use std::ops::Range;

use qcow2_core::{check, read, read_snapshot, Outcome, Verdict};
use qstore::call::Call;
use qstore::layout::Layout;

pub fn verdict(image: &[u8]) -> Verdict {
    verdict_over(image, &[])
}

/// Over these bytes of a backing file, here and below.
pub fn verdict_over(image: &[u8], backing: &[u8]) -> Verdict {
    check(image, backing, &mut vec![0; image.len() / 256])
}

/// The bytes of the disk.
pub fn guest(image: &[u8]) -> Vec<u8> {
    guest_over(image, &[])
}

pub fn guest_over(image: &[u8], backing: &[u8]) -> Vec<u8> {
    let mut bytes = vec![0; Layout::of(image).unwrap().size as usize];
    read(image, backing, 0, &mut bytes).expect("an accepted read");
    bytes
}

/// The bytes of every snapshot.
pub fn kept(image: &[u8]) -> Vec<Vec<u8>> {
    kept_over(image, &[])
}

pub fn kept_over(image: &[u8], backing: &[u8]) -> Vec<Vec<u8>> {
    let trees = Layout::of(image).unwrap().with_snapshots(image);
    let read = |tree: &Layout| {
        let mut bytes = vec![0; tree.size as usize];
        read_snapshot(image, backing, tree.snapshot.unwrap(), 0, &mut bytes)
            .expect("an accepted read");
        bytes
    };
    trees[1..].iter().map(read).collect()
}

/// Of one call on one image.
pub struct Promise {
    image: Vec<u8>,
    backing: Vec<u8>,
    old: Vec<u8>,
    new: Vec<u8>,
    /// The guest bytes that may change, and whether all do or none.
    request: Range<usize>,
    whole: bool,
    snapshots: Vec<Vec<u8>>,
}

impl Promise {
    /// For a call, which is made here in memory.
    pub fn of(image: &[u8], call: &Call) -> Promise {
        Promise::over(image, &[], call)
    }

    pub fn over(image: &[u8], backing: &[u8], call: &Call) -> Promise {
        let layout = Layout::of(image).unwrap();
        let mut after = image.to_vec();
        let outcome = call.run(&mut after, backing, u64::MAX);
        let Outcome::Finished(units) = outcome else { panic!("{outcome:?}") };
        let clears = u64::from(image[88..96] != after[88..96]);
        let (request, whole) = match *call {
            Call::Write { offset, data } => {
                let at = offset as usize;
                (at..at + data.len(), units - clears > layout.cluster() as u64)
            }
            Call::Discard { cluster } => {
                let start = (cluster as usize) << layout.bits;
                (start..(start + layout.cluster()).min(layout.size as usize), true)
            }
        };
        let new = guest_over(&after, backing);
        Promise { request, whole, new, ..Promise::of_repair(image, backing) }
    }

    /// For a repair: no guest byte may change.
    pub fn of_repair(image: &[u8], backing: &[u8]) -> Promise {
        let (old, snapshots) = (guest_over(image, backing), kept_over(image, backing));
        let (image, backing, new) = (image.to_vec(), backing.to_vec(), old.clone());
        Promise { image, backing, old, new, request: 0..0, whole: true, snapshots }
    }

    /// In what an image breaks it.
    pub fn fault(&self, image: &[u8]) -> Option<String> {
        let verdict = verdict_over(image, &self.backing);
        if !verdict.is_usable() {
            return Some(format!("{verdict:?}"));
        }
        if kept_over(image, &self.backing) != self.snapshots {
            return Some("a byte of a snapshot".into());
        }
        // Nothing is stored while autoclear bits stand; version 2 has none.
        let bits = image[7] == 3 && image[88..96] != [0; 8];
        if bits && image != self.image {
            return Some("the autoclear bits stand".into());
        }
        self.guest_fault(&guest_over(image, &self.backing))
    }

    fn guest_fault(&self, seen: &[u8]) -> Option<String> {
        let allowed = |at: &usize| {
            let may = self.request.contains(at) && seen[*at] == self.new[*at];
            seen[*at] == self.old[*at] || may
        };
        if let Some(at) = (0..seen.len()).find(|at| !allowed(at)) {
            return Some(format!("guest byte {at}"));
        }
        let part = |bytes: &[u8]| bytes[self.request.clone()].to_vec();
        let half = part(seen) != part(&self.old) && part(seen) != part(&self.new);
        (self.whole && half).then(|| "half a request".into())
    }
}
