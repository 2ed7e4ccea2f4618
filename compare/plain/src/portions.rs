//! The check in portions of L1 entries: those of the active table first, then those of
//! each snapshot's.

use answers::{CheckBytes, Portion, Verdict};

use crate::compare::compare;
use crate::entries::Rules;
use crate::header::{Disk, Header};
use crate::marks::wrong_mark;
use crate::owners::{ManyDisks, OneDisk, Owners, Unknown};
use crate::references::Count;
use crate::width::Figure;

/// How far a check has come.
#[derive(Clone, Copy, Debug, PartialEq, Eq)]
pub enum CheckState {
    New,
    /// The entries ahead are those of L1 table `root` from index `row` on, and of all
    /// tables after it.
    Going {
        root: u64,
        row: u64,
        /// The first bad entry so far, sound where none was met.
        found: Verdict,
    },
    Finished(Verdict),
}

/// The next portion of the check whose state these bytes are. Where the state stays its
/// bytes stay too, also those that are not looked at.
pub fn check_portion(
    image: &[u8],
    backing: &[u8],
    state: &mut CheckBytes,
    scratch: &mut [u8],
    may: u64,
) -> Portion {
    let before = CheckState::of_bytes(state);
    let (after, answer) = before.portion(image, backing, scratch, may);
    if after != before {
        *state = after.bytes();
    }
    // As a number for C, what a state was made to tell is 0 for sound, or a refusal.
    match answer {
        Portion::Told(Verdict::Refused(0)) => Portion::Told(Verdict::Sound),
        Portion::Told(Verdict::Refused(number)) => Portion::Refused(number),
        answer => answer,
    }
}

impl CheckState {
    /// Takes `may` of the entries ahead or all of them, which ends the check; the next
    /// state, and the answer.
    pub fn portion(
        self,
        image: &[u8],
        backing: &[u8],
        scratch: &mut [u8],
        may: u64,
    ) -> (CheckState, Portion) {
        let header = match Header::judge(image, backing) {
            Ok(header) => header,
            Err(number) => return (self, Portion::Refused(number)),
        };
        let Some(figures) = scratch.get_mut(..2 * header.clusters) else {
            return (self, Portion::Refused(15));
        };
        match self {
            CheckState::Finished(verdict) => (self, Portion::Told(verdict)),
            _ if may == 0 => (self, Portion::More),
            _ => self.go_on(&header, image, figures.as_chunks_mut().0, may),
        }
    }

    /// One that is not finished, and may take an entry.
    fn go_on(
        self,
        header: &Header,
        image: &[u8],
        figures: &mut [Figure],
        may: u64,
    ) -> (CheckState, Portion) {
        let (rules, mut at) = (Rules::of(header), (0, 0));
        if self == CheckState::New {
            figures.fill([0; 2]);
        }
        let mut count = Count::new(header, image, figures, Unknown);
        match self {
            CheckState::Going { root, row, found } => {
                at = (root, row);
                count.bad = Some(found).filter(|found| *found != Verdict::Sound);
            }
            _ => count.fixed_structures(),
        }
        let mut ahead = header.ahead(at);
        for (number, disk, l1_index) in ahead.by_ref().take(may as usize) {
            count.entry(&rules, number, disk, l1_index);
            at = (number as u64, l1_index as u64 + 1);
        }
        let bad = count.bad;
        if ahead.next().is_some() {
            let (root, row) = at;
            let found = bad.unwrap_or(Verdict::Sound);
            return (CheckState::Going { root, row, found }, Portion::More);
        }
        let verdict = bad.unwrap_or_else(|| judge(header, image, figures));
        (CheckState::Finished(verdict), Portion::Told(verdict))
    }
}

impl Header<'_> {
    /// The L1 entries ahead of a table and an index: the table's number, its disk, and
    /// the entry's index.
    fn ahead(&self, (root, row): (u64, u64)) -> impl Iterator<Item = (usize, Disk, usize)> + '_ {
        let (root, row) = (root as usize, row as usize);
        self.disks().enumerate().skip(root).flat_map(move |(number, disk)| {
            let first = if number == root { row } else { 0 };
            (first..disk.l1_size).map(move |l1_index| (number, disk, l1_index))
        })
    }
}

/// What the last portion says where no bad entry was met: of sharing by the image
/// alone, of counts and marks by the figures.
fn judge(header: &Header, image: &[u8], figures: &[Figure]) -> Verdict {
    let shared = match header.snapshots.disks.is_empty() {
        true => lowest_shared(header, image, OneDisk::default()),
        false => lowest_shared(header, image, ManyDisks::of(header.clusters)),
    };
    if let Some(cluster) = shared {
        return Verdict::Shared(cluster as u64);
    }
    match compare(header, image, figures) {
        short @ Verdict::Short(_) => short,
        verdict => wrong_mark(header, image, figures).unwrap_or(verdict),
    }
}

fn lowest_shared(header: &Header, image: &[u8], owners: impl Owners) -> Option<usize> {
    let mut figures = vec![[0; 2]; header.clusters];
    let mut count = Count::new(header, image, &mut figures, owners);
    count.all();
    let owners = count.owners;
    owners.lowest_shared(&figures)
}
