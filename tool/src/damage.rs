//! All the damage that can be named, as runs.

use qcow2_core::Verdict;

use crate::findings::{of_snapshot, Fault, NO_DAMAGE};
use crate::json::Json;
use crate::layout::Layout;
use crate::marks::{self, WrongMark};
use crate::owners;
use crate::runs;
use crate::sentences::{joined, Remedy};
use crate::walk::{self, Met, Seen};

/// Neighbouring entries with the same fault: L1 entries from `l1_index` on, or
/// the L2 entries from `l2_index` on below it.
#[derive(Debug, PartialEq)]
pub struct BadRun {
    /// In or below the L1 table of this snapshot, or else of the disk.
    pub snapshot: Option<u64>,
    pub l1_index: u64,
    pub l2_index: Option<u64>,
    pub number: u64,
    pub fault: Fault,
    /// The first of them.
    pub entry: u64,
}

#[derive(Default)]
pub struct Bad {
    pub runs: Vec<BadRun>,
    /// Runs that are not listed.
    pub left_out: usize,
    pub entries: u64,
    pub compressed: u64,
    /// May several L1 tables lead to one of them?
    common: bool,
}

/// The most runs of a kind that are listed, so that the answer on any image
/// fits into memory.
const MOST: usize = 100_000;

/// Every bad entry, in the order in which the check names the first. What
/// several L1 tables have in common is named with the first of them.
pub fn bad_entries(layout: &Layout, image: &[u8]) -> Bad {
    let trees = layout.with_snapshots(image);
    let mut bad = Bad { common: trees.len() > 1, ..Bad::default() };
    let (mut open, mut seen) = (None, Seen::none(layout));
    for tree in &trees {
        each_bad(tree, image, &mut seen, |run| bad.add(&mut open, run));
    }
    bad.close(open);
    bad
}

/// Has the disk a bad entry with a fault that counts? The image may be refused.
pub fn any_bad(layout: &Layout, image: &[u8], counts: impl Fn(Fault) -> bool) -> bool {
    let mut any = false;
    each_bad(layout, image, &mut Seen::none(layout), |run| any |= counts(run.fault));
    any
}

/// Gives every bad entry as a run of one; tables that were seen are left out.
fn each_bad(layout: &Layout, image: &[u8], seen: &mut Seen, mut found: impl FnMut(BadRun)) {
    let meet = |met: Met| {
        let Met { snapshot, l1_index, l2_index, entry, fault } = met;
        if let Some(fault) = fault {
            found(BadRun { snapshot, l1_index, l2_index, number: 1, fault, entry });
        }
    };
    walk::entries(layout, image, |cluster| seen.is_first(cluster), meet);
}

impl BadRun {
    /// Does the next one belong to this run?
    fn goes_on(&self, next: &BadRun) -> bool {
        let follows = match (self.l2_index, next.l2_index) {
            (None, None) => self.l1_index + self.number == next.l1_index,
            (Some(first), Some(index)) => {
                self.l1_index == next.l1_index && first + self.number == index
            }
            _ => false,
        };
        follows && self.fault == next.fault && self.snapshot == next.snapshot
    }

    /// Guest offset and length.
    fn range(&self, layout: &Layout) -> (u64, u64) {
        let first = self.l1_index * layout.per_table() + self.l2_index.unwrap_or(0);
        let each = if self.l2_index.is_none() { layout.per_table() } else { 1 };
        let offset = first << layout.bits;
        let length = (self.number * each) << layout.bits;
        // The last table and the last cluster may reach past the disk's end; the
        // disk that a snapshot kept goes as far as its L1 table.
        match self.snapshot {
            None => (offset, length.min(layout.size.saturating_sub(offset))),
            Some(_) => (offset, length),
        }
    }

    fn line(&self, layout: &Layout) -> String {
        let (offset, length) = self.range(layout);
        let last = |first: u64| match self.number {
            1 => format!("entry {first}"),
            number => format!("entries {first} to {}", first + number - 1),
        };
        let place = match self.l2_index {
            None => format!("L1 {}", last(self.l1_index)),
            Some(l2_index) => format!("L2 {} below L1 entry {}", last(l2_index), self.l1_index),
        };
        let (fault, whose) = (self.fault.text(), of_snapshot(self.snapshot));
        format!("    {place}{whose} ({length} bytes at guest offset {offset}): {fault}\n")
    }

    fn object(&self, layout: &Layout) -> Json {
        let (offset, length) = self.range(layout);
        let mut members = vec![("l1_index", self.l1_index.into())];
        members.extend(self.l2_index.map(|index| ("l2_index", index.into())));
        members.extend(self.snapshot.map(|number| ("snapshot", number.into())));
        members.extend([
            ("number", self.number.into()),
            ("guest_offset", offset.into()),
            ("length", length.into()),
            ("entry", format!("0x{:016x}", self.entry).into()),
            ("fault", self.fault.name().into()),
            ("reason", self.fault.text().into()),
        ]);
        Json::Object(members)
    }
}

impl Bad {
    /// Counts an entry that goes on with the run at hand or begins the next.
    fn add(&mut self, open: &mut Option<BadRun>, next: BadRun) {
        self.entries += 1;
        self.compressed += u64::from(next.fault == Fault::Compressed);
        match open {
            Some(run) if run.goes_on(&next) => run.number += 1,
            _ => self.close(open.replace(next)),
        }
    }

    fn close(&mut self, run: Option<BadRun>) {
        if self.runs.len() < MOST {
            self.runs.extend(run);
        } else {
            self.left_out += usize::from(run.is_some());
        }
    }
}

/// What is wrong with an image. What only a bad entry refers to counts as
/// leaked.
#[derive(Default)]
pub struct Damage {
    pub bad: Bad,
    /// Clusters, as first and number.
    pub shared: Vec<(u64, u64)>,
    pub short: Vec<(u64, u64)>,
    pub leaked: Vec<(u64, u64)>,
    /// Where nothing is bad or shared.
    pub marks: Vec<WrongMark>,
}

/// Is it a bad entry that the check names?
pub fn is_bad_entry(verdict: Verdict) -> bool {
    matches!(
        verdict,
        Verdict::BadL1(_)
            | Verdict::BadL2(..)
            | Verdict::SnapshotBadL1(..)
            | Verdict::SnapshotBadL2(..)
    )
}

impl Damage {
    /// For the verdict and the scratch of a check. Bad entries are named first,
    /// then shared clusters, so there are none under another verdict.
    pub fn of(layout: &Layout, image: &[u8], verdict: Verdict, scratch: &[u8]) -> Damage {
        let by = |wanted: fn(i32) -> bool| runs::by_difference(layout, image, scratch, wanted);
        let (short, leaked) = (by(|difference| difference < 0), by(|difference| difference > 0));
        let mut damage = Damage { short, leaked, ..Damage::default() };
        let is_bad = is_bad_entry(verdict);
        if is_bad {
            damage.bad = bad_entries(layout, image);
        }
        if is_bad || matches!(verdict, Verdict::Shared(_)) {
            let shared = owners::shared(layout, image);
            damage.shared = runs::of((0..layout.clusters).filter(|&cluster| shared[cluster]));
        } else {
            damage.marks = marks::wrong(layout, image, scratch);
        }
        damage
    }

    /// Is nothing wrong but that there are compressed clusters?
    fn is_compression(&self) -> bool {
        let others = self.shared.is_empty() && self.short.is_empty();
        others && self.bad.entries > 0 && self.bad.compressed == self.bad.entries
    }

    pub fn remedy(&self) -> Remedy {
        if self.is_compression() {
            return Remedy::NewImage(NO_DAMAGE.into());
        }
        let rest = if self.bad.entries > 0 {
            ""
        } else if !self.shared.is_empty() {
            "Where two owners share a cluster, the bytes of one of them may be lost already: the \
             comparison is of what is read now."
        } else if self.short.is_empty() {
            "The disk's bytes are all there: by a wrong bit 63 a program that writes may change \
             bytes of a snapshot."
        } else {
            "The disk's bytes are all there: a program that writes may take their clusters for free."
        };
        Remedy::NewImage(joined("Let no program write to the old one.", rest))
    }

    /// The lists as lines, each with a limit.
    pub fn lines(&self, layout: &Layout) -> String {
        const SHOWN: usize = 8;
        let mut text = String::new();
        let Bad { runs, left_out, entries, compressed, common } = &self.bad;
        if *entries > 0 {
            let of_these = match compressed {
                0 => String::new(),
                all if all == entries => ", all of compressed clusters".into(),
                number => format!(", {number} of them of compressed clusters"),
            };
            text += &format!("  bad entries: {entries}{of_these}\n");
            runs.iter().take(SHOWN).for_each(|run| text += &run.line(layout));
            match runs.len().saturating_sub(SHOWN) + left_out {
                0 => {}
                more => text += &format!("    and {more} runs more\n"),
            }
            if *common {
                text += "    each is named once, with the first L1 table that leads to it\n";
            }
        }
        for (name, runs) in self.lists().iter().filter(|list| !list.1.is_empty()) {
            text += &format!("  {name} clusters: {}\n", runs::text(runs));
        }
        if *entries > 0 && !self.leaked.is_empty() {
            text += "    some of them may be what bad entries refer to\n";
        }
        if !self.marks.is_empty() {
            text += &format!("  wrong marks: {}\n", self.marks.len());
            self.marks.iter().take(SHOWN).for_each(|mark| text += &mark.line());
            if self.marks.len() > SHOWN {
                text += &format!("    and {} more\n", self.marks.len() - SHOWN);
            }
        }
        text
    }

    fn lists(&self) -> [(&'static str, &[(u64, u64)]); 3] {
        [("shared", &self.shared), ("short", &self.short), ("leaked", &self.leaked)]
    }

    /// The lists as members of a JSON object.
    pub fn members(&self, layout: &Layout) -> Vec<(&'static str, Json)> {
        let bad = self.bad.runs.iter().map(|run| run.object(layout)).collect();
        let mut left_out = self.bad.left_out;
        let mut members = vec![("bad_entries", Json::List(bad))];
        for (name, runs) in self.lists() {
            let run = |&(first, number): &(u64, u64)| {
                Json::Object(vec![("cluster", first.into()), ("number", number.into())])
            };
            members.push((name, Json::List(runs.iter().take(MOST).map(run).collect())));
            left_out += runs.len().saturating_sub(MOST);
        }
        let marks = self.marks.iter().take(MOST).map(|mark| Json::Object(mark.members()));
        members.push(("marks", Json::List(marks.collect())));
        left_out += self.marks.len().saturating_sub(MOST);
        members.push(("runs_left_out", left_out.into()));
        members
    }
}
