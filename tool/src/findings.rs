//! Damage in words: which rule an entry breaks, and what the check found.

use qcow2_core::Verdict;

use crate::damage;
use crate::fields::{be64, COMPRESSED, PLACE, USED};
use crate::json::Json;
use crate::layout::Layout;
use crate::marks;
use crate::runs::figure;

/// Which rule an entry breaks.
#[derive(Clone, Copy, Debug, PartialEq)]
pub enum Fault {
    ReservedInL1,
    ReservedInL2,
    Compressed,
    ZeroMark,
    NoPlace,
    Unaligned,
    PastEnd,
}

impl Fault {
    /// As a word of the JSON answers.
    pub fn name(self) -> &'static str {
        match self {
            Fault::ReservedInL1 | Fault::ReservedInL2 => "reserved_bit",
            Fault::Compressed => "compressed",
            Fault::ZeroMark => "zero_mark",
            Fault::NoPlace => "no_place",
            Fault::Unaligned => "unaligned",
            Fault::PastEnd => "past_end",
        }
    }

    /// For entries with this fault.
    pub fn text(self) -> &'static str {
        match self {
            Fault::ReservedInL1 => "a reserved bit is set (0 to 8 or 56 to 62)",
            Fault::ReservedInL2 => "a reserved bit is set (1 to 8 or 56 to 61)",
            Fault::Compressed => "a compressed cluster (bit 62), which is not supported",
            Fault::ZeroMark => "bit 0 is set, which version 2 does not have",
            Fault::NoPlace => "bit 63 is set, but no place is given",
            Fault::Unaligned => "its place is no multiple of the cluster size",
            Fault::PastEnd => "its place lies past the file's end",
        }
    }

    /// For one entry.
    pub fn about(self, entry: u64) -> String {
        let place = entry & PLACE;
        match self {
            Fault::Unaligned => format!("its place {place} is no multiple of the cluster size"),
            Fault::PastEnd => format!("its place {place} lies past the file's end"),
            _ => self.text().into(),
        }
    }
}

/// What is wrong with an L1 entry, if anything is.
pub fn l1_fault(layout: &Layout, image: &[u8], entry: u64) -> Option<Fault> {
    if entry & 0x7F00_0000_0000_01FF != 0 {
        return Some(Fault::ReservedInL1);
    }
    place_fault(layout, image, entry)
}

/// What is wrong with an L2 entry, if anything is.
pub fn l2_fault(layout: &Layout, image: &[u8], entry: u64) -> Option<Fault> {
    if entry & COMPRESSED != 0 {
        return Some(Fault::Compressed);
    }
    if entry & 0x3F00_0000_0000_01FE != 0 {
        return Some(Fault::ReservedInL2);
    }
    if entry & 1 != 0 && layout.version == 2 {
        return Some(Fault::ZeroMark);
    }
    place_fault(layout, image, entry & !1)
}

fn place_fault(layout: &Layout, image: &[u8], entry: u64) -> Option<Fault> {
    let place = entry & PLACE;
    if place == 0 {
        return (entry & USED != 0).then_some(Fault::NoPlace);
    }
    if !place.is_multiple_of(layout.cluster() as u64) {
        return Some(Fault::Unaligned);
    }
    layout.named(image, entry).is_none().then_some(Fault::PastEnd)
}

type Members = Vec<(&'static str, Json)>;

/// The verdict as text, and as members of a JSON object. The scratch is that of
/// the check.
pub fn verdict(
    layout: &Layout,
    image: &[u8],
    verdict: Verdict,
    scratch: &[u8],
) -> (String, Members) {
    let (text, mut members) = words(layout, image, verdict, scratch);
    members.push(("compressed", compressed(layout, image, verdict).into()));
    (text, members)
}

/// The number of compressed clusters, so that compression can be told from
/// damage.
pub fn compressed(layout: &Layout, image: &[u8], verdict: Verdict) -> u64 {
    match damage::is_bad_entry(verdict) {
        true => damage::bad_entries(layout, image).compressed,
        false => 0,
    }
}

fn words(layout: &Layout, image: &[u8], verdict: Verdict, scratch: &[u8]) -> (String, Members) {
    let at = |cluster: u64| format!("cluster {cluster} (at {})", cluster << layout.bits);
    match verdict {
        Verdict::Sound => ("sound".into(), vec![("verdict", "sound".into())]),
        Verdict::Leaks(number) => {
            (format!("leaks {number}"), vec![("verdict", "leaks".into()), ("leaks", number.into())])
        }
        Verdict::BadL1(l1_index) => bad_l1(layout, image, l1_index, None),
        Verdict::BadL2(l1_index, l2_index) => bad_l2(layout, image, [l1_index, l2_index], None),
        Verdict::SnapshotBadL1(l1_index, snapshot) => {
            bad_l1(layout, image, l1_index, Some(snapshot))
        }
        Verdict::SnapshotBadL2(l1_index, l2_index, snapshot) => {
            bad_l2(layout, image, [l1_index, l2_index], Some(snapshot))
        }
        Verdict::Shared(cluster) => {
            let text = format!("damaged: {} {}", at(cluster), shared_by(layout, image));
            (text, damaged("shared", vec![("cluster", cluster.into())]))
        }
        Verdict::Short(cluster) => {
            let stored = layout.count(image, cluster as usize).unwrap_or(0);
            let used = match figure(scratch, cluster as usize) {
                0 | 1 => "is in use".into(),
                references => format!("has {references} references"),
            };
            let text = format!("damaged: {} {used}, but its stored count is {stored}", at(cluster));
            (text, damaged("short", vec![("cluster", cluster.into())]))
        }
        Verdict::MarkL1(l1_index) => mark(layout, image, scratch, (l1_index, None)),
        Verdict::MarkL2(l1_index, l2_index) => {
            mark(layout, image, scratch, (l1_index, Some(l2_index)))
        }
        Verdict::Refused(number) => (format!("refused {number}"), vec![("refused", number.into())]),
    }
}

/// With snapshots some references may be common.
fn shared_by(layout: &Layout, image: &[u8]) -> &'static str {
    match layout.with_snapshots(image).len() {
        1 => "has two references or more",
        _ => "is used for two things, or twice for one",
    }
}

fn damaged(finding: &'static str, more: Members) -> Members {
    let mut members = vec![("verdict", "damaged".into()), ("finding", finding.into())];
    members.extend(more);
    members
}

/// The tables of a snapshot or of the disk, if there is such an L1 entry: a check in
/// portions may name what was there earlier.
fn tree(layout: &Layout, image: &[u8], snapshot: Option<u64>, l1_index: u64) -> Option<Layout> {
    let mut trees = layout.with_snapshots(image).into_iter();
    trees.find(|tree| tree.snapshot == snapshot && l1_index < tree.l1_size as u64)
}

/// After the name of an entry: whose it is.
pub fn of_snapshot(snapshot: Option<u64>) -> String {
    snapshot.map_or(String::new(), |number| format!(" of snapshot {number}"))
}

/// An entry may have been changed since an earlier portion of a check met it.
fn about(fault: Option<Fault>, entry: u64) -> String {
    fault.map_or_else(
        || "it was bad when the check met it, and is not any more".into(),
        |fault| fault.about(entry),
    )
}

fn bad_l1(
    layout: &Layout,
    image: &[u8],
    l1_index: u64,
    snapshot: Option<u64>,
) -> (String, Members) {
    let at = tree(layout, image, snapshot, l1_index).map(|tree| tree.l1_entry_at(l1_index));
    let entry = at.and_then(|at| be64(image, at)).unwrap_or(0);
    let fault = about(l1_fault(layout, image, entry), entry);
    let whose = of_snapshot(snapshot);
    let text = format!("damaged: L1 entry {l1_index}{whose} is 0x{entry:016x}: {fault}");
    let mut more = vec![
        ("l1_index", l1_index.into()),
        ("entry", format!("0x{entry:016x}").into()),
        ("reason", fault.into()),
    ];
    more.extend(snapshot.map(|number| ("snapshot", number.into())));
    (text, damaged("entry", more))
}

fn bad_l2(
    layout: &Layout,
    image: &[u8],
    [l1_index, l2_index]: [u64; 2],
    snapshot: Option<u64>,
) -> (String, Members) {
    let guest = l1_index * layout.per_table() + l2_index;
    let tree = tree(layout, image, snapshot, l1_index);
    let at = tree.and_then(|tree| tree.l2_entry_at(image, guest));
    let entry = at.and_then(|at| be64(image, at)).unwrap_or(0);
    let fault = about(l2_fault(layout, image, entry), entry);
    let (offset, whose) = (guest << layout.bits, of_snapshot(snapshot));
    let text = format!(
        "damaged: L2 entry {l2_index} below L1 entry {l1_index}{whose} (guest offset {offset}) is \
         0x{entry:016x}: {fault}"
    );
    let mut more = vec![
        ("l1_index", l1_index.into()),
        ("l2_index", l2_index.into()),
        ("guest_offset", offset.into()),
        ("entry", format!("0x{entry:016x}").into()),
        ("reason", fault.into()),
    ];
    more.extend(snapshot.map(|number| ("snapshot", number.into())));
    (text, damaged("entry", more))
}

/// The first wrong mark, in an image without bad entries.
fn mark(
    layout: &Layout,
    image: &[u8],
    scratch: &[u8],
    index: (u64, Option<u64>),
) -> (String, Members) {
    let wrong = marks::wrong(layout, image, scratch);
    let first = wrong.into_iter().find(|mark| (mark.l1_index, mark.l2_index) == index);
    let (about, members) = first.map_or_else(Default::default, |it| (it.about(), it.members()));
    let place = match index {
        (l1_index, None) => format!("L1 entry {l1_index}"),
        (l1_index, Some(l2_index)) => format!("L2 entry {l2_index} below L1 entry {l1_index}"),
    };
    (format!("damaged: mark of {place}: {about}"), damaged("mark", members))
}

/// What is said of compressed clusters beside a copy without them.
pub const NO_DAMAGE: &str = "The new one has no compressed clusters. To qemu they are no damage.";

/// What to do about damage that keeps a change from being made.
const ADVICE: &str = "Let no program write to the file; qstore check lists all of the damage and \
                      says what is safe.";

/// The same where all bad entries are of compressed clusters.
const ADVICE_COMPRESSED: &str =
    "Images with compressed clusters are not changed. To qemu they are \
                                 no damage; qstore check says how to make a copy without them.";

pub fn advice(layout: &Layout, image: &[u8], verdict: Verdict) -> &'static str {
    if !damage::is_bad_entry(verdict) {
        return ADVICE;
    }
    let bad = damage::bad_entries(layout, image);
    if bad.compressed == bad.entries {
        ADVICE_COMPRESSED
    } else {
        ADVICE
    }
}
