//! Numbers 11 to 13 and 15 to 17: the request, and what stands in its way.

use std::ffi::OsStr;
use std::ops::RangeInclusive;

use super::{Remedy, Request, Sentence, Subject};
use crate::damage::{bad_entries, Damage};
use crate::fields::{be64, Fields};
use crate::findings::{l1_fault, l2_fault, of_snapshot, verdict, NO_DAMAGE};
use crate::layout::Layout;
use crate::snapshots::{self, labels, Table};

pub fn sentence(number: u32, subject: &Subject, request: Request) -> (String, Remedy) {
    let Some(layout) = Layout::of(subject.bytes) else { return too_short() };
    match number {
        11 => out_of_range(&layout, subject, request),
        15 => (
            "the memory lent for the check was too short".into(),
            Remedy::Other("This is a fault of qstore: report it.".into()),
        ),
        16 => (
            format!("the host cluster of {} has the stored count 0", place(&layout, request)),
            Remedy::Other(format!(
                "The image is damaged: {} lists the damage.",
                subject.commands().check()
            )),
        ),
        _ => damaged(&layout, subject),
    }
}

fn too_short() -> (String, Remedy) {
    ("the header is too short".into(), Remedy::Other("Leave the file as it is.".into()))
}

/// Which guest bytes were asked for.
pub fn place(layout: &Layout, request: Request) -> String {
    match request {
        Request::Look | Request::Extend { .. } => "the disk".into(),
        Request::Read { offset, length } | Request::Write { offset, length, whole: true } => {
            format!("{length} bytes at guest offset {offset}")
        }
        Request::Write { offset, length, whole: false } => {
            format!("more than {length} bytes at guest offset {offset}")
        }
        Request::Discard { cluster } => {
            let offset = u128::from(cluster) << layout.bits;
            format!("guest cluster {cluster} at guest offset {offset}")
        }
        Request::Snapshot { word, offset, length } => {
            let word = word.to_string_lossy();
            format!("{length} bytes at guest offset {offset} of snapshot {word:?}")
        }
    }
}

/// The guest clusters of a request, as far as the disk has them.
pub fn guests(layout: &Layout, request: Request) -> RangeInclusive<u64> {
    let (first, last) = match request {
        Request::Look | Request::Extend { .. } => (0, u64::MAX),
        Request::Read { offset, length }
        | Request::Write { offset, length, .. }
        | Request::Snapshot { offset, length, .. } => {
            let last = offset.saturating_add(length).saturating_sub(1).max(offset);
            (offset >> layout.bits, last >> layout.bits)
        }
        Request::Discard { cluster } => (cluster, cluster),
    };
    first..=last.min(layout.guest_clusters().saturating_sub(1))
}

/// Number 11.
fn out_of_range(layout: &Layout, subject: &Subject, request: Request) -> (String, Remedy) {
    let run = if matches!(request, Request::Discard { .. }) { "runs" } else { "run" };
    let (layout, end) = match request {
        Request::Snapshot { word, .. } => match of_word(layout, subject, word) {
            Some(tree) => (tree, "what its L1 table reaches,"),
            None => return no_such(subject, word),
        },
        _ => (*layout, "the disk's end at"),
    };
    let size = layout.size;
    let what = format!("{} {run} past {end} {size}", place(&layout, request));
    let text = match request {
        Request::Read { offset, .. }
        | Request::Write { offset, .. }
        | Request::Snapshot { offset, .. }
            if offset < size =>
        {
            format!("From {offset} on there are {} bytes.", size - offset)
        }
        _ => format!("Offsets go up to {size}."),
    };
    (what, Remedy::Other(text))
}

/// The tables of the snapshot that a word names.
fn of_word(layout: &Layout, subject: &Subject, word: &OsStr) -> Option<Layout> {
    let table = Table::of(subject.bytes, &Fields::read(subject.bytes)?);
    let snapshot = snapshots::find(&table.snapshots, word).ok()?;
    layout.of_snapshot(subject.bytes, snapshot)
}

fn no_such(subject: &Subject, word: &OsStr) -> (String, Remedy) {
    let word = word.to_string_lossy();
    let what = format!("there is no snapshot {word:?}, neither by its id nor by its name");
    let table = Fields::read(subject.bytes).map(|fields| Table::of(subject.bytes, &fields));
    let snapshots = table.unwrap_or_default().snapshots;
    let text = match snapshots.len() {
        0 => "The image has no snapshots.".into(),
        _ => format!("The image has {}.", labels(&snapshots)),
    };
    (what, Remedy::Other(text))
}

/// Numbers 12 and 13: the first bad entry on the way of the request.
pub fn entry(number: u32, subject: &Subject, request: Request) -> Sentence {
    let Some(layout) = Layout::of(subject.bytes) else {
        return Sentence::new(number, too_short());
    };
    let tree = match request {
        Request::Snapshot { word, .. } => of_word(&layout, subject, word).unwrap_or(layout),
        _ => layout,
    };
    let what = first_bad(&tree, subject.bytes, guests(&tree, request));
    let what = what.unwrap_or_else(|| "an L1 or L2 entry on the way is not good".into());
    let compressed = bad_entries(&layout, subject.bytes).compressed;
    let text = if number == 13 {
        NO_DAMAGE.into()
    } else {
        format!("{} lists the damage.", subject.commands().check())
    };
    let members = vec![("compressed", compressed.into())];
    Sentence { number, what, remedy: Remedy::NewImage(text), members }
}

fn first_bad(layout: &Layout, image: &[u8], guests: RangeInclusive<u64>) -> Option<String> {
    let (per_table, whose) = (layout.per_table(), of_snapshot(layout.snapshot));
    let mut guest = *guests.start();
    while guest <= *guests.end() {
        let (l1_index, l2_index) = (guest / per_table, guest % per_table);
        let l1_entry = be64(image, layout.l1_entry_at(l1_index))?;
        if let Some(fault) = l1_fault(layout, image, l1_entry) {
            let fault = fault.about(l1_entry);
            return Some(format!("L1 entry {l1_index}{whose} is 0x{l1_entry:016x}: {fault}"));
        }
        if l1_entry == 0 {
            guest = (l1_index + 1) * per_table;
            continue;
        }
        let l2_entry = be64(image, layout.l2_entry_at(image, guest)?)?;
        if let Some(fault) = l2_fault(layout, image, l2_entry) {
            return Some(format!(
                "L2 entry {l2_index} below L1 entry {l1_index}{whose} (guest offset {}) is \
                 0x{l2_entry:016x}: {}",
                guest << layout.bits,
                fault.about(l2_entry)
            ));
        }
        guest += 1;
    }
    None
}

/// All compressed clusters of an image that has no other number.
pub fn compressed(entries: u64) -> Sentence {
    let what = format!("{entries} cluster(s) of the disk are compressed and cannot be read");
    let text = "To qemu compressed clusters are no damage.";
    let members = vec![("compressed", entries.into())];
    Sentence { number: 13, what, remedy: Remedy::NewImage(text.into()), members }
}

/// Number 17: the check says what is damaged.
fn damaged(layout: &Layout, subject: &Subject) -> (String, Remedy) {
    let mut scratch = vec![0; layout.scratch()];
    let found = qcow2_core::check(subject.bytes, &subject.backing.bytes, &mut scratch);
    let words = verdict(layout, subject.bytes, found, &scratch).0;
    let remedy = Damage::of(layout, subject.bytes, found, &scratch).remedy();
    (format!("only leaks are repaired, and the image is {words}"), remedy)
}
