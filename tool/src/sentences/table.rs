//! Number 21: the snapshot table.

use super::{tail, Remedy, Subject};
use crate::fields::{Fields, MAX_L1};
use crate::snapshots::{Snapshot, Table};

/// The first thing that is wrong with it.
pub fn sentence(subject: &Subject) -> (String, Remedy) {
    let Some(fields) = Fields::read(subject.bytes) else {
        return ("the snapshot table is wrong".into(), remedy(""));
    };
    let cluster = fields.cluster().unwrap_or(512);
    let at = fields.snapshots_at;
    if !at.is_multiple_of(cluster) {
        let what = format!("the snapshot table stands at {at}, which is no multiple of {cluster}");
        return (what, remedy(""));
    }
    let table = Table::of(subject.bytes, &fields);
    let wrong = |snapshot: &Snapshot| wrong_l1(subject, snapshot, cluster);
    if let Some(found) = table.snapshots.iter().find_map(wrong) {
        return found;
    }
    let what = format!(
        "entry {} of the snapshot table at {at} runs past the file's end at {}",
        table.snapshots.len(),
        subject.length
    );
    (what, remedy(tail::rest(subject.bytes, subject.length)))
}

/// The disk is read without the snapshots.
fn remedy(more: &str) -> Remedy {
    Remedy::NewImage(more.into())
}

/// What is wrong with a snapshot's L1 table, if anything is.
fn wrong_l1(subject: &Subject, snapshot: &Snapshot, cluster: u64) -> Option<(String, Remedy)> {
    let (whose, at) = (snapshot.label(), snapshot.l1_at);
    let entries = u64::from(snapshot.l1_size);
    if entries > MAX_L1 {
        let what = format!(
            "the L1 table of snapshot {whose} has {entries} entries; at most {MAX_L1} are accepted"
        );
        return Some((what, remedy("")));
    }
    if !at.is_multiple_of(cluster) {
        let what = format!(
            "the L1 table of snapshot {whose} stands at {at}, which is no multiple of {cluster}"
        );
        return Some((what, remedy("")));
    }
    let runs_past = at.checked_add(8 * entries).is_none_or(|end| end > subject.length);
    let what = format!(
        "the L1 table of snapshot {whose} stands at {at} and has {} bytes, so it runs past the \
         file's end at {}",
        8 * entries,
        subject.length
    );
    runs_past.then(|| (what, remedy(tail::rest(subject.bytes, subject.length))))
}
