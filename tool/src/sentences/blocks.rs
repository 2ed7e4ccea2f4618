//! Number 10: the refcount table.

use std::collections::HashSet;

use super::{longer, tail, Remedy, Subject};
use crate::fields::{be64, Fields, MAX_IMAGE};
use crate::snapshots;

/// The refcount table of a file.
struct Table<'a> {
    subject: &'a Subject<'a>,
    fields: Fields,
    cluster: u64,
    /// Clusters of the file, and those that a block counts.
    clusters: u64,
    per_block: u64,
}

/// The first entry of the refcount table that breaks the rule.
pub fn sentence(subject: &Subject) -> (String, Remedy) {
    let Some(table) = Table::of(subject) else {
        return ("an entry of the refcount table is wrong".into(), new_counts());
    };
    let Some((index, entry)) = table.first_wrong(subject.length) else {
        return ("an entry of the refcount table is wrong".into(), new_counts());
    };
    if index >= table.needed(subject.length) {
        return table.past_end(index, entry);
    }
    if entry == 0 {
        return table.lost(index);
    }
    let what = format!(
        "refcount table entry {index} is 0x{entry:x}, which is no cluster of {} bytes inside the \
         file",
        table.cluster
    );
    (what, new_counts())
}

/// The disk is read without the counts.
pub fn new_counts() -> Remedy {
    let text = "The new one gets counts of its own; the disk's bytes do not depend on them.";
    Remedy::NewImage(text.into())
}

impl<'a> Table<'a> {
    fn of(subject: &'a Subject<'a>) -> Option<Table<'a>> {
        let fields = Fields::read(subject.bytes)?;
        let cluster = fields.cluster()?;
        let clusters = subject.length / cluster;
        Some(Table { subject, fields, cluster, clusters, per_block: fields.per_block()? })
    }

    /// Blocks that a file of this length needs.
    fn needed(&self, length: u64) -> u64 {
        (length / self.cluster).div_ceil(self.per_block)
    }

    fn entry(&self, index: u64) -> Option<u64> {
        let at = self.fields.table_at.checked_add(8 * index)?;
        be64(self.subject.bytes, usize::try_from(at).ok()?)
    }

    fn entries(&self) -> impl Iterator<Item = (u64, u64)> + '_ {
        let number = u64::from(self.fields.table_clusters) * (self.cluster / 8);
        (0..number).map_while(|index| Some((index, self.entry(index)?)))
    }

    /// Does the entry name a block inside the file?
    fn is_inside(&self, entry: u64) -> bool {
        let end = entry.checked_add(self.cluster);
        let inside = end.is_some_and(|end| end <= self.subject.length);
        entry != 0 && entry.is_multiple_of(self.cluster) && inside
    }

    /// The first entry that is wrong for a file of this length.
    fn first_wrong(&self, length: u64) -> Option<(u64, u64)> {
        let needed = self.needed(length);
        let good = |index, entry| {
            if index < needed {
                self.is_inside(entry)
            } else {
                entry == 0
            }
        };
        self.entries().find(|&(index, entry)| !good(index, entry))
    }

    /// Is every block a cluster of its own? Else the image would be damaged. What
    /// L1 and L2 entries name is not looked at.
    fn blocks_are_apart(&self) -> bool {
        let Fields { table_at, table_clusters, l1_at, l1_size, .. } = self.fields;
        let end = |at: u64, length: u64| at.saturating_add(length);
        let l1 = |at, entries: u32| at..end(at, 8 * u64::from(entries));
        let snapshots = snapshots::Table::of(self.subject.bytes, &self.fields);
        let mut fixed = vec![
            table_at..end(table_at, u64::from(table_clusters) * self.cluster),
            l1(l1_at, l1_size),
            self.fields.snapshots_at..snapshots.end,
        ];
        fixed.extend(snapshots.snapshots.iter().map(|one| l1(one.l1_at, one.l1_size)));
        let mut seen = HashSet::new();
        let mut blocks = self.entries().map(|entry| entry.1).filter(|&block| block != 0);
        blocks.all(|block| !fixed.iter().any(|it| it.contains(&block)) && seen.insert(block))
    }

    /// A block is named for clusters that the file does not have.
    fn past_end(&self, index: u64, entry: u64) -> (String, Remedy) {
        let what = format!(
            "refcount table entry {index} names a block at {entry}, but its clusters lie past the \
             file's end: the file has {} clusters, and the block's first is {}",
            self.clusters,
            index * self.per_block
        );
        match tail::refers_past(self.subject.bytes, self.subject.length) {
            Some(false) => {}
            Some(true) => {
                let remedy =
                    Remedy::NewImage(tail::rest(self.subject.bytes, self.subject.length).into());
                return (format!("{what}; {}", tail::CUT_SHORT), remedy);
            }
            None => return (what, new_counts()),
        }
        let last = self.entries().filter(|entry| entry.1 != 0).last();
        let length = last.and_then(|(last, _)| {
            let clusters = last.checked_mul(self.per_block)?.checked_add(1)?;
            clusters.checked_mul(self.cluster)
        });
        let fits = |length: &u64| {
            *length <= MAX_IMAGE && self.first_wrong(*length).is_none() && self.blocks_are_apart()
        };
        let Some(length) = length.filter(fits) else { return (what, new_counts()) };
        let command = self.subject.commands().append(length - self.subject.length);
        let text = format!(
            "Lengthen the file with zeros, so that the block has clusters to count; nothing in the \
             image names what lies past its end: {command}."
        );
        (what, Remedy::InPlace(text))
    }

    /// No block is named for clusters that the file has.
    fn lost(&self, index: u64) -> (String, Remedy) {
        let what = format!(
            "refcount table entry {index} is 0, so clusters {} and up have no stored count; the \
             file has {} clusters",
            index * self.per_block,
            self.clusters
        );
        if longer::is_taken_in(self.subject) {
            let text = format!(
                "Nothing in the image refers to them, so they were appended. Take them in, which \
                 changes no guest byte: {}.",
                self.subject.commands().extend(self.subject.length)
            );
            return (what, Remedy::InPlace(text));
        }
        let end = index * self.per_block * self.cluster;
        let rest_is_zero = self.entries().skip(index as usize).all(|entry| entry.1 == 0);
        if index == 0 || !rest_is_zero || !tail::is_unused(self.subject.bytes, end) {
            return (what, new_counts());
        }
        let text = format!(
            "From byte {end} on there are only zeros, and nothing in the image refers to them, so \
             the file can be shortened: {}.",
            self.subject.commands().shorten(end)
        );
        (what, Remedy::InPlace(text))
    }
}
