//! Number 14: how much room the whole write needs, and where it can come from.

use std::ops::RangeInclusive;

use super::commands::NEW_CLUSTER;
use super::{held, longer, Remedy, Request, Subject};
use crate::extents::is_zero;
use crate::fields::{be64, MAX_IMAGE, PLACE};
use crate::layout::Layout;

/// New clusters.
#[derive(Debug, PartialEq)]
struct Needs {
    data: u64,
    tables: u64,
}

pub fn sentence(subject: &Subject, request: Request) -> (String, Remedy) {
    let none = || ("no cluster has the stored count 0".into(), Remedy::NewImage(String::new()));
    let Some(layout) = Layout::of(subject.bytes) else { return none() };
    let Request::Write { offset, length, whole } = request else { return none() };
    let Some(guests) = guests(&layout, offset, length) else { return none() };
    if !whole {
        let what = format!("the write has more than {length} bytes");
        return (what, Remedy::Other(too_much()));
    }
    let Needs { data, tables } = needs(&layout, subject.bytes, guests.clone());
    let free = layout.free(subject.bytes) as u64;
    let cluster = layout.cluster();
    let what = format!(
        "the write needs {} free clusters of {cluster} bytes ({data} for its bytes, {tables} for \
         L2 tables), and the image has {free}",
        data + tables
    );
    // Room is not enough where a snapshot holds what is to be changed.
    if held::first(&layout, subject.bytes, guests.clone()).is_some() {
        let what = format!("{what}; clusters on its way are held by a snapshot (22)");
        return (what, elsewhere(&layout, subject, guests, held::deleted()));
    }
    let missing = (data + tables).saturating_sub(free);
    let remedy = match appended(&layout, subject.bytes, missing) {
        Some(clusters) => Remedy::InPlace(format!(
            "Append {clusters} zero clusters, which count as free; the whole write then finds \
             room: {}.",
            subject.commands().append(clusters * cluster as u64)
        )),
        None => match longer::with_room(&layout, subject.bytes, missing) {
            Some(bytes) => Remedy::InPlace(format!(
                "The stored counts end at cluster {}. Make the file longer, with counts for the new \
                 clusters; the whole write then finds room: {}.",
                layout.covered(),
                subject.commands().extend(bytes)
            )),
            None => past_the_counts(&layout, subject, guests),
        },
    };
    (what, remedy)
}

fn too_much() -> String {
    format!("An image file can have {MAX_IMAGE} bytes and no more, so that the write does not fit.")
}

/// The guest clusters of a request, as far as the disk has them.
fn guests(layout: &Layout, offset: u64, length: u64) -> Option<RangeInclusive<u64>> {
    let end = offset.checked_add(length)?.min(layout.size);
    (offset < end).then(|| offset >> layout.bits..=(end - 1) >> layout.bits)
}

/// For these guest clusters, in an image that is sound or leaks.
fn needs(layout: &Layout, image: &[u8], guests: RangeInclusive<u64>) -> Needs {
    let mut needs = Needs { data: 0, tables: 0 };
    for (l1_index, part) in by_table(layout, guests) {
        if be64(image, layout.l1_entry_at(l1_index)) == Some(0) {
            needs.tables += 1;
            needs.data += part.end() - part.start() + 1;
        } else {
            needs.data += part.filter(|&guest| !has_place(layout, image, guest)).count() as u64;
        }
    }
    needs
}

fn has_place(layout: &Layout, image: &[u8], guest: u64) -> bool {
    let entry = layout.l2_entry_at(image, guest).and_then(|at| be64(image, at));
    entry.is_some_and(|entry| entry & PLACE != 0)
}

/// Parts of the range below one L1 entry each.
fn by_table(
    layout: &Layout,
    guests: RangeInclusive<u64>,
) -> impl Iterator<Item = (u64, RangeInclusive<u64>)> {
    let per_table = layout.per_table();
    let (first, last) = guests.into_inner();
    (first / per_table..=last / per_table).map(move |l1_index| {
        let start = first.max(l1_index * per_table);
        (l1_index, start..=last.min((l1_index + 1) * per_table - 1))
    })
}

/// The fewest clusters with which the file has so many more free ones, if its
/// stored counts reach that far: a count past the end may be other than 0.
fn appended(layout: &Layout, image: &[u8], missing: u64) -> Option<u64> {
    let most = layout.covered().min(MAX_IMAGE as usize >> layout.bits);
    let is_free = |cluster: &usize| layout.count(image, *cluster) == Some(0);
    let index = usize::try_from(missing.checked_sub(1)?).ok()?;
    let last = (layout.clusters..most).filter(is_free).nth(index)?;
    Some((last + 1 - layout.clusters) as u64)
}

/// Where the file cannot be lengthened enough.
fn past_the_counts(layout: &Layout, subject: &Subject, guests: RangeInclusive<u64>) -> Remedy {
    let covered = layout.covered() as u64;
    if covered << layout.bits >= MAX_IMAGE {
        return Remedy::Other(too_much());
    }
    let ends = format!(
        "The stored counts end at cluster {covered}, so this file cannot be lengthened enough."
    );
    elsewhere(layout, subject, guests, ends)
}

/// A new image with room for the write, if it is not too long then.
fn elsewhere(
    layout: &Layout,
    subject: &Subject,
    guests: RangeInclusive<u64>,
    reason: String,
) -> Remedy {
    let bytes = guests.start() << layout.bits..=((guests.end() + 1) << layout.bits) - 1;
    let larger = *bytes.start() / NEW_CLUSTER..=*bytes.end() / NEW_CLUSTER;
    let room = with_tables(larger.end() - larger.start() + 1) * NEW_CLUSTER;
    let beneath = beneath(layout, &subject.backing.bytes);
    if new_length(layout, subject.bytes) + beneath + room > MAX_IMAGE {
        return Remedy::Other(format!("{reason} {}", too_much()));
    }
    Remedy::Roomy(room, format!("{reason} The new one is given room for the write."))
}

/// At most so many bytes more for those of the backing file, which it has too.
fn beneath(layout: &Layout, backing: &[u8]) -> u64 {
    let shown = backing.len().min(layout.size as usize);
    let parts = backing[..shown].chunks(NEW_CLUSTER as usize);
    match parts.filter(|part| !is_zero(part)).count() as u64 {
        0 => 0,
        filled => (filled + (shown as u64).div_ceil(NEW_CLUSTER * NEW_CLUSTER / 8)) * NEW_CLUSTER,
    }
}

/// Clusters of the larger size, and at most so many L2 tables.
fn with_tables(clusters: u64) -> u64 {
    clusters + clusters.div_ceil(NEW_CLUSTER / 8) + 1
}

/// At most this has a new image of larger clusters, before the write.
fn new_length(layout: &Layout, image: &[u8]) -> u64 {
    let Some(guests) = guests(layout, 0, layout.size) else { return 0 };
    let (mut used, mut last) = (0, None);
    let mut tables = 0;
    for (l1_index, part) in by_table(layout, guests) {
        if be64(image, layout.l1_entry_at(l1_index)) == Some(0) {
            continue;
        }
        tables += 1;
        for guest in part.filter(|&guest| has_place(layout, image, guest)) {
            let larger = Some((guest << layout.bits) / NEW_CLUSTER);
            used += u64::from(larger != last);
            last = larger;
        }
    }
    let l1 = (8 * layout.size.div_ceil(NEW_CLUSTER * NEW_CLUSTER / 8)).div_ceil(NEW_CLUSTER);
    // Header, refcount table, a block, and one more of each.
    (used + tables + l1 + 6) * NEW_CLUSTER
}
