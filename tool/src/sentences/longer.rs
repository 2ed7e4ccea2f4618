//! Numbers 5, 9 and 10 of an image that is to be made longer; and when it can be
//! advised to take in what a file has more than its refcount blocks count.

use super::{blocks, header, tail, Remedy, Subject};
use crate::extents::is_zero;
use crate::fields::{Fields, MAX_IMAGE};
use crate::layout::Layout;
use crate::longer::counted;

/// For a file that is to have so many bytes.
pub fn sentence(number: u32, subject: &Subject, bytes: u64) -> (String, Remedy) {
    let fields = Fields::read(subject.bytes);
    let (Some(fields), Some(layout)) = (fields, Layout::of(subject.bytes)) else {
        return header::shape(number, subject);
    };
    match number {
        5 => length(&layout, subject, bytes),
        9 if !is_misplaced(&fields, &layout, bytes) => table(&layout, bytes),
        9 => header::sizes(number, subject),
        _ => entry(&layout, subject, bytes),
    }
}

/// The greatest length that the refcount table has entries for.
fn most(layout: &Layout) -> u64 {
    (layout.table_entries() as u64).saturating_mul(layout.span() as u64)
}

/// Number 5: the length that is asked for.
fn length(layout: &Layout, subject: &Subject, bytes: u64) -> (String, Remedy) {
    let cluster = layout.cluster() as u64;
    let most = most(layout).min(MAX_IMAGE);
    if bytes > MAX_IMAGE {
        let what = format!("{bytes} bytes are asked for; at most {MAX_IMAGE} are accepted");
        return (what, Remedy::Other(format!("This image can have {most} bytes at most.")));
    }
    let what =
        format!("{bytes} bytes are asked for, which is no whole number of clusters of {cluster}");
    let least = subject.length.next_multiple_of(cluster);
    let lower = bytes - bytes % cluster;
    let near = [lower, lower + cluster].into_iter().filter(|near| (least..=most).contains(near));
    let near: Vec<String> = near.map(|near| near.to_string()).collect();
    let text = match near.is_empty() {
        true => format!("Lengths from {least} to {most} can be asked for, by whole clusters."),
        false => format!("The nearest that can be asked for: {}.", near.join(" or ")),
    };
    (what, Remedy::Other(text))
}

/// Would a table stand at no cluster, or run past such a file?
fn is_misplaced(fields: &Fields, layout: &Layout, bytes: u64) -> bool {
    let cluster = layout.cluster() as u64;
    let tables = [
        (fields.l1_at, 8 * u64::from(fields.l1_size)),
        (fields.table_at, cluster * u64::from(fields.table_clusters)),
    ];
    let past = |at: u64, length| at.checked_add(length).is_none_or(|end| end > bytes);
    tables.into_iter().any(|(at, length)| at % cluster != 0 || past(at, length))
}

/// Number 9: the refcount table is too short.
fn table(layout: &Layout, bytes: u64) -> (String, Remedy) {
    let what = format!(
        "the refcount table has {} entries, which is enough for {} bytes; {bytes} bytes need {}",
        layout.table_entries(),
        most(layout),
        bytes.div_ceil(layout.span() as u64)
    );
    let text =
        "The table cannot grow here; that of the new one is long enough for any length that \
                is accepted, and 'qstore extend' makes it longer.";
    (what, Remedy::NewImage(text.into()))
}

/// Number 10: the first entry that breaks the rule.
fn entry(layout: &Layout, subject: &Subject, bytes: u64) -> (String, Remedy) {
    let (cluster, span) = (layout.cluster() as u64, layout.span() as u64);
    let blocks = bytes.div_ceil(span) as usize;
    let named = layout.table(subject.bytes).take_while(|&entry| entry != 0).count();
    let inside =
        |entry: u64| entry.is_multiple_of(cluster) && entry.saturating_add(cluster) <= bytes;
    let good = |index: usize, entry: u64| match index < named {
        true => inside(entry),
        false => entry == 0 || entry == index as u64 * span,
    };
    let entries = layout.table(subject.bytes).take(blocks).enumerate();
    let Some((index, entry)) = entries.into_iter().find(|&(index, entry)| !good(index, entry))
    else {
        // None is named, or one that no length up to there needs: so it is now.
        return blocks::sentence(subject);
    };
    let what = match index < named {
        true => format!(
            "refcount table entry {index} is 0x{entry:x}, which is no cluster of {cluster} bytes \
             inside {bytes} bytes"
        ),
        false => format!(
            "refcount table entry {index} is 0x{entry:x}; the entries before it are 0 from {named} \
             on, so that it has to be 0 or 0x{:x}, where that block is to go",
            index as u64 * span
        ),
    };
    (what, blocks::new_counts())
}

/// Would `qstore extend` take in the clusters of this file that have no counts, with
/// no byte lost? New blocks go where there are zeros, or what a run that was cut has
/// left there.
pub fn is_taken_in(subject: &Subject) -> bool {
    let (image, length) = (subject.bytes, subject.length);
    let Some(layout) = Layout::of(image) else { return false };
    let earlier = counted(image) as usize;
    let whole = image.len() as u64 == length && image.len().is_multiple_of(layout.cluster());
    if !whole || earlier == 0 || !tail::is_known(image) {
        return false;
    }
    // Of a new block only its own count is not 0.
    let count = layout.width.span(0).end - 1;
    let is_free = |index| {
        let block = &image[layout.new_block(index)];
        is_zero(&block[..count]) && block[count] <= 1 && is_zero(&block[count + 1..])
    };
    if !layout.missing_blocks(image).all(is_free) {
        return false;
    }
    let mut scratch = vec![0; earlier / 256];
    qcow2_core::check(&image[..earlier], &subject.backing.bytes, &mut scratch).is_usable()
}

/// The fewest bytes with which a file has so many more free clusters, where its counts
/// do not reach that far and `qstore extend` makes new ones, if that can be.
pub fn with_room(layout: &Layout, image: &[u8], missing: u64) -> Option<u64> {
    let is_free = |cluster: &usize| layout.count(image, *cluster) == Some(0);
    let within = (layout.clusters..layout.covered()).filter(is_free).count() as u64;
    let more = missing.checked_sub(within)?;
    // Each new block takes one of the clusters that it counts.
    let per_block = layout.per_block() as u64;
    let (full, rest) = (more / (per_block - 1), more % (per_block - 1));
    let clusters = full.checked_mul(per_block)?.checked_add(if rest > 0 { rest + 1 } else { 0 })?;
    let clusters = clusters.checked_add(layout.covered() as u64)?;
    let bytes = clusters.checked_mul(layout.cluster() as u64)?;
    (bytes <= most(layout).min(MAX_IMAGE)).then_some(bytes)
}
