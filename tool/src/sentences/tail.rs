//! What the header and the tables name at the end of a file. The image may be
//! refused, so nothing that it says is relied on.

use crate::extensions;
use crate::fields::{be64, Fields, COMPRESSED, MAX_L1, PLACE};
use crate::snapshots::Table;

pub const CUT_SHORT: &str = "its tables name clusters past its end, so it seems to be cut short";

/// What is safe with a file that is cut short.
pub const REST: &str = "It seems to be cut short: look for a whole copy first. What was cut off \
                        reads as zeros, also in the new image.";

/// The same beside the advice on a new image, which says it where the entries of
/// the disk's tables are concerned.
pub fn rest(bytes: &[u8], end: u64) -> &'static str {
    match disk_refers_past(bytes, end) {
        Some(true) => "",
        _ => REST,
    }
}

/// Bits of incompatible_features with which the entries are as usual.
const USUAL: u64 = 0b1011;

/// Does a table, or an entry of the tables, name a byte at or past `end`? None
/// where the entries are of another kind.
pub fn refers_past(bytes: &[u8], end: u64) -> Option<bool> {
    let (fields, cluster) = usual(bytes)?;
    let counts = counts_refer_past(bytes, end, &fields, cluster);
    let mut below = Below::of(bytes, end, &fields, cluster);
    let disk = below.refers_past(fields.l1_at, fields.l1_size);
    Some(counts || disk || snapshots_refer_past(&mut below, &fields))
}

/// The same for the L1 table and its entries alone, which the disk is read by.
pub fn disk_refers_past(bytes: &[u8], end: u64) -> Option<bool> {
    let (fields, cluster) = usual(bytes)?;
    Some(Below::of(bytes, end, &fields, cluster).refers_past(fields.l1_at, fields.l1_size))
}

/// The fields and the cluster size, if the entries are of the usual kind.
fn usual(bytes: &[u8]) -> Option<(Fields, u64)> {
    let known = |fields: &Fields| fields.incompatible & !USUAL == 0;
    let fields = Fields::read(bytes).filter(known)?;
    Some((fields, fields.cluster()?))
}

fn past(at: u64, length: u64, end: u64) -> bool {
    at.checked_add(length).is_none_or(|stop| stop > end)
}

fn names_past(entry: u64, cluster: u64, end: u64) -> bool {
    entry & PLACE != 0 && past(entry & PLACE, cluster, end)
}

fn counts_refer_past(bytes: &[u8], end: u64, fields: &Fields, cluster: u64) -> bool {
    let length = cluster * u64::from(fields.table_clusters);
    let mut blocks = entries(bytes, fields.table_at, length / 8);
    past(fields.table_at, length, end) || blocks.any(|entry| names_past(entry, cluster, end))
}

/// The snapshot table, and what is below the snapshots' L1 tables.
fn snapshots_refer_past(below: &mut Below, fields: &Fields) -> bool {
    if fields.snapshots == 0 {
        return false;
    }
    let table = Table::of(below.bytes, fields);
    let mut snapshots = table.snapshots.iter();
    !table.whole
        || table.end > below.end
        || snapshots.any(|snapshot| below.refers_past(snapshot.l1_at, snapshot.l1_size))
}

/// L1 tables, and what is below them.
struct Below<'a> {
    bytes: &'a [u8],
    end: u64,
    cluster_bits: u32,
    cluster: u64,
    /// L2 tables that were looked at: once is enough where several entries name one.
    seen: Vec<bool>,
}

impl Below<'_> {
    fn of<'a>(bytes: &'a [u8], end: u64, fields: &Fields, cluster: u64) -> Below<'a> {
        let cluster_bits = fields.cluster_bits;
        Below { bytes, end, cluster_bits, cluster, seen: vec![false; bytes.len() >> cluster_bits] }
    }

    /// Does this L1 table, or an entry of it or below it?
    fn refers_past(&mut self, l1_at: u64, l1_size: u32) -> bool {
        if past(l1_at, 8 * u64::from(l1_size), self.end) {
            return true;
        }
        let l1_size = u64::from(l1_size).min(MAX_L1);
        let mut tables = entries(self.bytes, l1_at, l1_size).map(|entry| entry & PLACE);
        tables.any(|table| table != 0 && self.table_refers_past(table))
    }

    fn table_refers_past(&mut self, table: u64) -> bool {
        let Below { bytes, end, cluster_bits, cluster, .. } = *self;
        if past(table, cluster, end) {
            return true;
        }
        let seen = self.seen.get_mut((table >> cluster_bits) as usize);
        if seen.is_none_or(|seen| std::mem::replace(seen, true)) {
            return false;
        }
        entries(bytes, table, cluster / 8).any(|entry| match entry & COMPRESSED {
            0 => names_past(entry, cluster, end),
            _ => compressed_end(entry, cluster_bits).next_multiple_of(cluster) > end,
        })
    }
}

/// The entries of a table, as far as the bytes have them.
fn entries(bytes: &[u8], at: u64, number: u64) -> impl Iterator<Item = u64> + '_ {
    (0..number)
        .map_while(move |index| be64(bytes, usize::try_from(at.checked_add(8 * index)?).ok()?))
}

/// Where the sectors of a compressed cluster end.
fn compressed_end(entry: u64, cluster_bits: u32) -> u64 {
    let shift = 62 - (cluster_bits - 8);
    let place = entry & ((1 << shift) - 1);
    let more = entry >> shift & ((1 << (cluster_bits - 8)) - 1);
    place / 512 * 512 + 512 * (more + 1)
}

/// Is there nothing in the image beside its tables that may refer to clusters: no
/// feature that is not known?
pub fn is_known(bytes: &[u8]) -> bool {
    let Some(fields) = Fields::read(bytes) else { return false };
    // A header_length that was set back hides extensions, if it leaves none in sight.
    let longer = Fields { header_length: 112, ..fields };
    let hidden = extensions::are_none(bytes, &fields);
    fields.incompatible == 0
        && fields.autoclear == 0
        && extensions::are_names_alone(bytes, &fields)
        && (!hidden || extensions::are_names_alone(bytes, &longer))
}

/// Can what lies from `end` on be cut off without loss? It is zeros, and neither
/// the tables nor a feature that is not known may refer to it.
pub fn is_unused(bytes: &[u8], end: u64) -> bool {
    let Some(rest) = usize::try_from(end).ok().and_then(|end| bytes.get(end..)) else {
        return false;
    };
    is_known(bytes)
        && Fields::read(bytes).is_some_and(|fields| fields.snapshots == 0)
        && rest.iter().all(|&byte| byte == 0)
        && refers_past(bytes, end) == Some(false)
}
