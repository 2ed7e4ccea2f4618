//! Where qemu refuses an image too, or cannot read it as it is: no command of
//! qemu helps there.

use super::features::INCOMPATIBLE_BITS;
use super::header::LOOK_FOR_ANOTHER;
use super::Subject;
use crate::fields::{Fields, HEADER_LENGTH, NAME};
use crate::snapshots::{Table, MOST};

/// Why qemu makes no copy, told by the header.
pub fn refuses(subject: &Subject, fields: &Fields) -> Option<String> {
    if matches!(fields.crypt, 1 | 2) {
        let text = "Only qemu with the key can read it. A copy that it makes is accepted if it is \
                    not encrypted; keep the old image beside it.";
        return Some(text.into());
    }
    if fields.incompatible >> INCOMPATIBLE_BITS.len() != 0 {
        let text = "Only a program that knows all bits of incompatible_features can read the \
                    image. Leave it as it is.";
        return Some(text.into());
    }
    let part = if fields.crypt > 2 {
        "such a crypt_method"
    } else if fields.cluster().is_none() {
        "such cluster_bits"
    } else if fields.width().is_none() {
        "such a refcount_order"
    } else if fields.header_length < HEADER_LENGTH {
        "such a header_length"
    } else if !compression_fits(subject.bytes, fields) {
        "such a compression type"
    } else if !name_fits(fields) {
        "such a name of a backing file"
    } else if !tables_fit(fields) {
        "such tables"
    } else if !snapshots_fit(subject.bytes, fields) {
        "such a snapshot table"
    } else {
        return None;
    };
    Some(format!(
        "No qcow2 image has {part}, and qemu refuses it too: the header is damaged. \
         {LOOK_FOR_ANOTHER}"
    ))
}

/// Does the name of the backing file lie inside the first cluster, and is it not too
/// long?
fn name_fits(fields: &Fields) -> bool {
    let Some(room) = fields.cluster().and_then(|cluster| cluster.checked_sub(fields.backing))
    else {
        return false;
    };
    fields.backing == 0 || u64::from(fields.backing_length) <= room.min((*NAME.end()).into())
}

/// Do the tables stand at clusters, and does the L1 table reach the disk's end?
fn tables_fit(fields: &Fields) -> bool {
    let Some(cluster) = fields.cluster() else { return false };
    let entry = if fields.incompatible >> 4 & 1 == 1 { 16 } else { 8 };
    let reach = u128::from(fields.l1_size) * u128::from(cluster / entry * cluster);
    let stand = fields.l1_at.is_multiple_of(cluster) && fields.table_at.is_multiple_of(cluster);
    stand && fields.table_clusters != 0 && reach >= fields.size.into()
}

/// Does the snapshot table stand at a cluster, and are neither its entries nor
/// their extra data too many to qemu?
fn snapshots_fit(bytes: &[u8], fields: &Fields) -> bool {
    const MOST_EXTRA: u32 = 1024;
    let Some(cluster) = fields.cluster() else { return false };
    if fields.snapshots == 0 {
        return true;
    }
    let stands = fields.snapshots_at.is_multiple_of(cluster);
    stands && fields.snapshots <= MOST && Table::of(bytes, fields).extra <= MOST_EXTRA
}

/// The bit is set where the type is another than 0, and qemu knows 0 and 1. A
/// header of 104 bytes has no such field, which stands for 0.
fn compression_fits(bytes: &[u8], fields: &Fields) -> bool {
    let kind = match fields.header_length {
        HEADER_LENGTH => 0,
        _ => bytes.get(104).copied().unwrap_or(0),
    };
    kind == fields.incompatible as u8 >> 3 & 1
}
