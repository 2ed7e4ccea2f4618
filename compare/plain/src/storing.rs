//! Write and discard.

use answers::Outcome;

use crate::entries::{Mapping, Slot, USED};
use crate::header::Header;
use crate::list::{List, Store};

/// Writes `data` at `offset`, inside one guest cluster, cut after `allowance`
/// units.
pub fn write(
    image: &mut [u8],
    backing: &[u8],
    offset: u64,
    data: &[u8],
    allowance: u64,
) -> Outcome {
    match write_list(image, backing, (offset, data.len() as u64), data) {
        Ok(list) => list.apply(image, allowance),
        Err(number) => Outcome::Refused(number),
    }
}

/// Discards one guest cluster, cut after `allowance` units.
pub fn discard(image: &mut [u8], backing: &[u8], cluster: u64, allowance: u64) -> Outcome {
    match discard_list(image, backing, cluster) {
        Ok(list) => list.apply(image, allowance),
        Err(number) => Outcome::Refused(number),
    }
}

/// Of a write of this offset and length; the bytes are `data`, or none where the
/// list is only to be looked at.
pub(crate) fn write_list<'a>(
    image: &[u8],
    backing: &'a [u8],
    range: (u64, u64),
    data: &'a [u8],
) -> Result<List<'a>, u32> {
    let header = Header::judge(image, backing)?;
    Ok(write_stores(&header, image, range, data)?.cleared_first(&header))
}

pub(crate) fn discard_list(
    image: &[u8],
    backing: &[u8],
    cluster: u64,
) -> Result<List<'static>, u32> {
    let header = Header::judge(image, backing)?;
    Ok(discard_stores(&header, image, cluster)?.cleared_first(&header))
}

fn write_stores<'a>(
    header: &Header<'a>,
    image: &[u8],
    (offset, len): (u64, u64),
    data: &'a [u8],
) -> Result<List<'a>, u32> {
    let cluster = header.cluster();
    let start = offset as usize & (cluster - 1);
    if !header.disk.holds(offset, len) || len > (cluster - start) as u64 {
        return Err(11);
    }
    if len == 0 {
        return Ok(List::of([]));
    }
    let guest = offset >> header.cluster_bits;
    let whole = |at, under| Store::Fill { at, len: cluster, under, start, data };
    match header.own_slot(image, guest)? {
        Slot::Entry { at, mapping: Mapping { place: 0, zeros } } => {
            let free = header.next_free(image, 0).ok_or(14u32)?;
            let (count, place, entry) = header.allot(image, free);
            let under = if zeros { &[] } else { header.under_cluster(guest) };
            Ok(List::of([count, whole(place, under), Store::Entry { at, value: entry }]))
        }
        Slot::Entry { at, mapping: Mapping { place, zeros: true } } => {
            Ok(List::of([whole(place, &[]), Store::Entry { at, value: USED | place as u64 }]))
        }
        Slot::Entry { mapping: Mapping { place, .. }, .. } => {
            let (at, len) = (place + start, len as usize);
            Ok(List::of([Store::Fill { at, len, under: &[], start: 0, data }]))
        }
        Slot::NoTable { l1_at } => with_table(header, image, guest, l1_at, whole),
    }
}

/// A new L2 table and a new data cluster, which `whole` fills.
fn with_table<'a>(
    header: &Header<'a>,
    image: &[u8],
    guest: u64,
    l1_at: usize,
    whole: impl Fn(usize, &'a [u8]) -> Store<'a>,
) -> Result<List<'a>, u32> {
    let lower = header.next_free(image, 0).ok_or(14u32)?;
    let upper = header.next_free(image, lower + 1).ok_or(14u32)?;
    let (table_count, table, l1_entry) = header.allot(image, lower);
    let (count, place, l2_entry) = header.allot(image, upper);
    let l2_at = table + 8 * header.indices(guest).1;
    Ok(List::of([
        table_count,
        Store::Fill { at: table, len: header.cluster(), under: &[], start: 0, data: &[] },
        count,
        whole(place, header.under_cluster(guest)),
        Store::Entry { at: l2_at, value: l2_entry },
        Store::Entry { at: l1_at, value: l1_entry },
    ]))
}

fn discard_stores(header: &Header, image: &[u8], cluster: u64) -> Result<List<'static>, u32> {
    if cluster >= header.guest_clusters(header.disk) {
        return Err(11);
    }
    let slot = header.own_slot(image, cluster)?;
    // What is underneath must not show: there has to be room for a zero mark.
    if header.is_backed() && (header.version == 2 || matches!(slot, Slot::NoTable { .. })) {
        return Err(20);
    }
    let Slot::Entry { at, mapping } = slot else {
        return Ok(List::of([]));
    };
    let clear = Store::Entry { at, value: header.is_backed().into() };
    if mapping.place != 0 {
        let cell = header.cell(image, mapping.place >> header.cluster_bits);
        let value = cell.load(image).checked_sub(1).ok_or(16u32)?;
        return Ok(List::of([clear, Store::Count { cell, value }]));
    }
    // Without a place it may read as zeros in the right way already.
    let is_clear = mapping.zeros == header.is_backed();
    Ok(if is_clear { List::of([]) } else { List::of([clear]) })
}

impl<'b> Header<'b> {
    /// What lies underneath a guest cluster, as far as the disk goes.
    fn under_cluster(&self, guest: u64) -> &'b [u8] {
        let at = guest << self.cluster_bits;
        let under = self.under(at);
        let len = (self.disk.size - at).min(1 << self.cluster_bits);
        &under[..under.len().min(len as usize)]
    }

    /// For a new cluster: the store of its count, its place and its entry.
    fn allot(&self, image: &[u8], cluster: usize) -> (Store<'static>, usize, u64) {
        let place = cluster << self.cluster_bits;
        let count = Store::Count { cell: self.cell(image, cluster), value: 1 };
        (count, place, USED | place as u64)
    }
}
