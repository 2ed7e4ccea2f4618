//! Translate, read, of the disk or of a snapshot, lookup and runs.

use std::ops::Range;

use answers::{Found, Run};

use crate::entries::{Mapping, Rules, Slot};
use crate::header::{be64, lay, Disk, Header};

/// What stands behind `offset`.
pub fn translate(image: &[u8], backing: &[u8], offset: u64) -> Found {
    Header::judge(image, backing)
        .and_then(|header| find(&header, image, offset))
        .unwrap_or_else(Found::Refused)
}

fn find(header: &Header, image: &[u8], offset: u64) -> Result<Found, u32> {
    if offset >= header.disk.size {
        return Err(11);
    }
    let inside = offset & (header.cluster() as u64 - 1);
    Ok(match header.slot(image, header.disk, offset >> header.cluster_bits)? {
        Slot::Entry { mapping, .. } => gives(Ok(mapping), inside),
        Slot::NoTable { .. } => Found::Absent,
    })
}

/// The guest bytes from `offset` to the end of its cluster or of the disk, as
/// a part of the image; empty where translation gives no host offset.
pub fn lookup<'a>(image: &'a [u8], backing: &[u8], offset: u64) -> &'a [u8] {
    let Ok(header) = Header::judge(image, backing) else {
        return &[];
    };
    let Ok(Found::Host(host)) = find(&header, image, offset) else {
        return &[];
    };
    let host = host as usize;
    let to_cluster_end = header.cluster() - (host & (header.cluster() - 1));
    let len = (header.disk.size - offset).min(to_cluster_end as u64) as usize;
    &image[host..host + len]
}

/// Fills `out` with the guest bytes from `offset` on, or refuses and leaves it.
pub fn read(image: &[u8], backing: &[u8], offset: u64, out: &mut [u8]) -> Result<(), u32> {
    let header = Header::judge(image, backing)?;
    read_disk(&header, image, header.disk, offset, out)
}

/// The same of the disk that a snapshot has kept, as far as its L1 table reaches.
pub fn read_snapshot(
    image: &[u8],
    backing: &[u8],
    snapshot: u64,
    offset: u64,
    out: &mut [u8],
) -> Result<(), u32> {
    let header = Header::judge(image, backing)?;
    let disk = *header.snapshots.disks.get(snapshot as usize).ok_or(11u32)?;
    read_disk(&header, image, disk, offset, out)
}

fn read_disk(
    header: &Header,
    image: &[u8],
    disk: Disk,
    offset: u64,
    out: &mut [u8],
) -> Result<(), u32> {
    if !disk.holds(offset, out.len() as u64) {
        return Err(11);
    }
    visit(header, image, disk, offset..offset + out.len() as u64, |_, _| ())?;
    visit(header, image, disk, offset..offset + out.len() as u64, |source, part| match source {
        Source::Image(host) => {
            let bytes = &image[host..host + part.len()];
            out[part].copy_from_slice(bytes);
        }
        Source::Zeros => out[part].fill(0),
        Source::Under => {
            let bytes = header.under(offset + part.start as u64);
            lay(&mut out[part], bytes);
        }
    })
}

/// Where guest bytes come from.
enum Source {
    /// From this place of the image on.
    Image(usize),
    Zeros,
    /// From what lies underneath.
    Under,
}

impl Source {
    #[inline]
    fn of(mapping: Mapping, inside: usize) -> Source {
        match mapping {
            Mapping { zeros: true, .. } => Source::Zeros,
            Mapping { place: 0, .. } => Source::Under,
            Mapping { place, .. } => Source::Image(place + inside),
        }
    }
}

/// Visits a guest range in rising order, each L1 entry and each L2 entry once:
/// `part(source, range)` is told where each part of the range comes from.
fn visit(
    header: &Header,
    image: &[u8],
    disk: Disk,
    range: Range<u64>,
    mut part: impl FnMut(Source, Range<usize>),
) -> Result<(), u32> {
    let rules = Rules::of(header);
    let cluster = header.cluster();
    let reach = (cluster as u64 / 8) << header.cluster_bits;
    let len = (range.end - range.start) as usize;
    let mut done = 0;
    while done < len {
        let at = range.start + done as u64;
        let (l1_index, l2_index) = header.indices(at >> header.cluster_bits);
        let to_table_end = reach - (at & (reach - 1));
        let stop = done + to_table_end.min((len - done) as u64) as usize;
        let table = rules.l1(be64(image, disk.l1_at + 8 * l1_index)).ok_or(12u32)?;
        if table == 0 {
            part(Source::Under, done..stop);
            done = stop;
            continue;
        }
        let mut inside = at as usize & (cluster - 1);
        for entry in image[table..table + cluster].as_chunks().0[l2_index..].iter() {
            let mapping = rules.mapping(u64::from_be_bytes(*entry))?;
            let end = stop.min(done + cluster - inside);
            part(Source::of(mapping, inside), done..end);
            (done, inside) = (end, 0);
            if done == stop {
                break;
            }
        }
    }
    Ok(())
}

/// Fills `rows` with the runs of a guest range, three numbers each, as far as
/// they have room; how many.
pub fn runs(
    image: &[u8],
    backing: &[u8],
    offset: u64,
    len: u64,
    rows: &mut [u64],
) -> Result<usize, u32> {
    let header = Header::judge(image, backing)?;
    if !header.disk.holds(offset, len) {
        return Err(11);
    }
    let (mut at, mut left) = (offset, len);
    let rows = rows.as_chunks_mut::<3>().0;
    for (count, row) in rows.iter_mut().enumerate() {
        if left == 0 {
            return Ok(count);
        }
        let run = run(&header, image, at, left);
        *row = run.row();
        (at, left) = (at + run.length, left - run.length);
    }
    Ok(rows.len())
}

/// The run from `offset` on, of `len` bytes at most and not 0. Goes on table by
/// table, and in a table entry by entry.
fn run(header: &Header, image: &[u8], offset: u64, len: u64) -> Run {
    let rules = Rules::of(header);
    let cluster = 1u64 << header.cluster_bits;
    let reach = (cluster / 8) << header.cluster_bits;
    let mut run: Option<Run> = None;
    while run.is_none_or(|run| run.length < len) {
        let at = offset + run.map_or(0, |run| run.length);
        let (l1_index, l2_index) = header.indices(at >> header.cluster_bits);
        let table = match rules.l1(be64(image, header.disk.l1_at + 8 * l1_index)) {
            Some(table) if table != 0 => &image[table..table + header.cluster()],
            none => {
                let found = if none.is_some() { Found::Absent } else { Found::Refused(12) };
                if joins(&mut run, found, reach - at % reach) {
                    continue;
                }
                break;
            }
        };
        let mut inside = at % cluster;
        let mut going = true;
        for entry in table.as_chunks().0[l2_index..].iter() {
            let found = gives(rules.mapping(u64::from_be_bytes(*entry)), inside);
            going = joins(&mut run, found, cluster - inside);
            if !going || run.is_some_and(|run| run.length >= len) {
                break;
            }
            inside = 0;
        }
        if !going {
            break;
        }
    }
    let run = run.expect("a range of some bytes");
    Run { length: run.length.min(len), ..run }
}

/// What an L2 entry gives for a byte inside its cluster.
fn gives(mapping: Result<Mapping, u32>, inside: u64) -> Found {
    match mapping {
        Err(number) => Found::Refused(number),
        Ok(mapping) if mapping.zeros => Found::Zeros,
        Ok(mapping) if mapping.place == 0 => Found::Absent,
        Ok(mapping) => Found::Host(mapping.place as u64 + inside),
    }
}

/// Lengthens the run if what comes next goes on alike.
fn joins(run: &mut Option<Run>, found: Found, length: u64) -> bool {
    match run {
        None => *run = Some(Run { found, length }),
        Some(run) if found == run.found.moved(run.length) => run.length += length,
        Some(_) => return false,
    }
    true
}
