//! What a call is going to change, and what the header says.

use answers::{Geometry, Step, Verdict, STEP};

use crate::check::examine;
use crate::header::{self, Header};
use crate::list::{List, Store};
use crate::storing::{discard_list, write_list};

/// Cluster size, disk size and number of clusters.
pub fn geometry(image: &[u8], backing: &[u8]) -> Result<Geometry, u32> {
    let Header { cluster_bits, disk, clusters, .. } = Header::judge(image, backing)?;
    Ok(Geometry { cluster_bits, size: disk.size, clusters })
}

/// The name of the backing file; empty where there is none.
pub fn backing_name(image: &[u8]) -> Result<&[u8], u32> {
    // Any bytes will do: the name alone is judged.
    let header = Header::judge(image, &[0])?;
    let name = header::backing_name(image, header.cluster_bits)?;
    Ok(name.map_or(&[], |name| &image[name]))
}

/// The steps of a write of `len` bytes, as many as `rows` have room for.
pub fn write_steps(
    image: &[u8],
    backing: &[u8],
    offset: u64,
    len: u64,
    rows: &mut [u64],
) -> Result<usize, u32> {
    Ok(put(write_list(image, backing, (offset, len), &[])?.steps(), rows))
}

/// The same for a discard.
pub fn discard_steps(
    image: &[u8],
    backing: &[u8],
    cluster: u64,
    rows: &mut [u64],
) -> Result<usize, u32> {
    Ok(put(discard_list(image, backing, cluster)?.steps(), rows))
}

/// The same for a repair; `scratch` ends as the repair leaves it.
pub fn repair_steps(
    image: &[u8],
    backing: &[u8],
    scratch: &mut [u8],
    rows: &mut [u64],
) -> Result<usize, u32> {
    let (clearing, counts) = repair_list(image, backing, scratch)?;
    Ok(put(clearing.steps().chain(counts.iter().map(|count| count.step(1))), rows))
}

/// The clearing unit, where there is one, and each count that is set.
pub(crate) fn repair_list(
    image: &[u8],
    backing: &[u8],
    scratch: &mut [u8],
) -> Result<(List<'static>, Vec<Store<'static>>), u32> {
    let header = match examine(image, backing, scratch)? {
        (_, Verdict::Sound) => return Ok((List::of([]), Vec::new())),
        (header, Verdict::Leaks(_)) => header,
        _ => return Err(17),
    };
    let counts = (0..header.clusters).filter_map(|cluster| {
        let value = u16::from_be_bytes([scratch[2 * cluster], scratch[2 * cluster + 1]]).into();
        let cell = header.cell(image, cluster);
        (cell.load(image) != value).then_some(Store::Count { cell, value })
    });
    Ok((List::clearing(&header), counts.collect()))
}

/// How many there was room for.
fn put(steps: impl Iterator<Item = Step>, rows: &mut [u64]) -> usize {
    let mut count = 0;
    for (row, step) in rows.as_chunks_mut::<STEP>().0.iter_mut().zip(steps) {
        *row = step.row();
        count += 1;
    }
    count
}
