//! Whole guest clusters given back.

use std::ops::Range;

use qcow2_core::Found;

use super::change::{self, refused};
use crate::autoclear;
use crate::call::Call;
use crate::disk::Disk;
use crate::guest::Runs;
use crate::image_file::ImageFile;
use crate::ordered::Ordered;
use crate::report::{self, Failure, Report, DONE, FAILED};
use crate::sentences::Request;

pub fn run<D: Disk>(
    image: ImageFile<D>,
    offset: u64,
    length: u64,
    allowance: u64,
) -> Result<Report, Failure> {
    let (path, mut ordered) = change::open_usable(image)?;
    let (geometry, bits) = (ordered.geometry, autoclear::bits(ordered.image()));
    let range = Request::Read { offset, length };
    let inside = offset.checked_add(length).is_some_and(|end| end <= geometry.size);
    if !inside {
        return Err(refused(&path, &ordered, 11, range));
    }
    are_whole(geometry.cluster_bits, geometry.size, offset, length)
        .map_err(|message| Failure::Other(format!("not changed: {message}")))?;
    let parts = parts(&ordered, offset, length)
        .map_err(|number| refused(&path, &ordered, number, range))?;
    let calls = parts.into_iter().flatten().map(|cluster| Call::Discard { cluster });
    let total =
        change::trial(&mut ordered, allowance, calls.clone())?.map_err(|(index, number)| {
            let Some(Call::Discard { cluster }) = calls.clone().nth(index) else {
                return Failure::Other(format!("refused ({number})"));
            };
            refused(&path, &ordered, number, Request::Discard { cluster })
        })?;
    let (units, finished) = change::run(&mut ordered, "discard", total, allowance, calls)?;
    let text = if finished {
        format!("discarded {length} bytes at {offset}: {}\n", report::units(units))
    } else {
        format!("stopped after {units} of {}\n", report::units(total))
    };
    let json = vec![
        ("offset", offset.into()),
        ("length", length.into()),
        ("units", units.into()),
        ("finished", finished.into()),
    ];
    let report = Report { text, json, exit: if finished { DONE } else { FAILED } };
    Ok(change::noting(report, bits, ordered.image()))
}

/// Is a range inside the disk one of whole guest clusters, or why not?
fn are_whole(bits: u32, size: u64, offset: u64, length: u64) -> Result<(), String> {
    let cluster = 1u64 << bits;
    let end = offset + length;
    let first = offset.div_ceil(cluster);
    let last = if end == size { size.div_ceil(cluster) } else { end / cluster };
    if offset.is_multiple_of(cluster) && (end == size || end.is_multiple_of(cluster)) {
        return Ok(());
    }
    let whole = if first < last {
        let to = (last * cluster).min(size);
        format!(
            "the whole clusters of this range are {} bytes at {}",
            to - first * cluster,
            first * cluster
        )
    } else {
        "this range holds no whole cluster; to make single bytes zero, write zeros".into()
    };
    Err(format!("a discard takes whole guest clusters of {cluster} bytes.\n  {whole}."))
}

/// The guest clusters of a range that have to be asked for. Where nothing is
/// allocated and nothing lies underneath, one below each L2 table is enough: all
/// others there get the same answer, which is that nothing is to be stored, or that
/// a snapshot holds the table. Over a backing file each of them is to be marked.
fn parts<D: Disk>(ordered: &Ordered<D>, offset: u64, length: u64) -> Result<Vec<Range<u64>>, u32> {
    let (bits, backing) = (ordered.geometry.cluster_bits, &ordered.backing().bytes);
    let mut parts = Vec::new();
    for (at, run) in Runs::of(ordered.image(), backing, offset, length)? {
        let clusters = at >> bits..(at + run.length).div_ceil(1 << bits);
        match run.found {
            Found::Absent if backing.is_empty() => parts.extend(firsts(clusters, 1 << (bits - 3))),
            _ => parts.push(clusters),
        }
    }
    Ok(parts)
}

/// The first of these clusters and those that an L2 table begins with.
fn firsts(clusters: Range<u64>, per_table: u64) -> impl Iterator<Item = Range<u64>> {
    let next = move |at: &u64| Some((at / per_table + 1) * per_table);
    let starts = std::iter::successors(Some(clusters.start), next);
    starts.take_while(move |at| *at < clusters.end).map(|at| at..at + 1)
}

#[cfg(test)]
mod tests {
    use super::*;

    #[test]
    fn ranges() {
        let whole = |offset, length| are_whole(9, 10_752 - 100, offset, length);
        assert_eq!(whole(0, 0), Ok(()));
        assert_eq!(whole(512, 1024), Ok(()));
        assert_eq!(whole(10_240, 412), Ok(()));
        assert_eq!(whole(0, 10_652), Ok(()));
        let fault = |offset, length| whole(offset, length).unwrap_err();
        assert!(fault(700, 1000).contains("512 bytes at 1024."));
        assert!(fault(700, 10_652 - 700).contains("9628 bytes at 1024."));
        assert!(fault(0, 100).contains("no whole cluster"));
        assert!(fault(10_241, 411).contains("no whole cluster"));
    }

    #[test]
    fn one_of_each_table() {
        let firsts = |clusters| -> Vec<u64> { firsts(clusters, 64).flatten().collect() };
        assert_eq!(firsts(0..1), [0]);
        assert_eq!(firsts(5..64), [5]);
        assert_eq!(firsts(5..65), [5, 64]);
        assert_eq!(firsts(64..200), [64, 128, 192]);
        assert_eq!(firsts(7..7), []);
    }
}
