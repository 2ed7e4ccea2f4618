//! Check and repair: references counted into the scratch, then compared with
//! the stored counts.

use answers::{Outcome, Verdict};

use crate::compare::{compare, store_references};
use crate::header::Header;
use crate::list::List;
use crate::marks::wrong_mark;
use crate::owners::{ManyDisks, OneDisk, Owners};
use crate::references::Count;
use crate::width::Figure;

/// Counts the references into `scratch` and judges the stored counts by them.
pub fn check(image: &[u8], backing: &[u8], scratch: &mut [u8]) -> Verdict {
    match examine(image, backing, scratch) {
        Ok((_, verdict)) => verdict,
        Err(number) => Verdict::Refused(number),
    }
}

/// Sets the counts of a leaking image to its references, cut after `allowance`
/// units; `scratch` ends as the check leaves it.
pub fn repair(image: &mut [u8], backing: &[u8], scratch: &mut [u8], allowance: u64) -> Outcome {
    let (header, leaks) = match examine(image, backing, scratch) {
        Err(number) => return Outcome::Refused(number),
        Ok((_, Verdict::Sound)) => return Outcome::Finished(0),
        Ok((header, Verdict::Leaks(leaks))) => (header, leaks),
        Ok(_) => return Outcome::Refused(17),
    };
    let clearing = List::clearing(&header);
    clearing.apply(image, allowance);
    let left = allowance.saturating_sub(clearing.units());
    store_references(&header, image, scratch, left.min(leaks));
    let units = clearing.units() + leaks;
    if units <= allowance {
        Outcome::Finished(units)
    } else {
        Outcome::Stopped(allowance)
    }
}

/// A cluster's stored count less the scratch's figure, with its sign.
pub fn difference(stored: u64, figure: u16) -> i32 {
    (i128::from(stored) - i128::from(figure)).min(65_535) as i32
}

pub(crate) fn examine<'b>(
    image: &[u8],
    backing: &'b [u8],
    scratch: &mut [u8],
) -> Result<(Header<'b>, Verdict), u32> {
    let header = Header::judge(image, backing)?;
    let figures = scratch.get_mut(..2 * header.clusters).ok_or(15u32)?;
    figures.fill(0);
    let figures = figures.as_chunks_mut().0;
    let verdict = match header.snapshots.disks.is_empty() {
        true => judge(&header, image, figures, OneDisk::default()),
        false => judge(&header, image, figures, ManyDisks::of(header.clusters)),
    };
    Ok((header, verdict))
}

fn judge(header: &Header, image: &[u8], figures: &mut [Figure], owners: impl Owners) -> Verdict {
    let mut count = Count::new(header, image, figures, owners);
    count.all();
    let Count { owners, bad, unmarked, .. } = count;
    if let Some(verdict) = bad {
        return verdict;
    }
    if let Some(cluster) = owners.lowest_shared(figures) {
        return Verdict::Shared(cluster as u64);
    }
    let verdict = compare(header, image, figures);
    // Without snapshots each figure is 1 here, and a bit that is clear is wrong.
    let marks_may_be_wrong = unmarked || !header.snapshots.disks.is_empty();
    match verdict {
        Verdict::Short(_) => verdict,
        _ if marks_may_be_wrong => wrong_mark(header, image, figures).unwrap_or(verdict),
        _ => verdict,
    }
}
