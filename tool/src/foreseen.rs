//! Whether calls will all be made, told from the image as it is: nothing is made for it.
//!
//! Each call's steps are listed. A call that is not refused now can be refused after
//! the others only for want of room: no other call takes a table or a place away, or
//! lets a snapshot hold more. So room for all that they could need is enough.

use std::collections::HashSet;
use std::ops::Range;

use qcow2_core::Step;

use crate::call::Call;
use crate::extents::advise;
use crate::layout::Layout;
use crate::steps::units;

/// Steps of a write beside the clearing one: with a new cluster, and with a table too.
const NEW: usize = 3;
const WITH_TABLE: usize = 6;

/// The units of calls of which each has a guest cluster of its own, if none will be
/// refused for sure. None says nothing.
pub fn foreseen<'a>(
    image: &[u8],
    backing: &[u8],
    calls: impl Iterator<Item = Call<'a>>,
) -> Option<u64> {
    let layout = Layout::of(image)?;
    let mut needs = Needs::default();
    for call in calls {
        needs.add(&layout, &call, &call.steps(image, backing).ok()?);
    }
    let wanted = needs.clusters + needs.tables.len();
    // The lowest free clusters are taken.
    let taken = lowest_free(&layout, image, wanted)?;
    taken.into_iter().for_each(|range| advise(&image[range]));
    Some(needs.units)
}

#[derive(Default)]
struct Needs {
    units: u64,
    /// Clusters for data, and the L1 entries that are to name new tables.
    clusters: usize,
    tables: HashSet<u64>,
    clears: bool,
}

impl Needs {
    fn add(&mut self, layout: &Layout, call: &Call, steps: &[Step]) {
        self.units += units(steps);
        let clearing = steps.iter().filter(|step| step.epoch == 0).count();
        if clearing > 0 && std::mem::replace(&mut self.clears, true) {
            self.units -= 1;
        }
        let Call::Write { offset, .. } = *call else { return };
        let listed = steps.len() - clearing;
        self.clusters += usize::from(listed >= NEW);
        let l1_index = (offset >> layout.bits) / layout.per_table();
        if listed >= WITH_TABLE && !self.tables.insert(l1_index) {
            // The table is there then: its count, its bytes and the L1 entry are not stored.
            self.units -= layout.cluster() as u64 + 2;
        }
    }
}

/// A gap that does not end a range: a refcount block among free clusters.
const GAP: usize = 128 << 10;

/// The first so many clusters with stored count 0, as ranges of bytes in which almost
/// all are free; None if there are fewer.
fn lowest_free(layout: &Layout, image: &[u8], wanted: usize) -> Option<Vec<Range<usize>>> {
    let mut ranges: Vec<Range<usize>> = Vec::new();
    let free = (0..layout.clusters).filter(|&it| layout.count(image, it) == Some(0));
    let mut found = 0;
    for cluster in free.take(wanted) {
        let at = cluster << layout.bits;
        let end = at + layout.cluster();
        match ranges.last_mut() {
            Some(range) if at - range.end <= GAP => range.end = end,
            _ => ranges.push(at..end),
        }
        found += 1;
    }
    (found == wanted).then_some(ranges)
}
