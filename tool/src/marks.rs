//! Bit 63 of the active entries: it is right where it is set exactly if what the
//! entry names has one reference.

use crate::fields::USED;
use crate::json::Json;
use crate::layout::Layout;
use crate::runs::figure;
use crate::walk::{self, Met, Seen};

/// An active entry whose mark is wrong.
#[derive(Debug, PartialEq)]
pub struct WrongMark {
    pub l1_index: u64,
    /// None for an L1 entry.
    pub l2_index: Option<u64>,
    entry: u64,
    cluster: usize,
    references: u16,
}

/// All of them, by the figures that a check left. For an image without bad
/// entries: what these name is not counted.
pub fn wrong(layout: &Layout, image: &[u8], scratch: &[u8]) -> Vec<WrongMark> {
    let (mut seen, mut wrong) = (Seen::none(layout), Vec::new());
    walk::entries(
        layout,
        image,
        |cluster| seen.is_first(cluster),
        |met| wrong.extend(WrongMark::of(layout, image, scratch, met)),
    );
    wrong
}

impl WrongMark {
    fn of(layout: &Layout, image: &[u8], scratch: &[u8], met: Met) -> Option<WrongMark> {
        let Met { l1_index, l2_index, entry, .. } = met;
        let cluster = met.cluster(layout, image)?;
        let references = figure(scratch, cluster);
        let right = (entry & USED != 0) == (references == 1);
        (!right).then_some(WrongMark { l1_index, l2_index, entry, cluster, references })
    }

    /// What is wrong with it.
    pub fn about(&self) -> String {
        let WrongMark { cluster, references, .. } = self;
        match self.entry & USED {
            0 => format!("bit 63 is clear, but cluster {cluster} has no other reference"),
            _ => format!("bit 63 is set, but cluster {cluster} has {references} references"),
        }
    }

    pub fn line(&self) -> String {
        let place = match self.l2_index {
            None => format!("L1 entry {}", self.l1_index),
            Some(l2_index) => format!("L2 entry {l2_index} below L1 entry {}", self.l1_index),
        };
        format!("    {place}: {}\n", self.about())
    }

    pub fn members(&self) -> Vec<(&'static str, Json)> {
        let mut members = vec![("l1_index", self.l1_index.into())];
        members.extend(self.l2_index.map(|index| ("l2_index", index.into())));
        members.extend([
            ("entry", format!("0x{:016x}", self.entry).into()),
            ("cluster", self.cluster.into()),
            ("references", u32::from(self.references).into()),
            ("reason", self.about().into()),
        ]);
        members
    }
}
