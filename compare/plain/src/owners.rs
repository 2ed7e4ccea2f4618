//! Who reaches a cluster. Several L1 tables may share what is below them; all
//! else has one owner.

use crate::width::Figure;

/// Who reaches a cluster: one of the fixed structures, or an L1 table, by way of
/// its entries or of the L2 entries below them.
#[derive(Clone, Copy)]
pub(crate) enum Owner {
    Fixed,
    Table { disk: usize },
    Data { disk: usize },
}

/// What is noted of the owners while the references are counted.
pub(crate) trait Owners {
    /// `cluster`, which had this figure before, is reached by `owner`.
    fn note(&mut self, cluster: usize, before: u16, owner: Owner);

    /// The lowest cluster that is shared.
    fn lowest_shared(&self, figures: &[Figure]) -> Option<usize>;
}

/// Nothing is noted.
pub(crate) struct Unknown;

impl Owners for Unknown {
    fn note(&mut self, _: usize, _: u16, _: Owner) {}

    fn lowest_shared(&self, _: &[Figure]) -> Option<usize> {
        None
    }
}

/// With one L1 table no cluster may have two references.
#[derive(Default)]
pub(crate) struct OneDisk {
    seen: u16,
}

impl Owners for OneDisk {
    #[inline]
    fn note(&mut self, _: usize, before: u16, _: Owner) {
        self.seen |= before;
    }

    fn lowest_shared(&self, figures: &[Figure]) -> Option<usize> {
        let many = |figure: &Figure| u16::from_be_bytes(*figure) > 1;
        if self.seen == 0 {
            return None;
        }
        figures.iter().position(many)
    }
}

/// With several, the last owner of each cluster tells: a cluster that it reached
/// from another L1 table, and in the same role, is not shared yet. The disks come
/// one after the other.
pub(crate) struct ManyDisks {
    last: Vec<u8>,
}

const NOBODY: u8 = 0;
const FIXED: u8 = 254;
const SHARED: u8 = 255;

/// Even for tables, odd for data.
fn code(owner: Owner) -> u8 {
    match owner {
        Owner::Fixed => FIXED,
        Owner::Table { disk } => 2 * disk as u8 + 2,
        Owner::Data { disk } => 2 * disk as u8 + 3,
    }
}

impl ManyDisks {
    pub fn of(clusters: usize) -> ManyDisks {
        ManyDisks { last: vec![NOBODY; clusters] }
    }
}

impl Owners for ManyDisks {
    #[inline]
    fn note(&mut self, cluster: usize, _: u16, owner: Owner) {
        let (last, now) = (&mut self.last[cluster], code(owner));
        let same_role = (*last ^ now) & 1 == 0;
        let fixed = *last >= FIXED || now == FIXED;
        let allowed = *last == NOBODY || !fixed && same_role && *last != now;
        *last = if allowed { now } else { SHARED };
    }

    fn lowest_shared(&self, _: &[Figure]) -> Option<usize> {
        self.last.iter().position(|&last| last == SHARED)
    }
}
