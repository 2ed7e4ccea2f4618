//! The clusters that calls have changed in memory, so that they can be loaded
//! again.

use std::ops::Range;

use qcow2_core::{Geometry, Step};

pub struct Touched {
    bits: u32,
    marked: Vec<bool>,
}

impl Touched {
    pub fn none(geometry: &Geometry) -> Touched {
        Touched { bits: geometry.cluster_bits, marked: vec![false; geometry.clusters] }
    }

    /// Adds the clusters in which the step's bytes lie.
    pub fn add(&mut self, step: &Step) {
        let range = step.range();
        let clusters = range.start >> self.bits..range.end.div_ceil(1 << self.bits);
        self.marked[clusters].fill(true);
    }

    /// Clusters side by side as one range each, rising.
    pub fn runs(&self) -> impl Iterator<Item = Range<usize>> + '_ {
        let mut first = 0;
        self.marked.chunk_by(|one, next| one == next).filter_map(move |run| {
            let range = first << self.bits..(first + run.len()) << self.bits;
            first += run.len();
            run[0].then_some(range)
        })
    }
}

#[cfg(test)]
mod tests {
    use super::*;

    #[test]
    fn clusters_side_by_side() {
        let mut touched = Touched { bits: 9, marked: vec![false; 16] };
        assert_eq!(touched.runs().count(), 0);
        let bytes = [88..96, 1536..1544, 2048..2560, 7680..8192, 2050..2052];
        for Range { start, end } in bytes {
            touched.add(&Step { at: start, len: end - start, units: 1, epoch: 1 });
        }
        let runs: Vec<_> = touched.runs().collect();
        assert_eq!(runs, [0..512, 1536..2560, 7680..8192]);
    }
}
