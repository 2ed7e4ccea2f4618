//! Long images that name a few clusters at chosen places, for one who looks for shared
//! clusters in a part of the image at a time. What is not named is zeros that were never
//! stored, which take no memory.

use crate::image::Made;
use crate::plan::{Plan, ORDER_16};
use crate::snapshots::keep_all;

/// Clusters of such a part: one bit for each in 64 KiB, or beside snapshots two bytes.
const BITS: usize = 8 << 16;
const NUMBERS: usize = 1 << 15;

/// Where an entry stands, and the cluster that it is made to name.
type Name = (usize, usize);

/// An image whose L1 tables have an L2 table each, all the rest of both being 0.
struct Long {
    made: Made,
    /// Places of L1 table and L2 table, the active ones first.
    roots: Vec<[usize; 2]>,
}

/// Shows images with clusters at the ends of the parts named in every way, with the lowest
/// that is shared.
pub fn each(mut show: impl FnMut(&Made, Option<usize>)) {
    let mut long = Long::new(4 * BITS, 0);
    long.show(&[BITS, 2 * BITS, 3 * BITS, 4 * BITS, 7 * NUMBERS], &mut show);
    let mut long = Long::new(3 * NUMBERS + 700, 2);
    long.show(&[NUMBERS, 2 * NUMBERS, 3 * NUMBERS, 3 * NUMBERS + 700], &mut show);
}

impl Long {
    /// With so many clusters of 512 bytes.
    fn new(clusters: usize, snapshots: usize) -> Long {
        let blocks = clusters.div_ceil(256);
        let plan = Plan {
            version: 3,
            cluster_bits: 9,
            order: ORDER_16,
            size: Plan::reach(9, 4),
            l1_size: 4,
            spare: clusters - 2 - blocks - blocks.div_ceil(64),
            longer_table: 0,
            autoclear: 0,
        };
        let mut made = plan.build_sparse();
        assert_eq!(made.clusters(), clusters);
        if snapshots > 0 {
            keep_all(&mut made, snapshots);
        }
        let l1 = [made.l1_at].into_iter().chain(made.snapshots.iter().map(|of| of.l1_at));
        let l1: Vec<usize> = l1.collect();
        let mut roots = Vec::new();
        for l1_at in l1 {
            let table = made.take().expect("room");
            made.put64(l1_at, table as u64);
            roots.push([l1_at, table]);
        }
        Long { made, roots }
    }

    fn show(&mut self, ends: &[usize], show: &mut impl FnMut(&Made, Option<usize>)) {
        for (&end, near) in ends.iter().flat_map(|end| [(end, 1), (end, 0)]) {
            let cluster = end - near;
            if cluster == self.made.clusters() {
                continue;
            }
            for (names, is_shared) in self.cases(cluster) {
                self.named(&names, |made| show(made, is_shared.then_some(cluster)));
            }
            for lower in [cluster / 2, cluster - 1] {
                let [first, second, third, fourth] = [0, 1, 2, 3].map(|j| self.data(0, j));
                let names = [(first, cluster), (second, lower), (third, lower), (fourth, cluster)];
                self.named(&names, |made| show(made, Some(lower)));
            }
        }
    }

    /// The place of an L2 entry.
    fn data(&self, root: usize, index: usize) -> usize {
        self.roots[root][1] + 8 * index
    }

    /// The place of an L1 entry beside the first.
    fn table(&self, root: usize, index: usize) -> usize {
        self.roots[root][0] + 8 + 8 * index
    }

    /// The ways in which a cluster is named, and whether it is shared then.
    fn cases(&self, cluster: usize) -> Vec<(Vec<Name>, bool)> {
        let of = |places: &[usize]| places.iter().map(|&at| (at, cluster)).collect();
        let block = self.made.table_at + 8;
        let mut cases = vec![
            (of(&[self.data(0, 0)]), false),
            (of(&[self.data(0, 0), self.data(0, 63)]), true),
            (of(&[self.data(0, 5), self.table(0, 0)]), true),
            (of(&[self.table(0, 0), self.table(0, 2)]), true),
            (of(&[block]), false),
            (of(&[block, self.data(0, 1)]), true),
            (of(&[block, block + 8]), true),
        ];
        if self.roots.len() > 1 {
            let each =
                |of: fn(&Long, usize, usize) -> usize| [0, 1, 2].map(|root| of(self, root, 1));
            cases.extend([
                (of(&each(Long::data)), false),
                (of(&each(Long::table)), false),
                (of(&[self.data(2, 0), self.data(2, 63)]), true),
                (of(&[self.table(1, 0), self.table(1, 2)]), true),
                (of(&[self.data(0, 5), self.table(2, 0)]), true),
                (of(&[self.data(2, 5), self.table(1, 0)]), true),
                (of(&[block, self.data(2, 1)]), true),
                (of(&[block, self.table(2, 1)]), true),
            ]);
        }
        cases
    }

    /// Shows the image with these entries, which are then as before.
    fn named(&mut self, names: &[Name], show: impl FnOnce(&Made)) {
        let before: Vec<u64> = names.iter().map(|&(at, _)| self.made.get64(at)).collect();
        names.iter().for_each(|&(at, cluster)| self.made.put64(at, (cluster << 9) as u64));
        show(&self.made);
        names.iter().zip(before).for_each(|(&(at, _), entry)| self.made.put64(at, entry));
    }
}
