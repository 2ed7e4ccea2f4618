//! Bit 63 of the active entries, which tells whether a cluster has one reference.

use answers::Verdict;

use crate::entries::{Rules, USED};
use crate::header::{be64, zero, Header};
use crate::width::Figure;

/// The first active entry whose bit 63 is wrong: it is set exactly if what the entry
/// names has one reference. A bad entry is passed over with what is below it.
pub(crate) fn wrong_mark(header: &Header, image: &[u8], figures: &[Figure]) -> Option<Verdict> {
    let rules = Rules::of(header);
    // No place is no cluster beside cluster 0.
    let others = &figures[1..];
    let wrong = |entry: u64| {
        let named = others.get(rules.other(entry));
        named.is_some_and(|&figure| (entry & USED != 0) != (u16::from_be_bytes(figure) == 1))
    };
    let wrong_l2 = |entry: &[u8; 8]| wrong(rules.unmarked(u64::from_be_bytes(*entry)));
    for l1_index in 0..header.disk.l1_size {
        let entry = be64(image, header.disk.l1_at + 8 * l1_index);
        if wrong(entry) {
            return Some(Verdict::MarkL1(l1_index as u64));
        }
        let Some(table @ 1..) = rules.l1(entry) else {
            continue;
        };
        let groups = image[table..][..header.cluster()].as_chunks::<512>().0;
        for (index, group) in groups.iter().enumerate().filter(|(_, group)| !zero(*group)) {
            if let Some(found) = group.as_chunks().0.iter().position(wrong_l2) {
                return Some(Verdict::MarkL2(l1_index as u64, (64 * index + found) as u64));
            }
        }
    }
    None
}
