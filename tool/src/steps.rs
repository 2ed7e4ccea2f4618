//! The steps that the core lists of a call: bytes of the image, in the list's
//! order and in epochs between which a flush has to stand.

use std::ops::Range;

use qcow2_core::Step;

/// Units of steps.
pub fn units(steps: &[Step]) -> u64 {
    steps.iter().map(|step| step.units).sum()
}

/// The first units, as many as the allowance lets be made.
pub fn within(mut steps: Vec<Step>, allowance: u64) -> Vec<Step> {
    let mut left = allowance;
    for step in &mut steps {
        *step = step.first(left);
        left -= step.units;
    }
    steps.retain(|step| step.units > 0);
    steps
}

/// The bytes of steps as ranges that rise, with a gap between two of them.
pub fn ranges(steps: &[Step]) -> Vec<Range<usize>> {
    let mut sorted: Vec<Range<usize>> = steps.iter().map(Step::range).collect();
    sorted.sort_by_key(|range| range.start);
    let mut ranges: Vec<Range<usize>> = Vec::new();
    for Range { start, end } in sorted {
        match ranges.last_mut() {
            Some(last) if start <= last.end => last.end = last.end.max(end),
            _ => ranges.push(start..end),
        }
    }
    ranges
}

#[cfg(test)]
mod tests {
    use super::*;

    fn step(at: usize, len: usize, units: u64, epoch: u64) -> Step {
        Step { at, len, units, epoch }
    }

    #[test]
    fn allowances() {
        let steps =
            [step(88, 8, 1, 0), step(1024, 2, 1, 1), step(2048, 512, 512, 1), step(1536, 8, 1, 2)];
        let cut = |allowance| within(steps.to_vec(), allowance);
        assert_eq!((units(&steps), units(&[])), (515, 0));
        assert_eq!((cut(u64::MAX), cut(515)), (steps.to_vec(), steps.to_vec()));
        assert_eq!((cut(514), cut(1)), (steps[..3].to_vec(), steps[..1].to_vec()));
        assert_eq!(cut(5), [steps[0], steps[1], step(2048, 3, 3, 1)]);
        assert_eq!((cut(0), within(vec![], 0)), (vec![], vec![]));
        assert!((0..=515).all(|allowance| units(&cut(allowance)) == allowance));
    }

    #[test]
    fn ranges_of_steps() {
        // Counts side by side, two of them in one byte; an entry in a table.
        let counts = [step(10, 1, 1, 1), step(10, 1, 1, 1), step(11, 1, 1, 1), step(13, 1, 1, 1)];
        assert_eq!(ranges(&counts), [10..12, 13..14]);
        let table = [step(512, 512, 512, 1), step(40, 2, 1, 1), step(520, 8, 1, 1)];
        assert_eq!(ranges(&table), [40..42, 512..1024]);
        // Of several calls: what stands side by side is one range.
        let calls = [table, [step(1024, 512, 512, 1), step(42, 2, 1, 1), step(504, 7, 1, 1)]];
        assert_eq!(ranges(&calls.concat()), [40..44, 504..511, 512..1536]);
        assert_eq!(ranges(&[]), []);
    }
}
