//! The guest disk as runs, which the core lists many at a time.

use qcow2_core::{Found, Run};

/// Rows for one call of the core, which judges the header each time.
const ROWS: usize = 1 << 14;

/// The runs of a range, each with its guest offset, a portion at a time: there
/// may be far more of them than the image has bytes.
pub struct Runs<'a> {
    image: &'a [u8],
    backing: &'a [u8],
    at: u64,
    left: u64,
    rows: Vec<u64>,
    /// Rows of the portion, and how many of them are passed.
    count: usize,
    passed: usize,
}

impl<'a> Runs<'a> {
    /// Or the number with which the header or the range is refused. What is
    /// refused inside the range is a run.
    pub fn of(
        image: &'a [u8],
        backing: &'a [u8],
        offset: u64,
        length: u64,
    ) -> Result<Runs<'a>, u32> {
        let mut rows = vec![0; 3 * ROWS];
        let count = qcow2_core::runs(image, backing, offset, length, &mut rows)?;
        Ok(Runs { image, backing, at: offset, left: length, rows, count, passed: 0 })
    }

    /// The run at hand. The header and the range were judged, so no portion is
    /// refused; if one is all the same, that is the run of all that is left.
    fn run(&mut self) -> Option<Run> {
        if self.passed == self.count {
            match qcow2_core::runs(self.image, self.backing, self.at, self.left, &mut self.rows) {
                Ok(count) => (self.count, self.passed) = (count, 0),
                Err(number) => {
                    return Some(Run { found: Found::Refused(number), length: self.left });
                }
            }
        }
        let rows = self.rows[..3 * self.count].as_chunks().0;
        rows.get(self.passed).copied().map(Run::of_row)
    }
}

impl Iterator for Runs<'_> {
    type Item = (u64, Run);

    fn next(&mut self) -> Option<(u64, Run)> {
        if self.left == 0 {
            return None;
        }
        let (at, run) = (self.at, self.run()?);
        (self.at, self.left) = (at + run.length, self.left - run.length);
        self.passed += 1;
        Some((at, run))
    }
}

/// The number of the first refused run, which a read of the range gives.
pub fn refused(mut runs: impl Iterator<Item = (u64, Run)>) -> Option<u32> {
    runs.find_map(|(_, run)| match run.found {
        Found::Refused(number) => Some(number),
        _ => None,
    })
}

#[cfg(test)]
mod tests {
    use super::*;

    #[test]
    fn the_first_refused_run() {
        let run = |found| (0, Run { found, length: 1 });
        let first = |runs: &[(u64, Run)]| refused(runs.iter().copied());
        assert_eq!(first(&[]), None);
        assert_eq!(first(&[run(Found::Zeros), run(Found::Host(512))]), None);
        let bad = [run(Found::Absent), run(Found::Refused(13)), run(Found::Refused(12))];
        assert_eq!(first(&bad), Some(13));
    }
}
