//! Neighbouring clusters joined into runs.

use qcow2_core::difference;

use crate::fields::be16;
use crate::layout::Layout;

/// A cluster's references in the scratch of a check, two bytes each.
pub fn figure(scratch: &[u8], cluster: usize) -> u16 {
    be16(scratch, 2 * cluster).unwrap_or(0)
}

/// Clusters that are wanted by the difference of stored count and figure, as
/// first and number; the scratch is that of a check.
pub fn by_difference(
    layout: &Layout,
    image: &[u8],
    scratch: &[u8],
    wanted: impl Fn(i32) -> bool,
) -> Vec<(u64, u64)> {
    of((0..layout.clusters).filter(|&cluster| {
        let stored = layout.count(image, cluster).unwrap_or(0);
        wanted(difference(stored, figure(scratch, cluster)))
    }))
}

/// Clusters, rising, as first and number.
pub fn of(clusters: impl Iterator<Item = usize>) -> Vec<(u64, u64)> {
    let mut runs: Vec<(u64, u64)> = Vec::new();
    for cluster in clusters {
        match runs.last_mut() {
            Some((first, number)) if *first + *number == cluster as u64 => *number += 1,
            _ => runs.push((cluster as u64, 1)),
        }
    }
    runs
}

/// `3, 7-9, 12`, and how many runs more.
pub fn text(runs: &[(u64, u64)]) -> String {
    const SHOWN: usize = 8;
    let one = |&(first, number): &(u64, u64)| match number {
        1 => first.to_string(),
        _ => format!("{first}-{}", first + number - 1),
    };
    let shown: Vec<String> = runs.iter().take(SHOWN).map(one).collect();
    match runs.len().saturating_sub(SHOWN) {
        0 => shown.join(", "),
        more => format!("{} and {more} runs more", shown.join(", ")),
    }
}

#[cfg(test)]
mod tests {
    use super::*;

    #[test]
    fn runs_as_text() {
        assert_eq!(text(&[]), "");
        assert_eq!(text(&[(3, 1), (7, 3)]), "3, 7-9");
        let many: Vec<(u64, u64)> = (0..10).map(|k| (2 * k, 1)).collect();
        assert_eq!(text(&many), "0, 2, 4, 6, 8, 10, 12, 14 and 2 runs more");
    }
}
