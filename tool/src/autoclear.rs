//! The autoclear bits in words: features that the core does not know, and whose
//! bits it clears before it stores anything.

use crate::fields::Fields;

/// The bits of an image; 0 for version 2, which has none.
pub fn bits(image: &[u8]) -> u64 {
    Fields::read(image).map_or(0, |fields| fields.autoclear)
}

/// As a number, with what qemu has bit 0 for.
pub fn named(bits: u64) -> String {
    format!("0x{bits:x}{}", if has_bitmaps(bits) { " (persistent bitmaps)" } else { "" })
}

fn has_bitmaps(bits: u64) -> bool {
    bits & 1 == 1
}

/// What may be wrong with the verdict that the image leaks.
fn doubt(bits: u64) -> String {
    let owners = if has_bitmaps(bits) {
        "the clusters of the bitmaps"
    } else {
        "clusters of features that the core does not know"
    };
    format!("autoclear_features is {}, and what looks leaked may be {owners}", named(bits))
}

/// Why nothing has to be done.
const ONLY_ROOM: &str = "Leaked clusters cost room and no guest byte, so nothing has to be done";

/// For an image that looks leaking.
pub fn advice(bits: u64) -> String {
    format!(
        "{}. Do not repair it while they are wanted; any other change gives them up too. \
         {ONLY_ROOM}.",
        doubt(bits)
    )
}

/// Why a repair is not made unless it is forced.
pub fn guard(bits: u64) -> String {
    format!(
        "not changed: {}.\n  {ONLY_ROOM}. A repair with --force clears the bits, which gives these \
         features up, and frees the clusters: what was in them is lost.",
        doubt(bits)
    )
}

/// What a change did to the bits.
pub fn cleared(bits: u64) -> String {
    let then = if has_bitmaps(bits) {
        "qemu no longer uses the bitmaps"
    } else {
        "whoever knows them no longer trusts what they stand for"
    };
    format!("autoclear_features was {} and is cleared: {then}.", named(bits))
}

#[cfg(test)]
mod tests {
    use super::*;

    #[test]
    fn bitmaps_are_named() {
        for text in [advice, guard, cleared] {
            assert!(text(1).contains("0x1 (persistent bitmaps)"));
            assert!(text(6).contains("autoclear_features is 0x6") || text(6).contains("was 0x6"));
            assert!(!text(6).contains("bitmaps"));
        }
    }
}
