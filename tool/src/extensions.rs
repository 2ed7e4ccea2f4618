//! Header extensions: what follows the header's fields.

use crate::fields::{be32, Fields};

/// Names of features: nothing is lost where they are not seen.
pub const FEATURE_NAMES: u32 = 0x6803_F857;
/// The format of a backing file.
pub const BACKING_FORMAT: u32 = 0xE279_2ACA;

/// Where qemu's persistent bitmaps are.
const BITMAPS: u32 = 0x2385_2875;

pub fn has_bitmaps(bytes: &[u8], fields: &Fields) -> bool {
    kinds(bytes, fields).is_some_and(|kinds| kinds.contains(&BITMAPS))
}

/// An extension: its kind, and what it holds.
type Extension<'a> = (u32, &'a [u8]);

/// The extensions in their order; None if they do not end inside the bytes.
fn all<'a>(bytes: &'a [u8], fields: &Fields) -> Option<Vec<Extension<'a>>> {
    let start = if fields.version == 2 { 72 } else { fields.header_length };
    let mut at = usize::try_from(start).ok()?;
    let mut found = Vec::new();
    // A backing file's name stands after them.
    let end = if fields.backing == 0 { fields.cluster()? } else { fields.backing };
    let end = end.min(fields.cluster()?).min(bytes.len() as u64) as usize;
    while at < end {
        let kind = be32(bytes, at)?;
        if kind == 0 {
            break;
        }
        let length = usize::try_from(be32(bytes, at.checked_add(4)?)?).ok()?;
        at = at.checked_add(8)?;
        found.push((kind, bytes.get(at..at.checked_add(length)?)?));
        at = at.checked_add(length.checked_next_multiple_of(8)?)?;
    }
    (at <= end).then_some(found)
}

/// The kinds of the extensions.
fn kinds(bytes: &[u8], fields: &Fields) -> Option<Vec<u32>> {
    Some(all(bytes, fields)?.into_iter().map(|extension| extension.0).collect())
}

/// Is there none?
pub fn are_none(bytes: &[u8], fields: &Fields) -> bool {
    kinds(bytes, fields).is_some_and(|kinds| kinds.is_empty())
}

/// Are there none but names of features and the format of a backing file?
pub fn are_names_alone(bytes: &[u8], fields: &Fields) -> bool {
    let name = |kind: &u32| [FEATURE_NAMES, BACKING_FORMAT].contains(kind);
    kinds(bytes, fields).is_some_and(|kinds| kinds.iter().all(name))
}

/// Which format the image says that its backing file has. A header_length that was
/// set back hides it, which makes it no less true.
pub fn backing_format<'a>(bytes: &'a [u8], fields: &Fields) -> Option<&'a [u8]> {
    let said = |fields: &Fields| {
        let format = |it: &Extension| it.0 == BACKING_FORMAT;
        all(bytes, fields)?.into_iter().rfind(format).map(|extension| extension.1)
    };
    said(fields).or_else(|| said(&Fields { header_length: 112, ..*fields }))
}

#[cfg(test)]
mod tests {
    use super::*;

    #[test]
    fn extensions_in_turn() {
        let mut bytes = vec![0; 512];
        (bytes[7], bytes[23], bytes[103]) = (3, 9, 104);
        let fields = |bytes: &[u8]| Fields::read(bytes).unwrap();
        assert_eq!(kinds(&bytes, &fields(&bytes)), Some(vec![]));
        bytes[104..108].copy_from_slice(&FEATURE_NAMES.to_be_bytes());
        bytes[111] = 5;
        bytes[120..124].copy_from_slice(&0x2385_2875u32.to_be_bytes());
        assert_eq!(kinds(&bytes, &fields(&bytes)), Some(vec![FEATURE_NAMES, 0x2385_2875]));
        assert!(!are_names_alone(&bytes, &fields(&bytes)));
        bytes[120] = 0;
        bytes[121..124].fill(0);
        assert!(are_names_alone(&bytes, &fields(&bytes)));
        bytes[108] = 0xFF;
        assert!(!are_names_alone(&bytes, &fields(&bytes)));
        bytes[103] = 120;
        assert_eq!(kinds(&bytes[..122], &fields(&bytes)), None);
    }

    /// As qemu makes it: the extensions from 112 on, then the name.
    #[test]
    fn formats_of_backing_files() {
        let mut bytes = vec![0; 512];
        (bytes[7], bytes[15], bytes[19], bytes[23], bytes[103]) = (3, 136, 3, 9, 112);
        bytes[112..116].copy_from_slice(&BACKING_FORMAT.to_be_bytes());
        bytes[119] = 5;
        bytes[120..125].copy_from_slice(b"qcow2");
        bytes[136..139].copy_from_slice(b"b.q");
        fn said(bytes: &[u8]) -> Option<&[u8]> {
            backing_format(bytes, &Fields::read(bytes).unwrap())
        }
        assert_eq!(said(&bytes), Some(&b"qcow2"[..]));
        bytes[103] = 104;
        assert_eq!(said(&bytes), Some(&b"qcow2"[..]));
        // The last one counts, as with qemu; the name is no extension.
        bytes.copy_within(112..128, 128);
        bytes[136..141].copy_from_slice(b"raw\0\0");
        (bytes[135], bytes[15]) = (3, 144);
        assert_eq!(said(&bytes), Some(&b"raw"[..]));
        bytes[15] = 128;
        assert_eq!(said(&bytes), Some(&b"qcow2"[..]));
        bytes[15] = 112;
        assert_eq!(said(&bytes), None);
        // In version 2 from 72 on.
        bytes.copy_within(112..128, 72);
        (bytes[7], bytes[15]) = (2, 96);
        assert_eq!(said(&bytes), Some(&b"qcow2"[..]));
        bytes[76] = 0xFF;
        assert_eq!(said(&bytes), None);
    }
}
