//! An image as it would be after the two harmless remedies, in memory alone:
//! padded to whole clusters, and header_length 112 set back to 104.

use crate::fields::{Fields, HEADER_LENGTH};

/// Mends the bytes; what was done, in words. Nothing but these two is mended:
/// for the rest of what is wrong the core has its numbers.
pub fn mend(bytes: &mut Vec<u8>) -> Vec<String> {
    let mut notes = Vec::new();
    if let Some(padded) = pad(bytes) {
        notes.push(format!(
            "as if padded with {padded} zero bytes to {}; the file is not changed",
            bytes.len()
        ));
    }
    if set_length_back(bytes) {
        notes.push("as if header_length were 104, not 112; the file is not changed".into());
    }
    if notes.is_empty() {
        notes.push("as it is: --as-if-mended found nothing to mend".into());
    }
    notes
}

/// Pads to whole clusters; with how many bytes, if any are missing.
pub fn pad(bytes: &mut Vec<u8>) -> Option<usize> {
    let cluster = image_fields(bytes)?.cluster()? as usize;
    let missing = bytes.len().next_multiple_of(cluster) - bytes.len();
    bytes.resize(bytes.len() + missing, 0);
    (missing > 0).then_some(missing)
}

/// Sets header_length back, where what it adds is not used; was it?
fn set_length_back(bytes: &mut [u8]) -> bool {
    let unused = bytes.get(104..112).is_some_and(|bytes| bytes == [0; 8]);
    let longer = |fields: &Fields| fields.version == 3 && fields.header_length == 112;
    let mends = unused && image_fields(bytes).is_some_and(|fields| longer(&fields));
    if mends {
        bytes[100..104].copy_from_slice(&HEADER_LENGTH.to_be_bytes());
    }
    mends
}

/// The fields of what has the first two numbers' marks of an image.
fn image_fields(bytes: &[u8]) -> Option<Fields> {
    let is_image = bytes.len() >= 512 && bytes.starts_with(&[0x51, 0x46, 0x49, 0xFB]);
    Fields::read(bytes).filter(|fields| is_image && [2, 3].contains(&fields.version))
}

#[cfg(test)]
mod tests {
    use super::*;

    fn header(version: u8, length: u8, n: usize) -> Vec<u8> {
        let mut bytes = vec![0; n];
        bytes[..8].copy_from_slice(&[0x51, 0x46, 0x49, 0xFB, 0, 0, 0, version]);
        (bytes[23], bytes[103]) = (9, length);
        bytes
    }

    #[test]
    fn both_remedies() {
        let mut bytes = header(3, 112, 1000);
        assert_eq!(mend(&mut bytes).len(), 2);
        assert_eq!((bytes.len(), bytes[103]), (1024, 104));
        assert!(mend(&mut bytes)[0].contains("nothing to mend"));
    }

    #[test]
    fn what_is_left_alone() {
        // Version 2 has no such field; byte 103 is then a header extension's.
        let mut bytes = header(2, 112, 1000);
        assert_eq!(mend(&mut bytes).len(), 1);
        assert_eq!((bytes.len(), bytes[103]), (1024, 112));
        // A compression type is used.
        let mut bytes = header(3, 112, 1024);
        bytes[104] = 1;
        let before = bytes.clone();
        assert!(mend(&mut bytes)[0].contains("nothing") && bytes == before);
        for mut bytes in [vec![], vec![0x51; 600], header(4, 112, 1000), header(3, 112, 511)] {
            let before = bytes.clone();
            assert!(mend(&mut bytes)[0].contains("nothing") && bytes == before);
        }
    }
}
