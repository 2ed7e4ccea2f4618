//! The format of a file, which every advised command names: were it left to
//! qemu to guess, the guest of a raw disk could choose it by its first bytes,
//! and with it have other files of the host read.

use crate::fields::Fields;

/// The first bytes, qemu's word for the format, and what is said of it.
const KNOWN: [(&[u8], &str, &str); 7] = [
    (b"QED\0", "qed", "a QED image"),
    (b"WithoutFreeSpace", "parallels", "a Parallels image"),
    (b"WithouFreSpacExt", "parallels", "a Parallels image"),
    (b"KDMV", "vmdk", "a VMDK image"),
    (b"vhdxfile", "vhdx", "a VHDX image"),
    (b"conectix", "vpc", "a VHD image"),
    (b"<<< ", "vdi", "a VDI image"),
];

const MAGIC: &[u8] = &[0x51, 0x46, 0x49, 0xFB];

fn known(bytes: &[u8]) -> Option<(&'static str, &'static str)> {
    let found = KNOWN.iter().find(|(magic, ..)| bytes.starts_with(magic))?;
    Some((found.1, found.2))
}

/// The fields, if it is a qcow2 image by its first bytes and its version.
pub fn fields(bytes: &[u8]) -> Option<Fields> {
    let is_qcow2 = |fields: &Fields| bytes.starts_with(MAGIC) && fields.version != 1;
    Fields::read(bytes).filter(is_qcow2)
}

/// qemu's word for the format.
pub fn of(bytes: &[u8]) -> &'static str {
    match known(bytes) {
        Some((format, _)) => format,
        None if !bytes.starts_with(MAGIC) => "raw",
        None if fields(bytes).is_some() => "qcow2",
        None => "qcow",
    }
}

/// What a file that is no qcow2 image is, and when the advice fits.
pub fn words(bytes: &[u8]) -> (&'static str, String) {
    match known(bytes) {
        Some((format, kind)) => (
            kind,
            format!(
                "This fits only if the file was made as one, with -f {format}: the first bytes of a \
                 raw disk are its guest's, who may have put these there. Of a raw disk make the \
                 new image with -f raw."
            ),
        ),
        None => (
            "no qcow2 image, perhaps a raw one",
            "The new one has the file's bytes, one for one.".into(),
        ),
    }
}
