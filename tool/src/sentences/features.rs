//! Numbers 6 and 7: what the image uses and the core does not know.

use super::{Remedy, Subject, WITHOUT};
use crate::extensions;
use crate::fields::{Fields, HEADER_LENGTH, MAX_SNAPSHOTS};
use crate::width::MAX_ORDER;

pub fn sentence(number: u32, subject: &Subject) -> (String, Remedy) {
    let Some(fields) = Fields::read(subject.bytes) else {
        return ("the header is too short".into(), Remedy::NewImage(String::new()));
    };
    if number == 6 {
        (not_supported(&fields), remedy_not_supported(subject, &fields))
    } else {
        (incompatible(fields.incompatible), remedy_incompatible(fields.incompatible))
    }
}

fn not_supported(fields: &Fields) -> String {
    let mut causes = Vec::new();
    match fields.crypt {
        0 => {}
        1 => causes.push("the disk is encrypted (AES)".into()),
        2 => causes.push("the disk is encrypted (LUKS)".into()),
        other => causes.push(format!("crypt_method is {other}")),
    }
    if fields.snapshots > MAX_SNAPSHOTS {
        let number = fields.snapshots;
        causes.push(format!(
            "the image has {number} internal snapshots, and at most {MAX_SNAPSHOTS} are accepted"
        ));
    }
    if fields.width().is_none() {
        let order = fields.order;
        causes.push(format!("refcount_order is {order}, and only 0 to {MAX_ORDER} are accepted"));
    }
    if fields.header_length != HEADER_LENGTH {
        let maker = if fields.header_length == 112 { " as qemu 5.1 and later make it" } else { "" };
        let length = fields.header_length;
        causes.push(format!("header_length is {length}{maker}, and only 104 is accepted"));
    }
    causes.join("; ")
}

fn remedy_not_supported(subject: &Subject, fields: &Fields) -> Remedy {
    let length_alone = fields.crypt == 0
        && fields.snapshots <= MAX_SNAPSHOTS
        && fields.width().is_some()
        && fields.incompatible == 0
        && fields.autoclear == 0;
    if length_alone && can_be_set_back(subject, fields) {
        return Remedy::InPlace(set_back(subject, fields));
    }
    Remedy::NewImage(String::new())
}

/// Over a backing file its format has to be seen as before.
fn set_back(subject: &Subject, fields: &Fields) -> String {
    let (commands, before) = (
        subject.commands(),
        "Bytes 104 to 111 are zero, so the length can be set back without loss",
    );
    if fields.is_over_backing() {
        let command = commands.set_length_back_seen();
        return format!(
            "{before} (byte 103 to 104, and an empty extension into the next eight, so that qemu \
             still sees those behind it, among them the backing file's format): {command}. \
             {WITHOUT}"
        );
    }
    let command = commands.set_length_back();
    format!(
        "{before} (byte 103 to 104, letter h; letter p sets it again): {command}. The names of \
         features are then no longer seen. {WITHOUT}"
    )
}

/// Is what qemu 5.1 and later add unused, and would nothing be hidden that
/// anybody needs?
fn can_be_set_back(subject: &Subject, fields: &Fields) -> bool {
    let unused = subject.bytes.get(104..112).is_some_and(|bytes| bytes == [0; 8]);
    fields.header_length == 112 && unused && extensions::are_names_alone(subject.bytes, fields)
}

/// The bits that have a name, from bit 0 up.
pub const INCOMPATIBLE_BITS: &[&str] = &[
    "dirty: its counts may be wrong",
    "corrupt: qemu found damage",
    "external data file",
    "compression type",
    "extended L2 entries",
];
pub const COMPATIBLE_BITS: &[&str] = &["lazy refcounts"];
pub const AUTOCLEAR_BITS: &[&str] = &["persistent bitmaps", "raw external data"];

/// The bits that are set, by name.
pub fn named_bits(bits: u64, names: &[&str]) -> Vec<String> {
    let set = (0..64).filter(|bit| bits >> bit & 1 == 1);
    set.map(|bit| format!("bit {bit} ({})", names.get(bit).unwrap_or(&"not known"))).collect()
}

fn incompatible(bits: u64) -> String {
    let named = named_bits(bits, INCOMPATIBLE_BITS).join(", ");
    format!("incompatible_features has {named}; none is accepted")
}

fn remedy_incompatible(bits: u64) -> Remedy {
    let note = match bits {
        1 => "The disk's bytes are not affected by the counts.",
        2 | 3 => "The new one has what qemu can still read.",
        _ => "",
    };
    Remedy::NewImage(note.into())
}

#[cfg(test)]
mod tests {
    use super::*;

    #[test]
    fn bits_by_name() {
        let text = incompatible(0b11 | 1 << 40);
        assert!(text.contains("bit 0 (dirty") && text.contains("bit 1 (corrupt"));
        assert!(text.contains("bit 40 (not known)"));
        assert_eq!(named_bits(1, COMPATIBLE_BITS), ["bit 0 (lazy refcounts)"]);
    }
}
