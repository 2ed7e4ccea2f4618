//! Numbers 1 to 5, 8, 9 and 18.

use super::{format, tail, Remedy, Subject, WITHOUT};
use crate::fields::{Fields, BITS, MAX_DISK, MAX_IMAGE, MAX_L1, SECTOR};

/// Where neither this program nor qemu can go on.
pub const LOOK_FOR_ANOTHER: &str = "Leave the file as it is and look for another copy.";

/// Numbers 1 to 5.
pub fn shape(number: u32, subject: &Subject) -> (String, Remedy) {
    let fields = Fields::read(subject.bytes);
    match number {
        1 => (
            format!("the file has {} bytes, fewer than the 512 of a header", subject.length),
            Remedy::Other(format!(
                "It is no qcow2 image, or only the beginning of one. {LOOK_FOR_ANOTHER}"
            )),
        ),
        2 => magic(subject),
        3 => version(fields.map_or(0, |fields| fields.version)),
        4 => (
            bits(fields.map_or(0, |fields| fields.cluster_bits)),
            Remedy::Other(format!("qemu takes no others either. {LOOK_FOR_ANOTHER}")),
        ),
        _ => length(subject, fields),
    }
}

fn version(version: u32) -> (String, Remedy) {
    let what = format!("the version is {version}; 2 and 3 are accepted");
    let remedy = match version {
        1 => Remedy::NewImage(String::new()),
        _ => Remedy::Other(format!("qemu knows no such version either. {LOOK_FOR_ANOTHER}")),
    };
    (what, remedy)
}

fn bits(bits: u32) -> String {
    let (least, most) = (BITS.start(), BITS.end());
    format!(
        "cluster_bits is {bits}; {least} to {most} are accepted (clusters of {} to {} bytes)",
        1u64 << least,
        1u64 << most
    )
}

fn magic(subject: &Subject) -> (String, Remedy) {
    let start = subject.bytes.get(..4).unwrap_or(&[]);
    let hex: Vec<String> = start.iter().map(|byte| format!("{byte:02X}")).collect();
    let (kind, fits) = format::words(subject.bytes);
    let what = format!("the file begins with {}, not with 51 46 49 FB: {kind}", hex.join(" "));
    (what, Remedy::NewImage(fits))
}

/// Number 5.
fn length(subject: &Subject, fields: Option<Fields>) -> (String, Remedy) {
    let n = subject.length;
    if n > MAX_IMAGE {
        let what = format!("the file has {n} bytes; at most {MAX_IMAGE} are accepted");
        let text =
            "The new one has no clusters but those with data. If it is too long as well, the \
                    disk holds more than is accepted.";
        return (what, Remedy::NewImage(text.into()));
    }
    let cluster = fields.and_then(|fields| fields.cluster()).unwrap_or(512);
    let whole = n.next_multiple_of(cluster);
    let what = format!(
        "the file has {n} bytes, which is not a whole number of clusters of {cluster} bytes ({} \
         are missing to the next)",
        whole - n
    );
    if tail::refers_past(subject.bytes, whole) == Some(true) {
        return (
            format!("{what}; {}", tail::CUT_SHORT),
            Remedy::NewImage(tail::rest(subject.bytes, whole).into()),
        );
    }
    let text = format!(
        "Pad it with zeros, which changes nothing for the guest: {}. {WITHOUT}",
        subject.commands().pad(cluster)
    );
    (what, Remedy::InPlace(text))
}

/// Numbers 8 and 9.
pub fn sizes(number: u32, subject: &Subject) -> (String, Remedy) {
    let Some(fields) = Fields::read(subject.bytes) else {
        return ("the header is too short".into(), Remedy::Other(LOOK_FOR_ANOTHER.into()));
    };
    let cluster = fields.cluster().unwrap_or(512);
    if number == 8 {
        size(&fields, cluster)
    } else {
        tables(subject, &fields, cluster)
    }
}

fn size(fields: &Fields, cluster: u64) -> (String, Remedy) {
    let l1_size = u64::from(fields.l1_size);
    if fields.size > MAX_DISK {
        let what = format!("the disk has {} bytes; at most 2^40 are accepted", fields.size);
        let text =
            "No command makes a disk shorter and keeps what lies past its new end. Copy what \
                    is wanted to a smaller disk inside the guest.";
        return (what, Remedy::Other(text.into()));
    }
    if l1_size > MAX_L1 {
        let what = format!(
            "the L1 table has {l1_size} entries; at most {MAX_L1} are accepted, which reach {} bytes \
             with clusters of {cluster}",
            MAX_L1 * (cluster / 8) * cluster
        );
        return (
            what,
            Remedy::NewImage("The new one has larger clusters and a shorter L1 table.".into()),
        );
    }
    let what = format!(
        "the L1 table's {l1_size} entries reach {} bytes, the disk has {}",
        l1_size * (cluster / 8) * cluster,
        fields.size
    );
    (what, Remedy::Other(format!("The header is damaged. {LOOK_FOR_ANOTHER}")))
}

/// Number 18. The next whole sector is never past the limits of number 8.
pub fn sectors(subject: &Subject) -> (String, Remedy) {
    let fields = Fields::read(subject.bytes);
    let size = fields.map_or(0, |fields| fields.size);
    let missing = size.wrapping_neg() % SECTOR;
    let what = format!(
        "the disk has {size} bytes, which is not a whole number of sectors of 512 bytes ({missing} \
         are missing to the next)"
    );
    let rest = format!("any copy that qemu makes lacks the last {} bytes", size % SECTOR);
    let text = if fields.is_some_and(|fields| fields.is_plain()) {
        format!(
            "Lengthen the disk to whole sectors, which keeps every guest byte: {}. Until then \
             {rest}.",
            subject.commands().lengthen_disk(size.saturating_add(missing))
        )
    } else {
        format!("Keep the file: {rest}.")
    };
    (what, Remedy::Other(text))
}

/// Number 9.
fn tables(subject: &Subject, fields: &Fields, cluster: u64) -> (String, Remedy) {
    let l1 = ("L1 table", fields.l1_at, 8 * u128::from(fields.l1_size));
    let clusters = u128::from(fields.table_clusters);
    let refcounts = ("refcount table", fields.table_at, clusters * u128::from(cluster));
    let lost = || Remedy::Other(format!("The file is damaged or cut short. {LOOK_FOR_ANOTHER}"));
    for (name, at, length) in [l1, refcounts] {
        if at % cluster != 0 {
            let what = format!("the {name} stands at {at}, which is no multiple of {cluster}");
            return (what, lost());
        }
        if u128::from(at) + length > u128::from(subject.length) {
            let what = format!(
                "the {name} stands at {at} and has {length} bytes, so it runs past the file's end \
                 at {}",
                subject.length
            );
            return (what, lost());
        }
    }
    // Another refcount_order is number 6, which comes first.
    let per_block = fields.per_block().unwrap_or(cluster / 2);
    let needed = (subject.length / cluster).div_ceil(per_block);
    let what = format!(
        "the refcount table has {} entries, and {needed} are needed for a file of {} bytes",
        clusters * u128::from(cluster / 8),
        subject.length
    );
    // Without a table qemu refuses it too.
    let text = "The new one has tables that fit its length.";
    (what, if clusters == 0 { lost() } else { Remedy::NewImage(text.into()) })
}
