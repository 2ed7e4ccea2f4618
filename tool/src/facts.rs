//! What the header says, whether or not the image is accepted.

use std::path::Path;

use crate::backing::{name, shown, Backing};
use crate::extensions;
use crate::fields::{Fields, MAX_SNAPSHOTS};
use crate::image_file::Own;
use crate::json::Json;
use crate::sentences::{named_bits, AUTOCLEAR_BITS, COMPATIBLE_BITS, INCOMPATIBLE_BITS};
use crate::snapshots::{Snapshot, Table};
use crate::width::Width;

/// The header of a file, as lines and as members of a JSON object.
pub struct Facts {
    pub text: String,
    pub members: Vec<(&'static str, Json)>,
}

/// The length alone, if the bytes do not begin as a qcow2 image does, and the
/// version beside it, if other versions have other fields. `own` is of the file
/// as it is.
pub fn facts(bytes: &[u8], backing: &Backing, own: Own) -> Facts {
    let is_image = bytes.starts_with(&[0x51, 0x46, 0x49, 0xFB]);
    let file_size = own.length;
    let Some(fields) = Fields::read(bytes).filter(|_| is_image) else {
        let text = format!("file size: {file_size}\n");
        return Facts { text, members: vec![("file_size", file_size.into())] };
    };
    if ![2, 3].contains(&fields.version) {
        let text = format!("version: {}\nfile size: {file_size}\n", fields.version);
        let members = vec![("version", fields.version.into()), ("file_size", file_size.into())];
        return Facts { text, members };
    }
    let fields = Fields { header_length: own.header_length, ..fields };
    let mut text = format!(
        "version: {}\nfile size: {file_size}{}\ndisk size: {}\nL1 entries: {}\nrefcount \
         bits: {}\n",
        fields.version,
        clusters(&fields, file_size),
        fields.size,
        fields.l1_size,
        fields.width().map_or("not known".into(), |width| width.bits().to_string())
    );
    if fields.version == 3 {
        text += &format!("header length: {}\n", fields.header_length);
    }
    for (name, said) in unusual(&fields, bytes, backing) {
        text += &format!("{name}: {said}\n");
    }
    let snapshots = listed(&fields, bytes);
    snapshots.iter().for_each(|snapshot| text += &format!("  {}\n", snapshot.line()));
    let others = fields.snapshots as usize - snapshots.len();
    if others > 0 {
        text += &format!("  and {others} that cannot be listed\n");
    }
    let mut members = members(&fields, file_size);
    members.extend(beneath(&fields, bytes, backing));
    let objects = snapshots.iter().map(Snapshot::object).collect();
    members.push(("snapshot_list", Json::List(objects)));
    Facts { text, members }
}

/// The snapshots, as far as their table can be read and is not too long.
fn listed(fields: &Fields, bytes: &[u8]) -> Vec<Snapshot> {
    let at = fields.snapshots_at;
    let stands = fields.cluster().is_some_and(|cluster| at != 0 && at.is_multiple_of(cluster));
    let few = if stands { fields.snapshots.min(MAX_SNAPSHOTS) } else { 0 };
    Table::of(bytes, &Fields { snapshots: few, ..*fields }).snapshots
}

/// Whole clusters, and a word on what is left, if their size is known.
fn clusters(fields: &Fields, file_size: u64) -> String {
    match (1u64.checked_shl(fields.cluster_bits), fields.cluster()) {
        (_, Some(cluster)) => {
            let rest = if file_size.is_multiple_of(cluster) { "" } else { " and a part of one" };
            format!(" ({} clusters of {cluster} bytes{rest})", file_size / cluster)
        }
        (Some(cluster), None) => format!(" (clusters of {cluster} bytes)"),
        _ => String::new(),
    }
}

/// What most images do not have.
fn unusual(fields: &Fields, bytes: &[u8], backing: &Backing) -> Vec<(&'static str, String)> {
    let mut lines = Vec::new();
    for (name, bits, names) in features(fields) {
        if bits != 0 {
            lines.push((name, format!("0x{bits:x}: {}", named_bits(bits, names).join(", "))));
        }
    }
    if fields.backing != 0 {
        lines.push(("backing file", name(bytes, fields).map_or("not readable".into(), shown)));
        let format = extensions::backing_format(bytes, fields);
        lines.extend(format.map(|format| ("backing file's format", shown(format))));
    }
    if let Some((path, length)) = lent(backing) {
        lines.push(("backing file given", format!("{path:?} ({length} bytes)")));
    }
    if fields.crypt != 0 {
        lines.push(("encryption method", fields.crypt.to_string()));
    }
    if fields.snapshots != 0 {
        lines.push(("snapshots", fields.snapshots.to_string()));
    }
    lines
}

/// The file that is given, if its bytes are lent, and how many they are.
fn lent(backing: &Backing) -> Option<(&Path, u64)> {
    let path = backing.path.as_deref().filter(|_| !backing.bytes.is_empty())?;
    Some((path, backing.length))
}

/// The backing file, as the image names it and as it is given.
fn beneath(fields: &Fields, bytes: &[u8], backing: &Backing) -> Vec<(&'static str, Json)> {
    let text = |bytes: &[u8]| Json::Text(String::from_utf8_lossy(bytes).into_owned());
    let hex = |bytes: &[u8]| bytes.iter().map(|byte| format!("{byte:02x}")).collect::<String>();
    let name = name(bytes, fields);
    // JSON has no bytes: what its text cannot say is given in hex.
    let other = name.filter(|name| str::from_utf8(name).is_err());
    let format = extensions::backing_format(bytes, fields).filter(|_| fields.backing != 0);
    let given = lent(backing).map_or(Json::Null, |(path, length)| {
        let path = path.to_string_lossy().into_owned();
        Json::Object(vec![("path", path.into()), ("length", length.into())])
    });
    vec![
        ("backing_file", name.map_or(Json::Null, text)),
        ("backing_file_hex", other.map_or(Json::Null, |name| hex(name).into())),
        ("backing_format", format.map_or(Json::Null, text)),
        ("backing_given", given),
    ]
}

type Feature = (&'static str, u64, &'static [&'static str]);

fn features(fields: &Fields) -> [Feature; 3] {
    [
        ("incompatible_features", fields.incompatible, INCOMPATIBLE_BITS),
        ("compatible_features", fields.compatible, COMPATIBLE_BITS),
        ("autoclear_features", fields.autoclear, AUTOCLEAR_BITS),
    ]
}

fn members(fields: &Fields, file_size: u64) -> Vec<(&'static str, Json)> {
    let number = |number: Option<u64>| number.map_or(Json::Null, Json::Number);
    let mut members = vec![
        ("version", fields.version.into()),
        ("file_size", file_size.into()),
        ("cluster_size", number(1u64.checked_shl(fields.cluster_bits))),
        ("clusters", number(fields.cluster().map(|cluster| file_size / cluster))),
        ("disk_size", fields.size.into()),
        ("l1_size", fields.l1_size.into()),
        ("crypt_method", fields.crypt.into()),
        ("snapshots", fields.snapshots.into()),
        ("refcount_bits", number(fields.width().map(Width::bits))),
        ("header_length", number((fields.version == 3).then_some(fields.header_length.into()))),
    ];
    let mut names = Vec::new();
    for (name, bits, known) in features(fields) {
        members.push((name, bits.into()));
        names.extend(named_bits(bits, known).into_iter().map(|it| format!("{name} {it}").into()));
    }
    members.push(("features", Json::List(names)));
    members
}
