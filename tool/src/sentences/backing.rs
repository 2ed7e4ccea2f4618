//! Numbers 19 and 20: the backing file.

use super::request::place;
use super::{joined, Remedy, Request, Subject};
use crate::backing::{name, shown};
use crate::extensions;
use crate::fields::{Fields, NAME};
use crate::layout::Layout;

/// Number 19: its name, or that there are none of its bytes.
pub fn wrong(subject: &Subject) -> (String, Remedy) {
    let Some(fields) = Fields::read(subject.bytes) else {
        return ("the name of the backing file is wrong".into(), Remedy::NewImage(String::new()));
    };
    if let Some(found) = wrong_name(&fields) {
        return found;
    }
    match &subject.backing.path {
        Some(path) => (
            format!("the backing file that is given, {path:?}, has no bytes, and counts as none"),
            Remedy::Other(
                "Give the file that the image was made over. If that one is to be empty, a file \
                 of 512 zeros in its place reads the same."
                    .into(),
            ),
        ),
        None => {
            let named = name(subject.bytes, &fields).map_or(String::new(), shown);
            let what = format!("the image is over a backing file, {named}, and none is given");
            (what, Remedy::Other(joined(GIVE, &format(subject, &fields))))
        }
    }
}

const GIVE: &str = "Give it with --backing FILE: a raw disk, which is read and never written. The \
                    name is not opened by itself, since whoever made the image chose it: an image \
                    from a stranger could name any file of this machine.";

/// A name that is not accepted; qemu refuses it too, but for one of no byte.
fn wrong_name(fields: &Fields) -> Option<(String, Remedy)> {
    let (at, length) = (fields.backing, fields.backing_length);
    let cluster = fields.cluster().unwrap_or(512);
    if length == 0 {
        let text = "To qemu this is an image without a backing file, so what is not allocated is \
                    zeros in the new one: if it was made over a file, keep the old one for good.";
        let what = "the image is over a backing file whose name has no byte".into();
        return Some((what, Remedy::NewImage(text.into())));
    }
    let what = if !NAME.contains(&length) {
        let most = NAME.end();
        format!("the name of the backing file has {length} bytes; at most {most} are accepted")
    } else if cluster.checked_sub(at).is_none_or(|room| room < length.into()) {
        format!(
            "the name of the backing file, {length} bytes at {at}, does not lie inside the first \
             cluster of {cluster} bytes"
        )
    } else {
        return None;
    };
    Some((what, Remedy::NewImage(String::new())))
}

/// What the image says of the format, if that is another than raw.
fn format(subject: &Subject, fields: &Fields) -> String {
    match extensions::backing_format(subject.bytes, fields) {
        None | Some(b"raw") => String::new(),
        Some(format) => format!(
            "The image says that the file has the format {}: have qemu make a raw disk of it \
             (convert -O raw), and give that.",
            shown(format)
        ),
    }
}

/// Number 20: a discard that would let it show.
pub fn shows(subject: &Subject, request: Request) -> (String, Remedy) {
    let Some(layout) = Layout::of(subject.bytes) else {
        return ("the header is too short".into(), Remedy::Other("Leave it as it is.".into()));
    };
    let place = place(&layout, request);
    if layout.version == 2 {
        let what = format!(
            "{place} would show the backing file after a discard: version 2 has no mark for zeros; \
             nothing was changed"
        );
        let text = format!(
            "Write zeros there in place of it; or make the image one of version 3, which changes \
             no guest byte: {}. Then ask again; there may be a header_length to set back.",
            subject.commands().upgrade()
        );
        return (what, Remedy::Other(text));
    }
    let what = format!(
        "{place} would show the backing file after a discard: there is no L2 table that could have \
         a mark for zeros; nothing was changed"
    );
    (what, Remedy::Other(made_by_writing(&layout, request)))
}

/// A write makes the table.
fn made_by_writing(layout: &Layout, request: Request) -> String {
    let write = "Write zeros there in place of it.";
    let Request::Discard { cluster } = request else { return write.into() };
    let first = cluster / layout.per_table() * layout.per_table();
    let (start, length) = (u128::from(first) << layout.bits, layout.per_table() << layout.bits);
    format!(
        "{write} Or write one zero there, which makes the table for the {length} bytes from guest \
         offset {start} on, and ask again: what lies there can then be discarded."
    )
}
