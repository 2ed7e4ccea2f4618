//! A new image in place of one that is refused or damaged: how it is made, what
//! it lacks, and when none can be made.

use super::commands::Commands;
use super::features::AUTOCLEAR_BITS;
use super::{format, joined, qemu, tail, Subject};
use crate::damage;
use crate::extensions;
use crate::fields::{Fields, SECTOR};
use crate::findings::Fault;
use crate::layout::Layout;

/// What the entries of the tables say of a copy.
enum Tables {
    Good,
    Bad,
    CutShort,
    NotSeen,
}

/// A new image in words.
pub struct NewImage {
    /// What is to be done to the old one before, if anything.
    pub before: String,
    pub text: String,
}

impl NewImage {
    pub fn whole(&self) -> String {
        match self.before.is_empty() {
            true => self.text.clone(),
            false => joined(&self.before, &self.text),
        }
    }
}

/// How a new image is made, with so many bytes of room; or why none can be.
pub fn new_image(subject: &Subject, room: u64) -> Result<NewImage, String> {
    let commands = subject.commands();
    let Some(fields) = format::fields(subject.bytes) else {
        let text = usual(&commands, format::of(subject.bytes), room, "");
        return Ok(NewImage { before: String::new(), text });
    };
    if let Some(reason) = qemu::refuses(subject, &fields) {
        return Err(reason);
    }
    if fields.is_over_backing() && subject.backing.path.is_none() {
        return Err(UNNAMED.into());
    }
    let tables = tables(subject, &fields);
    let more = match tables {
        Tables::Good | Tables::Bad => "",
        Tables::CutShort => tail::REST,
        Tables::NotSeen => NOT_SEEN,
    };
    let salvaged = matches!(tables, Tables::Bad | Tables::CutShort);
    // A file with bad entries is not to be written to.
    let before = if salvaged { None } else { lengthened(subject, &fields) };
    let lacks = lacks(subject, &fields, before.is_none());
    let text = match salvaged {
        true => joined(&salvage(&commands), &lacks),
        false => usual(&commands, "qcow2", room, &lacks),
    };
    let text = joined(&joined(&text, more), &needs(&fields));
    Ok(NewImage { before: before.unwrap_or_default(), text })
}

/// The commands name the backing file that is given: qemu is not to open what the
/// image names, which could be any file.
const UNNAMED: &str = "A new image is made by qemu, which would open the file that the image \
                       names, whichever it is. Ask again with --backing FILE, and the commands \
                       name that one.";

const NOT_SEEN: &str = "The entries of its tables were not looked at: if they are damaged, the \
                        comparison does not show it.";

fn usual(commands: &Commands, format: &str, room: u64, lacks: &str) -> String {
    let (convert, compare) = (commands.convert(format, room), commands.compare(format));
    let whole = format!("Make a new image, of whole clusters: {convert}.");
    match lacks {
        "" => format!("{whole} Keep the old one until {compare} finds no difference."),
        _ => format!("{whole} Whether its disk is the same: {compare}. {lacks}"),
    }
}

/// Where entries are bad, the old image and the new one are read by the same
/// wrong entries.
fn salvage(commands: &Commands) -> String {
    format!(
        "Keep this file for good: entries of its tables are bad, so bytes that are still in it may \
         be lacking in any copy, and no comparison shows that, since both are read by the same \
         entries. A new image with what qemu can still read, the rest zeros: {}.",
        commands.salvage()
    )
}

fn tables(subject: &Subject, fields: &Fields) -> Tables {
    let cluster = fields.cluster().unwrap_or(512);
    // Of a file that is too long only the header is at hand.
    if (subject.bytes.len() as u64) < subject.length {
        return Tables::NotSeen;
    }
    match tail::disk_refers_past(subject.bytes, subject.length.next_multiple_of(cluster)) {
        None => Tables::NotSeen,
        Some(true) => Tables::CutShort,
        Some(false) if has_bad(subject.bytes) => Tables::Bad,
        Some(false) => Tables::Good,
    }
}

/// Entries of the disk's tables that are bad to any reader. Those past the end are
/// looked for before.
fn has_bad(bytes: &[u8]) -> bool {
    let counts = |fault: Fault| !matches!(fault, Fault::Compressed | Fault::PastEnd);
    Layout::of(bytes).is_some_and(|layout| damage::any_bad(&layout, bytes, counts))
}

/// To qemu a disk has whole sectors, so a copy lacks the bytes of a part of one.
fn lengthened(subject: &Subject, fields: &Fields) -> Option<String> {
    let rest = fields.size % SECTOR;
    if rest == 0 || !fields.is_plain() {
        return None;
    }
    let size = fields.size.checked_next_multiple_of(SECTOR)?;
    Some(format!(
        "First lengthen the disk to whole sectors, which keeps every guest byte, since a copy lacks \
         its last {rest} bytes else: {}.",
        subject.commands().lengthen_disk(size)
    ))
}

/// What the new one lacks.
fn lacks(subject: &Subject, fields: &Fields, sectors: bool) -> String {
    let mut lacks: Vec<String> = Vec::new();
    if fields.snapshots != 0 {
        lacks.push("the snapshots (it has the active disk alone)".into());
    }
    if fields.autoclear & 1 != 0 || extensions::has_bitmaps(subject.bytes, fields) {
        lacks.push("the persistent bitmaps".into());
    }
    if fields.autoclear >> AUTOCLEAR_BITS.len() != 0 {
        lacks.push("what the unknown autoclear bits stand for".into());
    }
    let rest = fields.size % SECTOR;
    if sectors && rest != 0 {
        lacks.push(format!("the disk's last {rest} bytes, which are no whole sector"));
    }
    match lacks.is_empty() {
        true => String::new(),
        false => format!("The new one lacks {}: keep the old one for them.", lacks.join(" and ")),
    }
}

/// Other files that qemu reads for it. The name of a data file stands in the image,
/// whoever made it.
fn needs(fields: &Fields) -> String {
    let backing = "It has the backing file's bytes in it, and no backing file.";
    let data = "For it qemu opens the file that the image names as its data file: an image from a \
                stranger could name any file of yours.";
    let needs = [(fields.is_over_backing(), backing), (fields.incompatible & 4 != 0, data)];
    needs.into_iter().filter(|need| need.0).map(|need| need.1).collect::<Vec<_>>().join(" ")
}
