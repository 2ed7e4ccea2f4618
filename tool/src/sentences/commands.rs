//! Every command that a sentence advises. None of them can lose a byte; each
//! is run by a test, which `interop/advised.tsv` names.

use std::path::Path;

/// What an image that qemu makes anew is like, so that it is accepted.
const NEW_OPTIONS: &str = "compat=0.10,cluster_size=65536";
pub const NEW_CLUSTER: u64 = 65_536;
/// How a snapshot is given up. It loses the snapshot's bytes, so that it is told
/// in words, and not as a command to run.
pub const DELETE: &str = "qemu-img snapshot -d";
/// What stands before and after each command.
pub const MARK: char = '\x60';

/// The path as a word of a shell command.
fn word(text: &str) -> String {
    // Else it would be taken for an option, or by qemu for a protocol.
    let other = text.starts_with('-') || text.split('/').next().is_some_and(|it| it.contains(':'));
    quoted(format!("{}{text}", if other { "./" } else { "" }))
}

/// The text as a word of a shell command.
fn quoted(text: String) -> String {
    let safe = |letter: char| letter.is_ascii_alphanumeric() || "/._-+=:,@%".contains(letter);
    if !text.is_empty() && text.chars().all(safe) {
        return text;
    }
    format!("'{}'", text.replace('\'', "'\\''"))
}

/// The image as qemu's options, which commas part, with what is to lie under it:
/// then qemu does not open what the image names.
fn options(image: &str, backing: Option<&str>) -> String {
    let file = |whose: &str, path: &str| {
        format!("{whose}file.driver=file,{whose}file.filename={}", path.replace(',', ",,"))
    };
    let beneath = backing.map_or(String::new(), |backing| {
        format!(",backing.driver=raw,{}", file("backing.", backing))
    });
    quoted(format!("driver=qcow2,{}{beneath}", file("", image)))
}

/// A name beside the image that no file has.
fn new_name(image: &str) -> String {
    let mut name = format!("{image}.new");
    let mut number = 2;
    while Path::new(&name).symlink_metadata().is_ok() {
        name = format!("{image}.new{number}");
        number += 1;
    }
    name
}

/// The commands about one image.
pub struct Commands {
    image: String,
    new: String,
    /// Both as qemu's options, where the image is over a backing file.
    over: Option<[String; 2]>,
    /// How qstore is told of that file.
    beneath: String,
}

impl Commands {
    /// `backing` is the file that is to lie under the image.
    pub fn of(path: &Path, backing: Option<&Path>) -> Commands {
        // Advice with a name that cannot be printed is not shown.
        let text = |path: &Path| path.to_str().unwrap_or("IMAGE").to_owned();
        let (image, backing) = (text(path), backing.map(text));
        let new = new_name(&image);
        let beneath = backing.as_deref().map(|file| format!(" --backing {}", word(file)));
        let over = backing.map(|backing| [options(&image, Some(&backing)), options(&new, None)]);
        Commands {
            image: word(&image),
            new: word(&new),
            over,
            beneath: beneath.unwrap_or_default(),
        }
    }

    /// How qemu is told what the image is, and which it is.
    fn source(&self, format: &str) -> (String, &str) {
        match &self.over {
            Some([image, _]) => ("--image-opts".into(), image),
            None => (format!("-f {format}"), &self.image),
        }
    }

    /// Never shortens.
    pub fn pad(&self, cluster: u64) -> String {
        format!("`truncate -s %{cluster} {}`", self.image)
    }

    /// Never shortens.
    pub fn append(&self, bytes: u64) -> String {
        format!("`truncate -s +{bytes} {}`", self.image)
    }

    /// For a tail that was looked at: zeros that nothing refers to.
    pub fn shorten(&self, length: u64) -> String {
        format!("`truncate -s {length} {}`", self.image)
    }

    /// One byte, which `printf p` would set again.
    pub fn set_length_back(&self) -> String {
        format!("`printf h | dd of={} bs=1 seek=103 conv=notrunc`", self.image)
    }

    /// The same with an extension of no bytes in the eight that are no longer the
    /// header's (an empty list of feature names), so that those behind it are seen
    /// as before: without its format a backing file would be guessed at.
    pub fn set_length_back_seen(&self) -> String {
        format!(r"`printf 'hh\003\370W' | dd of={} bs=1 seek=103 conv=notrunc`", self.image)
    }

    /// Version 2 to 3, in place.
    pub fn upgrade(&self) -> String {
        let (how, image) = self.source("qcow2");
        format!("`qemu-img amend {how} -o compat=1.1 {image}`")
    }

    /// A disk that qemu takes for shorter than it is; resize shortens none.
    pub fn lengthen_disk(&self, size: u64) -> String {
        format!("`qemu-img resize -f qcow2 {} {size}`", self.image)
    }

    pub fn check(&self) -> String {
        format!("`qstore check {}`", self.image)
    }

    /// Never shortens.
    pub fn extend(&self, bytes: u64) -> String {
        format!("`qstore extend {} {bytes}{}`", self.image, self.beneath)
    }

    /// A copy as a new file, of whole clusters and with room. All is one command:
    /// what a copy that failed has left must not be made to look whole.
    pub fn convert(&self, format: &str, room: u64) -> String {
        format!("`qemu-img convert {}`", self.to_new(format, room))
    }

    /// The same with zeros for what cannot be read.
    pub fn salvage(&self) -> String {
        format!("`qemu-img convert --salvage {}`", self.to_new("qcow2", 0))
    }

    fn to_new(&self, format: &str, room: u64) -> String {
        let ((how, image), new) = (self.source(format), &self.new);
        let more = match room {
            0 => String::new(),
            room => format!(" && truncate -s +{room} {new}"),
        };
        format!(
            "{how} -O qcow2 -o {NEW_OPTIONS} {image} {new} && truncate -s %{NEW_CLUSTER} {new}{more}"
        )
    }

    pub fn compare(&self, format: &str) -> String {
        let (how, both) = match &self.over {
            Some([image, new]) => ("--image-opts".into(), [image, new]),
            None => (format!("-f {format} -F qcow2"), [&self.image, &self.new]),
        };
        format!("`qemu-img compare {how} {} {}`", both[0], both[1])
    }
}

#[cfg(test)]
mod tests {
    use super::*;

    #[test]
    fn words_of_a_shell() {
        assert_eq!(word("a/b-1.qcow2"), "a/b-1.qcow2");
        assert_eq!(word("my disk"), "'my disk'");
        assert_eq!(word("it's"), "'it'\\''s'");
        assert_eq!((word("-r"), word("nbd:x")), ("./-r".into(), "./nbd:x".into()));
        assert_eq!(word(""), "''");
    }

    #[test]
    fn options_of_qemu() {
        assert_eq!(options("a", None), "driver=qcow2,file.driver=file,file.filename=a");
        let both = options("a,b", Some("nbd:c d"));
        let wanted = "'driver=qcow2,file.driver=file,file.filename=a,,b,backing.driver=raw,\
                      backing.file.driver=file,backing.file.filename=nbd:c d'";
        assert_eq!(both, wanted);
        // A name cannot bring in options of its own.
        let named = options("a", Some("b,file.filename=c"));
        assert!(named.ends_with(",backing.file.filename=b,,file.filename=c"), "{named}");
    }

    #[test]
    fn new_names_are_free() {
        let folder = std::env::temp_dir().join(format!("qstore-names-{}", std::process::id()));
        std::fs::create_dir_all(&folder).unwrap();
        let image = folder.join("a").to_str().unwrap().to_owned();
        for number in ["", "2", "3"] {
            let name = new_name(&image);
            assert_eq!(name, format!("{image}.new{number}"));
            std::fs::write(name, "").unwrap();
        }
        std::fs::remove_dir_all(&folder).unwrap();
    }
}
