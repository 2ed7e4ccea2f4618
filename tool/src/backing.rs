//! The backing file: a raw disk under the image, which the command line names. It
//! is read whole, lent to every call of the core, and never written.
//!
//! The name that stands in the image is shown, and never opened by itself: whoever
//! made the image chose it, and could name any file of the machine.

use std::ffi::OsStr;
use std::fs::File;
use std::io;
use std::os::unix::ffi::OsStrExt;
use std::os::unix::fs::MetadataExt;
use std::path::{Path, PathBuf};
use std::sync::Arc;

use crate::disk::{unflushed, Disk};
use crate::extensions;
use crate::extents;
use crate::fields::{Fields, SECTOR};
use crate::image_file::{open_regular, Access};
use crate::lock;
use crate::report::Failure;
use crate::sentences::format;

/// What the command line says of it.
#[derive(Clone, Copy)]
pub struct Given<'a> {
    pub path: &'a Path,
    /// Is it a raw disk, however it begins?
    pub as_raw: bool,
}

/// The image that it is to lie under.
pub struct Above<'a> {
    pub access: Access,
    pub file: &'a File,
    pub bytes: &'a [u8],
}

/// What is lent to the core beside the image.
#[derive(Default)]
pub struct Backing {
    /// As the command line has it.
    pub path: Option<PathBuf>,
    /// Of the file.
    pub length: u64,
    /// Empty where no file is given, or where the image names none: only an image
    /// that is over a backing file is lent any bytes. All of them, unless the image
    /// is refused.
    pub bytes: Vec<u8>,
    /// Kept open for its locks.
    watch: Option<Watch>,
}

impl Backing {
    /// The file of this name, of which nothing is read yet.
    pub fn named(path: Option<&Path>) -> Backing {
        Backing { path: path.map(PathBuf::from), ..Backing::default() }
    }

    /// Reads the file for an image; what is to be noted.
    pub fn read(&mut self, given: Given, above: &Above) -> Result<Vec<String>, Failure> {
        self.read_for(given, above).map_err(|failure| match failure {
            Failure::Other(text) => {
                Failure::Other(format!("backing file {:?}: {text}", given.path))
            }
            other => other,
        })
    }

    fn read_for(&mut self, given: Given, above: &Above) -> Result<Vec<String>, Failure> {
        let (path, access) = (given.path, above.access);
        let file = open(path, access, above.file)?;
        self.length = file.length()?;
        match qcow2_core::backing_name(above.bytes) {
            Ok([]) => {
                let note = format!("the image names no backing file, so {path:?} is not used");
                return Ok(vec![note]);
            }
            // Refused, whatever lies under it: that there are bytes is enough.
            Err(_) => {
                self.bytes = head(&file)?;
                return Ok(Vec::new());
            }
            Ok(_) => {}
        }
        let mut notes = Vec::from_iter(judged(&head(&file)?, above.bytes, given)?);
        if access == Access::LookShared {
            notes.push(format!("{path:?} was read without a lock as well"));
        }
        if access == Access::Change {
            flushed(file.sync_data())?;
        }
        let watch = Watch::of(file)?;
        self.bytes = watch.read(access)?;
        self.watch = Some(watch);
        Ok(notes)
    }

    /// For a look, when all is done, at whether another program changed the file.
    pub fn watch(&self) -> Option<Watch> {
        self.watch.clone()
    }
}

/// Opened and locked, if it is another file than the image.
fn open(path: &Path, access: Access, image: &File) -> Result<File, Failure> {
    let access = if access == Access::Change { Access::Lend } else { access };
    let file = open_regular(path, access, "a backing file")?;
    let place = |file: &File| file.metadata().map(|metadata| (metadata.dev(), metadata.ino()));
    if place(&file)? == place(image)? {
        return Err(Failure::Other("it is the image itself, which cannot lie under it".into()));
    }
    lock::take(&file, access)?;
    Ok(file)
}

/// A file that is open, with its length and the time of its last change then.
#[derive(Clone)]
pub struct Watch {
    file: Arc<File>,
    stamp: [i64; 3],
}

impl Watch {
    fn of(file: File) -> io::Result<Watch> {
        Ok(Watch { stamp: stamp(&file)?, file: file.into() })
    }

    /// Has another program changed it since?
    pub fn has_changed(&self) -> io::Result<bool> {
        Ok(stamp(&self.file)? != self.stamp)
    }

    /// All bytes of the file, if it stays as it is.
    fn read(&self, access: Access) -> Result<Vec<u8>, Failure> {
        let bytes = extents::read(&*self.file, self.file.length()?, "reading the backing file")?;
        // Who shares it is told that it may be changing.
        if access != Access::LookShared && self.has_changed()? {
            let text = "another program changed it while it was being read";
            return Err(Failure::Other(text.into()));
        }
        Ok(bytes)
    }
}

fn stamp(file: &File) -> io::Result<[i64; 3]> {
    let metadata = file.metadata()?;
    Ok([metadata.len() as i64, metadata.mtime(), metadata.mtime_nsec()])
}

/// For a change the drive has to have what is read, as it has to of the image. A
/// file system that is never written has no flush (EINVAL, EROFS).
fn flushed(result: io::Result<()>) -> Result<(), Failure> {
    match result {
        Err(error) if !matches!(error.raw_os_error(), Some(22 | 30)) => {
            Err(Failure::Other(format!("not changed: {}", unflushed(&error))))
        }
        _ => Ok(()),
    }
}

/// The first bytes.
fn head<D: Disk>(disk: &D) -> io::Result<Vec<u8>> {
    let mut head = vec![0; disk.length()?.min(SECTOR) as usize];
    disk.load(0, &mut head)?;
    Ok(head)
}

/// May a file that begins so be taken for a raw disk? The bytes of an image of
/// another format are not what its guest reads, and a write would copy some of them
/// for good. What is to be noted, or why not.
fn judged(head: &[u8], image: &[u8], given: Given) -> Result<Option<String>, Failure> {
    let said = Fields::read(image).and_then(|fields| extensions::backing_format(image, &fields));
    let words = match said {
        Some(b"raw") => return Ok(None),
        Some(said) => {
            format!("the image says that its backing file has the format {}", shown(said))
        }
        None => "the image does not say which format its backing file has".into(),
    };
    match format::of(head) {
        format if format != "raw" && !given.as_raw => Err(Failure::Other(format!(
            "it begins as an image of the format {format} does, and {words}: taken for a raw disk \
             it would give other bytes than the guest's.\n  Give a raw disk, which qemu makes of \
             an image with convert -O raw; or add --as-raw if it is one, whose guest put these \
             bytes there."
        ))),
        _ if said.is_none() => Ok(None),
        _ => Ok(Some(format!("{words}; {:?} is taken for a raw disk all the same", given.path))),
    }
}

/// The name of the backing file as it stands in the image: the core tells where,
/// or, of an image that it refuses for something else, the header's fields.
pub fn name<'a>(image: &'a [u8], fields: &Fields) -> Option<&'a [u8]> {
    match qcow2_core::backing_name(image) {
        Ok(name) => Some(name).filter(|name| !name.is_empty()),
        Err(19) => None,
        Err(_) => fields.backing_name(image),
    }
}

/// Bytes that whoever made the image chose, for a terminal: in quotes, with no
/// sign in them that it would obey.
pub fn shown(bytes: &[u8]) -> String {
    format!("{:?}", OsStr::from_bytes(bytes))
}

#[cfg(test)]
mod tests {
    use std::fs;

    use super::*;

    #[test]
    fn nothing_that_a_terminal_obeys() {
        assert_eq!(shown(b"base.raw"), "\"base.raw\"");
        assert_eq!(shown(b"\x1b[2J\x07\r\n\t\0\x7f"), r#""\u{1b}[2J\u{7}\r\n\t\0\u{7f}""#);
        assert_eq!(shown(b"\xff\"\\xff\xc3"), r#""\xFF\"\\xff\xC3""#);
        // C1 controls, a right-to-left override, and letters that stay.
        let text = "\u{9b}2J\u{202e}war.größe";
        assert_eq!(shown(text.as_bytes()), r#""\u{9b}2J\u{202e}war.größe""#);
        let any: Vec<u8> = (0..=255).cycle().take(1023).collect();
        assert!(shown(&any).chars().all(|letter| !letter.is_control()));
    }

    /// An image over a backing file of a format, if that is said.
    fn image(format: &[u8]) -> Vec<u8> {
        let mut image = vec![0; 512];
        (image[7], image[15], image[19], image[23], image[103]) = (3, 200, 1, 9, 104);
        if !format.is_empty() {
            image[104..108].copy_from_slice(&extensions::BACKING_FORMAT.to_be_bytes());
            image[111] = format.len() as u8;
            image[112..112 + format.len()].copy_from_slice(format);
        }
        image
    }

    #[test]
    fn formats() {
        let qcow2 = b"QFI\xfb\0\0\0\x03";
        let said = |head: &[u8], format: &[u8], as_raw| {
            let given = Given { path: Path::new("b"), as_raw };
            match judged(head, &image(format), given) {
                Ok(note) => note.unwrap_or_default(),
                Err(Failure::Other(text)) => format!("failed: {text}"),
                Err(_) => unreachable!(),
            }
        };
        for head in [&b""[..], b"\0", &[0x55; 512], qcow2, b"KDMV", b"QED\0"] {
            assert_eq!(said(head, b"raw", false), "");
        }
        assert_eq!(said(b"boot", b"", false), "");
        assert_eq!(said(qcow2, b"", true), "");
        let text = said(b"boot", b"qcow2", false);
        assert!(text.contains("the format \"qcow2\"; \"b\" is taken for a raw disk"), "{text}");
        assert!(said(qcow2, b"qcow2", true).contains("is taken for a raw disk all the same"));
        for (head, format) in
            [(&qcow2[..], ""), (qcow2, "qcow2"), (b"KDMV", "qcow2"), (b"KDMV", "")]
        {
            let text = said(head, format.as_bytes(), false);
            assert!(text.starts_with("failed: it begins as an image of the format "), "{text}");
            assert!(text.contains("--as-raw") && text.contains("convert -O raw"), "{text}");
        }
        let text = said(qcow2, b"\x1b[2J", false);
        assert!(text.contains("has the format \"\\u{1b}[2J\": taken"), "{text}");
    }

    /// EIO, and what a file system that is never written answers.
    #[test]
    fn flushes() {
        let failed = |number| flushed(Err(io::Error::from_raw_os_error(number)));
        assert!(failed(22).is_ok() && failed(30).is_ok() && flushed(Ok(())).is_ok());
        let Err(Failure::Other(text)) = failed(5) else { panic!("flushed") };
        assert!(text.starts_with("not changed: flushing failed: "), "{text}");
    }

    #[test]
    fn changes_are_seen() {
        let path = std::env::temp_dir().join(format!("qstore-watch-{}", std::process::id()));
        fs::write(&path, [1; 1000]).unwrap();
        let watch = || Watch::of(File::open(&path).unwrap()).unwrap();
        let first = watch();
        assert!(!first.has_changed().unwrap());
        assert!(first.read(Access::Look).is_ok_and(|bytes| bytes == [1; 1000]));
        fs::OpenOptions::new().write(true).open(&path).unwrap().set_len(999).unwrap();
        assert!(first.has_changed().unwrap());
        let Err(Failure::Other(text)) = first.read(Access::Look) else { panic!("read") };
        assert_eq!(text, "another program changed it while it was being read");
        assert!(first.read(Access::LookShared).is_ok());
        // The same length, at another time.
        let second = watch();
        std::thread::sleep(std::time::Duration::from_millis(20));
        fs::write(&path, [2; 999]).unwrap();
        assert!(second.has_changed().unwrap() && second.read(Access::Change).is_err());
        fs::remove_file(&path).unwrap();
    }
}
