//! Image files: opened, locked, flushed and read whole.

use std::fs::{self, File, FileType, OpenOptions};
use std::os::unix::fs::FileTypeExt;
use std::path::{Path, PathBuf};

use qcow2_core::Verdict;

use crate::backing::{Above, Backing, Given};
use crate::disk::{unflushed, Disk};
use crate::extents;
use crate::fields::{Fields, MAX_IMAGE};
use crate::lock;
use crate::mended;
use crate::report::Failure;
use crate::sentences::{Request, Subject};

/// What a command does with a file.
#[derive(Clone, Copy, PartialEq)]
pub enum Access {
    Look,
    /// Look although another program may be changing it.
    LookShared,
    Change,
    /// Look at the backing file of an image that is changed.
    Lend,
}

/// How the bytes of a file are seen in memory.
#[derive(Clone, Copy, PartialEq)]
pub enum View {
    AsItIs,
    /// For looking alone.
    AsIfMended,
    /// With zeros up to this length, where the file is shorter.
    Lengthened(u64),
}

pub struct ImageFile<D = File> {
    pub path: PathBuf,
    pub file: D,
    pub bytes: Vec<u8>,
    pub backing: Backing,
    /// What the user has to know of how the bytes were come by.
    pub notes: Vec<String>,
    /// The file as it is, where the bytes are as if mended or lengthened.
    pub own: Own,
}

/// What another view changes.
#[derive(Clone, Copy, PartialEq)]
pub struct Own {
    pub length: u64,
    pub header_length: u32,
}

impl Own {
    pub fn of(bytes: &[u8], length: u64) -> Own {
        let header_length = Fields::read(bytes).map_or(0, |fields| fields.header_length);
        Own { length, header_length }
    }
}

impl ImageFile {
    /// Reads the image, and the backing file if one is given for it.
    pub fn open(
        path: &Path,
        access: Access,
        view: View,
        given: Option<Given>,
    ) -> Result<ImageFile, Failure> {
        let file = open_regular(path, access, "an image")?;
        lock::take(&file, access)?;
        let beneath = given.map(|given| given.path);
        let mut image = ImageFile::read(path, file, access, view, beneath)?;
        if let Some(given) = given {
            // What is yet to be taken in may make an image of another number.
            let seen = match view {
                View::Lengthened(_) => &image.bytes[..image.own.length as usize],
                _ => &image.bytes,
            };
            let above = Above { access, file: &image.file, bytes: seen };
            image.notes.extend(image.backing.read(given, &above)?);
        }
        Ok(image)
    }
}

/// Opens what has to be a regular file.
pub fn open_regular(path: &Path, access: Access, what: &str) -> Result<File, Failure> {
    // Before it is opened: opening a FIFO waits, and a device may do more.
    regular(fs::metadata(path)?.file_type(), what)?;
    let change = access == Access::Change;
    let file = OpenOptions::new().read(true).write(change).open(path)?;
    regular(file.metadata()?.file_type(), what)?;
    Ok(file)
}

impl<D: Disk> ImageFile<D> {
    /// Reads the image from a disk that is locked. For a change it is flushed
    /// first: a program that was killed may have left the system's cache ahead
    /// of the drive, and stores that follow from what was judged there must not
    /// reach the drive before it. Of the backing file nothing is read here.
    pub fn read(
        path: &Path,
        mut disk: D,
        access: Access,
        view: View,
        backing: Option<&Path>,
    ) -> Result<ImageFile<D>, Failure> {
        let backing = Backing::named(backing);
        if access == Access::Change {
            disk.flush()
                .map_err(|error| Failure::Other(format!("not changed: {}", unflushed(&error))))?;
        }
        let length = disk.length()?;
        if length > MAX_IMAGE {
            return Err(too_long(path, &disk, length, &backing)?);
        }
        let whole = match view {
            View::Lengthened(whole @ ..=MAX_IMAGE) => length.max(whole),
            _ => length,
        };
        let mut bytes = extents::read_longer(&disk, length, whole, "reading the image")?;
        let own = Own::of(&bytes, length);
        let mut notes = shared(access);
        if view == View::AsIfMended {
            notes.extend(mended::mend(&mut bytes));
        }
        Ok(ImageFile { path: path.into(), file: disk, bytes, backing, notes, own })
    }
}

impl<D> ImageFile<D> {
    /// Were the bytes mended in memory?
    pub fn is_mended(&self) -> bool {
        self.own != Own::of(&self.bytes, self.bytes.len() as u64)
    }

    /// What a refusal is about.
    pub fn subject(&self) -> Subject<'_> {
        Subject::of(&self.path, &self.bytes, &self.backing)
    }

    /// The failure for a number that the core gave.
    pub fn refused(&self, number: u32, request: Request) -> Failure {
        self.subject().refused(number, request)
    }
}

const SHARED: &str =
    "looked at without a lock: another program may be changing the image, so what \
                      is shown may be stale or wrong";

fn shared(access: Access) -> Vec<String> {
    let shared = (access == Access::LookShared).then(|| SHARED.into());
    shared.into_iter().collect()
}

/// The notes on a file that is too long to be read.
pub fn notes_unread(access: Access, view: View) -> Vec<String> {
    let mut notes = shared(access);
    if view == View::AsIfMended {
        notes.push("as it is: --as-if-mended mends no file of this length".into());
    }
    notes
}

pub fn regular(kind: FileType, wanted: &str) -> Result<(), Failure> {
    let what = if kind.is_file() {
        return Ok(());
    } else if kind.is_dir() {
        "a folder"
    } else if kind.is_fifo() {
        "a FIFO"
    } else if kind.is_block_device() || kind.is_char_device() {
        "a device"
    } else {
        "a socket"
    };
    Err(Failure::Other(format!("it is {what}, and {wanted} has to be a regular file")))
}

/// A file above the limit is judged by its first 512 bytes: the core gives 1
/// to 4 by them alone, and 5 is next.
fn too_long<D: Disk>(
    path: &Path,
    disk: &D,
    length: u64,
    backing: &Backing,
) -> Result<Failure, Failure> {
    let mut head = [0; 512];
    disk.load(0, &mut head)?;
    let number = match qcow2_core::check(&head, &[], &mut [0]) {
        Verdict::Refused(number @ 1..=4) => number,
        _ => 5,
    };
    let subject = Subject { length, ..Subject::of(path, &head, backing) };
    Ok(subject.refused(number, Request::Look))
}
