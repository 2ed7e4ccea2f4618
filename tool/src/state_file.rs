//! The file that keeps a check between two portions. It is never written in place:
//! what it is to keep goes to a file beside it, is flushed, and takes its name. So it
//! is whole whenever the power goes, and only a file that was looked at before, or
//! none, is replaced.

use std::fs::{self, File, Metadata, TryLockError};
use std::io::{self, ErrorKind, Read, Write};
use std::os::unix::fs::MetadataExt;
use std::path::{Path, PathBuf};

use crate::image_file::regular;
use crate::kept_check::LONGEST;
use crate::report::Failure;

pub struct StateFile {
    path: PathBuf,
    /// The file as it was found, locked against other runs.
    found: Option<File>,
}

impl StateFile {
    /// The file, and its bytes if there is one. The other files are those that the
    /// command has open.
    pub fn open(
        path: &Path,
        others: &[(&str, Metadata)],
    ) -> Result<(StateFile, Option<Vec<u8>>), Failure> {
        let state_file = |found| StateFile { path: path.into(), found };
        let Some(entry) = entry(path)? else {
            // Before any work is done for it.
            fs::metadata(directory(path)).map_err(|error| unmade(path, &error))?;
            return Ok((state_file(None), None));
        };
        if entry.is_symlink() {
            return failed("it is a symbolic link, which would be replaced: name the file itself");
        }
        regular(entry.file_type(), "what keeps a check")?;
        if let Some((what, _)) = others.iter().find(|other| is_same(&other.1, &entry)) {
            return failed(&format!("it is the {what} itself, and would be written over"));
        }
        let file = File::open(path)?;
        locked(&file)?;
        // It may have been replaced before the lock was had.
        let state_file = state_file(Some(file));
        if !state_file.is_in_place()? {
            return failed("another program replaced it just now: try again");
        }
        let bytes = state_file.found.as_ref().map(bytes).transpose()?;
        Ok((state_file, bytes))
    }

    /// Keeps these bytes in the place of what was found, or says why not; the file is
    /// then as it was.
    pub fn replace(&self, bytes: &[u8]) -> Result<(), String> {
        let (beside, file) = self.beside().map_err(|error| error.to_string())?;
        let placed = self.placed(&beside, file, bytes);
        if placed.is_err() {
            _ = fs::remove_file(&beside);
        }
        placed.map_err(|error| error.to_string())?;
        flushed(directory(&self.path)).map_err(|error| {
            format!(
                "flushing its folder failed: {error}. After a power cut it may be the older one"
            )
        })
    }

    /// A new file in the same folder.
    fn beside(&self) -> io::Result<(PathBuf, File)> {
        let mut name = self.path.file_name().unwrap_or_default().to_owned();
        name.push(format!(".new-{}", std::process::id()));
        let path = directory(&self.path).join(name);
        let file = File::create_new(&path).map_err(|error| {
            io::Error::new(error.kind(), format!("making {path:?} beside it: {error}"))
        })?;
        Ok((path, file))
    }

    fn placed(&self, beside: &Path, mut file: File, bytes: &[u8]) -> io::Result<()> {
        if let Some(found) = &self.found {
            // Who may read it is of use to some, and no reason to fail.
            _ = file.set_permissions(found.metadata()?.permissions());
        }
        file.write_all(bytes)?;
        file.sync_all()?;
        if !self.is_in_place()? {
            return Err(meanwhile());
        }
        self.named(beside)
    }

    /// Where none was found it is a link, which replaces nothing that was made since.
    fn named(&self, beside: &Path) -> io::Result<()> {
        if self.found.is_none() {
            match fs::hard_link(beside, &self.path) {
                Ok(()) => {
                    _ = fs::remove_file(beside);
                    return Ok(());
                }
                Err(error) if error.kind() == ErrorKind::AlreadyExists => return Err(meanwhile()),
                // A file system without links.
                Err(_) => {}
            }
        }
        fs::rename(beside, &self.path)
    }

    /// Is under its name what was found there?
    fn is_in_place(&self) -> io::Result<bool> {
        Ok(match (&self.found, entry(&self.path)?) {
            (None, None) => true,
            (Some(found), Some(entry)) => is_same(&found.metadata()?, &entry),
            _ => false,
        })
    }
}

/// What stands under a name, whatever it is.
fn entry(path: &Path) -> io::Result<Option<Metadata>> {
    match fs::symlink_metadata(path) {
        Err(error) if error.kind() == ErrorKind::NotFound => Ok(None),
        entry => entry.map(Some),
    }
}

fn directory(path: &Path) -> &Path {
    match path.parent() {
        Some(parent) if parent.as_os_str().is_empty() => Path::new("."),
        Some(parent) => parent,
        None => path,
    }
}

fn is_same(one: &Metadata, other: &Metadata) -> bool {
    (one.dev(), one.ino()) == (other.dev(), other.ino())
}

/// The lock saves work that would be done twice. Without one two runs leave what one
/// of them kept, so where there are no locks there is no need of them.
fn locked(file: &File) -> Result<(), Failure> {
    match file.try_lock() {
        Err(TryLockError::WouldBlock) => failed("another qstore is at work with it: try again"),
        _ => Ok(()),
    }
}

/// At most one byte more than can be good.
fn bytes(file: &File) -> io::Result<Vec<u8>> {
    let mut bytes = Vec::new();
    file.take(LONGEST as u64 + 1).read_to_end(&mut bytes)?;
    Ok(bytes)
}

/// Some file systems have no flush of a folder (EINVAL).
fn flushed(directory: &Path) -> io::Result<()> {
    match File::open(directory)?.sync_all() {
        Err(error) if error.raw_os_error() != Some(22) => Err(error),
        _ => Ok(()),
    }
}

fn meanwhile() -> io::Error {
    io::Error::other("another program made, replaced or removed it meanwhile")
}

fn unmade(path: &Path, error: &io::Error) -> Failure {
    Failure::Other(format!("it cannot be made in {:?}: {error}", directory(path)))
}

fn failed<T>(text: &str) -> Result<T, Failure> {
    Err(Failure::Other(text.into()))
}
