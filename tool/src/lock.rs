//! qemu's locks on an image file: whoever uses a permission shares a lock on one
//! byte of the file, and whoever does not let others have it, on another. Each
//! first takes its own locks and then looks whether anybody has the opposite
//! ones, so of two that exclude each other at least one finds the other.

use std::fs::File;
use std::io;

use qstore_sys::Holder;

use crate::image_file::Access;
use crate::report::Failure;

/// qemu's permissions, by their numbers.
const NAMES: [&str; 4] = ["consistent read", "write", "write unchanged", "resize"];
const READ: u32 = 0;
const WRITE: u32 = 1;
const WRITE_UNCHANGED: u32 = 2;
const RESIZE: u32 = 3;

/// The byte for using a permission, and that for not sharing it.
const USED: u32 = 100;
const KEPT: u32 = 200;

/// What stands against a command.
enum Conflict {
    /// Somebody uses a permission that the command keeps to itself.
    Used(u32),
    /// Somebody keeps to himself a permission that the command uses.
    Kept(u32),
    /// A process has a lock of a kind that is not qemu's.
    Process(i32),
}

/// The permissions that an access uses, and those that it keeps to itself; the
/// latter in the order in which they tell most.
fn permissions(access: Access) -> (&'static [u32], &'static [u32]) {
    match access {
        Access::Change => (&[READ, WRITE], &[WRITE, RESIZE, WRITE_UNCHANGED, READ]),
        Access::Look | Access::Lend => (&[READ], &[WRITE, RESIZE]),
        Access::LookShared => (&[], &[]),
    }
}

/// Takes the locks of the access, which the file keeps while it is open, or says
/// why not.
pub fn take(file: &File, access: Access) -> Result<(), Failure> {
    match conflict(file, access) {
        Ok(None) => Ok(()),
        Ok(Some(conflict)) => Err(Failure::Other(held(conflict, access))),
        Err(error) => Err(Failure::Other(without(&error, access))),
    }
}

fn conflict(file: &File, access: Access) -> io::Result<Option<Conflict>> {
    let (uses, keeps) = permissions(access);
    for byte in uses.iter().map(|p| USED + p).chain(keeps.iter().map(|p| KEPT + p)) {
        qstore_sys::share(file, byte)?;
    }
    let used = keeps.iter().map(|&permission| (USED, permission));
    for (first, permission) in used.chain(uses.iter().map(|&permission| (KEPT, permission))) {
        match qstore_sys::holder(file, first + permission)? {
            None => {}
            Some(Holder::Process(number)) => return Ok(Some(Conflict::Process(number))),
            Some(Holder::File) if first == USED => return Ok(Some(Conflict::Used(permission))),
            Some(Holder::File) => return Ok(Some(Conflict::Kept(permission))),
        }
    }
    Ok(None)
}

/// A conflict in words, with what to do.
fn held(conflict: Conflict, access: Access) -> String {
    let what = match conflict {
        Conflict::Used(permission @ (WRITE | RESIZE)) => {
            format!("has it open for writing (permission '{}')", NAMES[permission as usize])
        }
        Conflict::Used(permission) => {
            let name = NAMES[permission as usize];
            format!("has it open (permission '{name}'), and a change shares it with nobody")
        }
        Conflict::Kept(permission) => {
            let name = NAMES[permission as usize];
            format!("has it open and does not share the permission '{name}'")
        }
        Conflict::Process(number) => {
            format!("has locked it: process {number}, in a way that is not qemu's")
        }
    };
    let instead = match access {
        Access::Change | Access::Lend => ", then try again",
        Access::Look | Access::LookShared => {
            ", or look all the same with --share: what is shown may then be stale or wrong"
        }
    };
    format!("another program {what}.\n  End that program first{instead}.")
}

/// A file that takes no locks, in words, with what to do.
fn without(error: &io::Error, access: Access) -> String {
    let kind = error.kind();
    if matches!(kind, io::ErrorKind::WouldBlock | io::ErrorKind::PermissionDenied) {
        return "another program has locked it, in a way that is not qemu's.\n  End that program \
                first."
            .into();
    }
    let instead = match access {
        Access::Change => "Copy it to a file system that has them, and change it there",
        Access::Lend => "Copy it to a file system that has them, and give that copy",
        Access::Look | Access::LookShared => {
            "Copy it to a file system that has them, or look without them with --share"
        }
    };
    format!(
        "its file system has no locks of the kind that qemu takes ({error}), so nothing tells \
         whether another program has it open.\n  {instead}."
    )
}

#[cfg(test)]
mod tests {
    use super::*;

    #[test]
    fn conflicts_in_words() {
        let text = held(Conflict::Used(WRITE), Access::Look);
        assert!(text.contains("open for writing (permission 'write')") && text.contains("--share"));
        let text = held(Conflict::Used(READ), Access::Change);
        assert!(text.contains("'consistent read'), and a change shares it with nobody"));
        assert!(text.contains("End that program first") && !text.contains("--share"));
        let text = held(Conflict::Used(WRITE), Access::Lend);
        assert!(text.contains("End that program first, then") && !text.contains("--share"));
        let text = held(Conflict::Process(42), Access::Look);
        assert!(
            text.contains("process 42, in a way that is not qemu's") && text.contains("--share")
        );
        let text = held(Conflict::Kept(READ), Access::Look);
        assert!(text.contains("does not share the permission 'consistent read'"));
    }

    /// EINVAL, ENOLCK, ENOSYS, EOPNOTSUPP; and EACCES, EAGAIN.
    #[test]
    fn files_without_locks() {
        for number in [22, 37, 38, 95] {
            let error = io::Error::from_raw_os_error(number);
            let text = without(&error, Access::Look);
            assert!(text.contains("has no locks") && text.contains("--share"), "{text}");
            assert!(text.contains(&format!("(os error {number})")));
            assert!(!without(&error, Access::Change).contains("--share"));
            assert!(!without(&error, Access::Lend).contains("--share"));
        }
        for number in [11, 13] {
            let text = without(&io::Error::from_raw_os_error(number), Access::Look);
            assert!(text.starts_with("another program has locked it"), "{text}");
        }
    }
}
