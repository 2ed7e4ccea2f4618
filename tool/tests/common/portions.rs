//! Checks in portions.

use std::fs;
use std::os::unix::fs::MetadataExt;
use std::path::{Path, PathBuf};

use qstore::kept_check::KeptCheck;

use super::{Answer, Copy};

/// An image, its backing file if one is given, and the file that keeps its check.
pub struct Checked {
    pub image: Copy,
    pub backing: Option<Copy>,
    pub state: PathBuf,
}

impl Checked {
    pub fn with(image: &[u8], test: &str) -> Checked {
        Checked::over(image, &[], test)
    }

    /// The same over these bytes, unless there are none.
    pub fn over(image: &[u8], backing: &[u8], test: &str) -> Checked {
        let image = Copy::with(image, test);
        let beneath = || Copy::with(backing, &format!("{test}-beneath"));
        let backing = (!backing.is_empty()).then(beneath);
        let state = image.path.with_extension("check");
        _ = fs::remove_file(&state);
        Checked { image, backing, state }
    }

    /// The whole check.
    pub fn whole(&self, more: &str) -> Answer {
        self.line("check IMAGE", more)
    }

    /// One portion. The image is left alone, and nothing is left beside the file.
    pub fn portion(&self, more: &str) -> Answer {
        let (before, place) = (self.image.bytes(), place(&self.image.path));
        let answer = self.line(&format!("check IMAGE --state {}", self.state.display()), more);
        assert!(self.image.bytes() == before && place == self::place(&self.image.path));
        assert_eq!(self.beside(), Vec::<PathBuf>::new());
        answer
    }

    fn line(&self, line: &str, more: &str) -> Answer {
        let mut line = line.to_string();
        if let Some(backing) = &self.backing {
            line += &format!(" --backing {}", backing.path.display());
        }
        more.split_whitespace().for_each(|word| line += &format!(" {word}"));
        self.image.run(&line)
    }

    /// Portions of so many entries until the check has ended: what the last one says,
    /// and how many they were.
    pub fn to_the_end(&self, entries: u64, more: &str) -> (Answer, usize) {
        for portions in 1.. {
            let answer = self.portion(&format!("--entries {entries} {more}"));
            if answer.exit != 4 {
                return (answer, portions);
            }
        }
        unreachable!()
    }

    /// What the file keeps.
    pub fn kept(&self) -> KeptCheck {
        KeptCheck::parse(&fs::read(&self.state).expect("a state file")).expect("a whole one")
    }

    /// Makes the file keep this.
    pub fn keep(&self, kept: &KeptCheck) {
        fs::write(&self.state, kept.bytes()).expect("a file in the target directory");
    }

    /// Files that were made beside the file and not renamed.
    pub fn beside(&self) -> Vec<PathBuf> {
        let name = format!("{}.", self.state.file_name().unwrap().to_str().unwrap());
        let files = fs::read_dir(self.state.parent().unwrap()).unwrap();
        let files = files.map(|file| file.unwrap().path());
        let is_beside = |file: &PathBuf| {
            file.file_name().and_then(|file| file.to_str()).is_some_and(|it| it.starts_with(&name))
        };
        files.filter(is_beside).collect()
    }
}

impl Drop for Checked {
    fn drop(&mut self) {
        _ = fs::remove_file(&self.state);
        self.beside().iter().for_each(|path| _ = fs::remove_file(path));
    }
}

/// Which file it is, and when it was changed last; None if there is none.
pub fn place(path: &Path) -> Option<[i64; 4]> {
    let file = fs::symlink_metadata(path).ok()?;
    Some([file.dev() as i64, file.ino() as i64, file.mtime(), file.mtime_nsec()])
}
