//! Images with snapshots or over a backing file, made and read by qemu where it is
//! installed.

use std::path::{Path, PathBuf};
use std::process::Command;
use std::{env, fs, process};

/// An image file of qemu in a directory of its own.
pub struct Qemu {
    directory: PathBuf,
}

impl Drop for Qemu {
    fn drop(&mut self) {
        _ = fs::remove_dir_all(&self.directory);
    }
}

/// Are qemu-img and qemu-io installed?
pub fn installed() -> bool {
    let there = |name| Command::new(name).arg("--version").output().is_ok();
    there("qemu-img") && there("qemu-io")
}

impl Qemu {
    /// An empty image; `name` is used once in a program.
    pub fn create(name: &str, options: &str, size: &str) -> Qemu {
        let qemu = Qemu::new(name);
        qemu.img(&["create", "-q", "-f", "qcow2", "-o", options], &[size]);
        qemu
    }

    /// The same over a raw disk.
    pub fn create_over(name: &str, options: &str, size: &str, backing: &[u8]) -> Qemu {
        let qemu = Qemu::new(name);
        fs::write(qemu.file("base"), backing).expect("the backing file");
        let over = ["create", "-q", "-f", "qcow2", "-b", "base", "-F", "raw", "-o", options];
        qemu.img(&over, &[size]);
        qemu
    }

    fn new(name: &str) -> Qemu {
        let directory = env::temp_dir().join(format!("compare-{}-{name}", process::id()));
        fs::create_dir_all(&directory).expect("a directory");
        Qemu { directory }
    }

    fn file(&self, name: &str) -> PathBuf {
        self.directory.join(name)
    }

    /// `qemu-img` with the image between these words.
    fn img(&self, before: &[&str], after: &[&str]) {
        run(Command::new("qemu-img").args(before).arg(self.file("image")).args(after));
    }

    /// Commands of qemu-io.
    pub fn io(&self, commands: &[&str]) {
        let mut io = Command::new("qemu-io");
        io.args(["-f", "qcow2"]);
        commands.iter().for_each(|command| _ = io.args(["-c", command]));
        run(io.arg(self.file("image")));
    }

    pub fn snapshot(&self, name: &str) {
        self.img(&["snapshot", "-c", name], &[]);
    }

    pub fn bytes(&self) -> Vec<u8> {
        fs::read(self.file("image")).expect("the image")
    }

    pub fn set_bytes(&self, bytes: &[u8]) {
        fs::write(self.file("image"), bytes).expect("the image");
    }

    /// Finds qemu nothing wrong?
    pub fn check(&self) -> bool {
        let mut check = Command::new("qemu-img");
        check.args(["check", "-q", "-f", "qcow2"]).arg(self.file("image"));
        check.status().expect("qemu-img").success()
    }

    /// The guest's bytes as qemu reads them, of the disk or of a snapshot.
    pub fn raw(&self, snapshot: Option<&str>) -> Vec<u8> {
        let (raw, chosen) =
            (self.file("raw"), snapshot.map(|name| format!("snapshot.name={name}")));
        let mut convert = Command::new("qemu-img");
        convert.args(["convert", "-f", "qcow2", "-O", "raw"]);
        chosen.iter().for_each(|chosen| _ = convert.args(["-l", chosen]));
        run(convert.arg(self.file("image")).arg(&raw));
        read_and_remove(&raw)
    }
}

fn read_and_remove(path: &Path) -> Vec<u8> {
    let bytes = fs::read(path).expect("what qemu wrote");
    fs::remove_file(path).expect("what qemu wrote");
    bytes
}

fn run(command: &mut Command) {
    let output = command.output().expect("qemu");
    let text = String::from_utf8_lossy(&output.stderr).into_owned();
    assert!(output.status.success(), "{command:?}: {text}");
}
