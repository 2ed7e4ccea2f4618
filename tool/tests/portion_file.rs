//! The file that keeps a check between portions: what cannot be one, what is none, one
//! of another image, damage, no room, and runs that are killed or meet each other.

mod common;

use std::fs::{self, File, Permissions};
use std::os::unix::fs::{symlink, PermissionsExt};
use std::os::unix::net::UnixListener;
use std::path::{Path, PathBuf};
use std::process::{Command, Stdio};
use std::thread;
use std::time::Duration;

use common::kept::kept;
use common::made::{made, over};
use common::portions::{place, Checked};
use common::{bench_image, ended, with_clusters};
use qstore::report::Failure;
use qstore::state_file::StateFile;

fn qstore(image: &Path, state: &Path, more: &[&str]) -> Command {
    let mut command = Command::new(env!("CARGO_BIN_EXE_qstore"));
    command.arg("check").arg(image).arg("--state").arg(state).args(more);
    command
}

fn spot(name: &str) -> PathBuf {
    let name = format!("{name}-{}", std::process::id());
    let path = Path::new(env!("CARGO_TARGET_TMPDIR")).join(name);
    _ = fs::remove_file(&path);
    path
}

/// Every portion fails with these words, and neither the image nor what stands at the
/// place of the file is touched.
fn fails(checked: &Checked, state: &Path, words: &str) {
    let read = || {
        let bytes = state.is_file().then(|| fs::read(state).unwrap());
        // Other tests make files in folders.
        let there = place(state).filter(|_| !state.is_dir());
        (checked.image.bytes(), place(&checked.image.path), there, bytes)
    };
    let before = read();
    for more in [&[][..], &["--entries", "0"], &["--entries", "1"], &["--share"]] {
        let output = ended(&mut qstore(&checked.image.path, state, more));
        let error = String::from_utf8_lossy(&output.stderr).into_owned();
        assert_eq!(output.status.code(), Some(1), "{error}");
        assert!(output.stdout.is_empty(), "{more:?}");
        let about = format!(": state file {state:?}: ");
        assert!(error.contains(&about) && error.contains(words), "{error}");
        let json = ended(qstore(&checked.image.path, state, more).arg("--json"));
        let json = String::from_utf8_lossy(&json.stdout).into_owned();
        assert!(json.contains("\"failed\": \"state file ") && json.ends_with("}\n"), "{json}");
        assert!(read() == before, "{error}");
    }
}

#[test]
fn what_cannot_be_one() {
    let checked = Checked::with(&bench_image(), "file-cannot");
    let (fifo, socket) = (spot("file-fifo"), spot("file-socket"));
    assert!(Command::new("mkfifo").arg(&fifo).status().unwrap().success());
    let _listener = UnixListener::bind(&socket).unwrap();
    for (path, what) in [
        (&*fifo, "it is a FIFO, and what keeps a check has to be a regular file"),
        (&*socket, "it is a socket, and"),
        (Path::new("/dev/full"), "it is a device, and"),
        (Path::new(env!("CARGO_TARGET_TMPDIR")), "it is a folder, and"),
        (Path::new("/"), "it is a folder, and"),
        (Path::new(".."), "it is a folder, and"),
        (Path::new("/nowhere/a.check"), "it cannot be made in \"/nowhere\": No such file"),
        (Path::new("/dev/null/a.check"), "Not a directory"),
        (Path::new(""), "it cannot be made in \"\": No such file"),
    ] {
        fails(&checked, path, what);
    }
    _ = fs::remove_file(fifo);
    _ = fs::remove_file(socket);
}

/// The image under any name, and the backing file.
#[test]
fn the_files_that_are_open() {
    let mut image = bench_image();
    over(&mut image, b"base.raw", Some(b"raw"));
    let checked = Checked::over(&image, &[7; 3000], "file-open");
    let backing = checked.backing.as_ref().unwrap();
    let link = spot("file-link");
    let before = (checked.image.bytes(), backing.bytes());
    for (name, words) in [
        (&checked.image.path, "it is the image itself, and would be written over"),
        (&backing.path, "it is the backing file itself, and would be written over"),
    ] {
        fs::hard_link(name, &link).unwrap();
        for state in [name, &link] {
            for entries in ["0", "1", "1000"] {
                let more = ["--entries", entries, "--backing", backing.path.to_str().unwrap()];
                let output = ended(&mut qstore(&checked.image.path, state, &more));
                let error = String::from_utf8_lossy(&output.stderr);
                assert!(output.status.code() == Some(1) && error.contains(words), "{error}");
                assert!((checked.image.bytes(), backing.bytes()) == before);
            }
        }
        fs::remove_file(&link).unwrap();
    }
    assert_eq!(checked.portion("--entries 1").exit, 4);
}

/// A backing file may be a state file as well: its guest chose its bytes.
#[test]
fn a_backing_file_that_keeps_a_check() {
    let mut image = bench_image();
    over(&mut image, b"base.raw", Some(b"raw"));
    let checked = Checked::over(&image, &[7; 3000], "file-guest");
    assert_eq!(checked.portion("--entries 1").exit, 4);
    let backing = checked.backing.as_ref().unwrap();
    fs::copy(&checked.state, &backing.path).unwrap();
    let (before, name) = (backing.bytes(), backing.path.to_str().unwrap());
    let line = ["--entries", "1", "--backing", name];
    let output = ended(&mut qstore(&checked.image.path, &backing.path, &line));
    assert!(output.status.code() == Some(1) && backing.bytes() == before);
}

/// A link would be replaced by a file, so none is followed.
#[test]
fn symbolic_links() {
    let checked = Checked::with(&bench_image(), "file-symlink");
    assert_eq!(checked.portion("--entries 1").exit, 4);
    let link = spot("file-to");
    for target in [&checked.state, &checked.image.path, Path::new("/nowhere")] {
        symlink(target, &link).unwrap();
        let before = fs::read(target).ok();
        fails(&checked, &link, "it is a symbolic link, which would be replaced: name the file");
        assert!(fs::read(target).ok() == before && link.is_symlink());
        fs::remove_file(&link).unwrap();
    }
}

#[test]
fn what_is_not_ours() {
    let checked = Checked::with(&bench_image(), "file-not-ours");
    let long = vec![b'x'; 6 << 20];
    for bytes in [&b""[..], b"\n", b"qstore", b"shopping list\n", &bench_image(), &long] {
        fs::write(&checked.state, bytes).unwrap();
        fails(
            &checked,
            &checked.state,
            "it keeps no check of qstore, and is left as it is.\n  Name",
        );
    }
    fs::write(&checked.state, "qstore check state 2\nmore").unwrap();
    fails(&checked, &checked.state, "another version of qstore keeps a check in it");
}

/// A bit, a length, another file's end; all bits are tried where the bytes are parsed.
#[test]
fn damage() {
    let checked = Checked::with(&kept(2).bytes, "file-damage");
    assert_eq!(checked.portion("--entries 2").exit, 4);
    let good = fs::read(&checked.state).unwrap();
    let fails = |bytes: &[u8]| {
        fs::write(&checked.state, bytes).unwrap();
        fails(
            &checked,
            &checked.state,
            "the check that it keeps is damaged.\n  Remove it to begin",
        );
    };
    for at in [21, 60, 77, 100, 132, 133, good.len() - 9, good.len() - 1] {
        let mut bytes = good.clone();
        bytes[at] ^= 0x10;
        fails(&bytes);
    }
    for length in [21, 22, 132, 133, good.len() - 8, good.len() - 1] {
        fails(&good[..length]);
    }
    fails(&[&good[..], &[0]].concat());
    fails(&[&good[..], &vec![0; 6 << 20]].concat());
    fails(&[&good[..512.min(good.len())], &vec![0; good.len()]].concat());
    fs::write(&checked.state, &good).unwrap();
    assert_eq!(checked.portion("").text, "sound\n");
}

/// A check goes on with its own image alone. Every other one fails, and nothing is lost.
#[test]
fn of_another_image() {
    let own = Checked::with(&kept(2).bytes, "file-own");
    assert_eq!(own.portion("--entries 2").exit, 4);
    let mut longer = kept(2).bytes;
    longer.resize(longer.len() + 512, 0);
    let mut other = kept(2).bytes;
    other[7000] ^= 1;
    let shorter = with_clusters(9, 15, 65_536);
    let wider = with_clusters(10, 8, 65_536);
    for (image, words) in [
        (&kept(2).bytes, "it keeps the check of another file than this image.\n  Name another"),
        (&other, "it keeps the check of another file than this image"),
        (&longer, "an image of 8192 bytes in clusters of 512, and this one has 8704 bytes in"),
        (&shorter, "an image of 8192 bytes in clusters of 512, and this one has 7680 bytes"),
        (
            &wider,
            "of 8192 bytes in clusters of 512, and this one has 8192 bytes in clusters of 1024",
        ),
    ] {
        let another = Checked::with(image, "file-another");
        assert_eq!(another.whole("").exit, 0);
        fails(&another, &own.state, words);
    }
    assert_eq!(own.portion("--entries 2").exit, 4);
    // Longer in place.
    fs::write(&own.image.path, &longer).unwrap();
    fails(&own, &own.state, "and this one has 8704 bytes in clusters of 512");
    fs::write(&own.image.path, kept(2).bytes).unwrap();
    let told = own.portion("");
    assert_eq!((told.exit, told.text.as_str(), told.error.as_str()), (0, "sound\n", ""));
}

/// The image may get another name, and its device another number, if it has the same
/// bytes; then the file is of this device.
#[test]
fn the_same_image() {
    let own = Checked::with(&kept(2).bytes, "file-same");
    assert_eq!(own.portion("--entries 2").exit, 4);
    let link = spot("file-other-name");
    fs::hard_link(&own.image.path, &link).unwrap();
    let output = ended(&mut qstore(&link, &own.state, &["--entries", "1"]));
    assert_eq!(output.status.code(), Some(4));
    fs::remove_file(link).unwrap();

    let mut moved = own.kept();
    let device = moved.whose.device;
    moved.whose.device ^= 5;
    own.keep(&moved);
    let mut other = kept(2).bytes;
    other[7000] ^= 1;
    fs::write(&own.image.path, &other).unwrap();
    fails(&own, &own.state, "it keeps the check of another file than this image");
    fs::write(&own.image.path, kept(2).bytes).unwrap();
    assert_eq!(own.portion("--entries 1").exit, 4);
    assert_eq!(own.kept().whose.device, device);
    fs::write(&own.image.path, &other).unwrap();
    assert_eq!(own.portion("--entries 1").exit, 4);
    assert!(own.kept().changed);
}

/// Where the system does not let it be so long: the file is as it was or is not made,
/// nothing is left beside it, and a verdict is told all the same.
#[test]
fn no_room() {
    let checked = Checked::with(&made(3, 9, 100_000, 8 << 20).image, "file-room");
    // Two bytes a cluster are more than 128 units, of 512 or of 1,024 bytes.
    let line =
        "trap '' XFSZ; ulimit -f 128; exec \"$0\" check \"$1\" --state \"$2\" --entries \"$3\"";
    let run = |entries: &str| {
        let mut command = Command::new("sh");
        command.args(["-c", line, env!("CARGO_BIN_EXE_qstore")]);
        let output = ended(command.arg(&checked.image.path).arg(&checked.state).arg(entries));
        assert_eq!(checked.beside(), Vec::<PathBuf>::new());
        let text = |bytes: &[u8]| String::from_utf8_lossy(bytes).into_owned();
        (output.status.code().unwrap(), text(&output.stdout), text(&output.stderr))
    };
    let not_kept = format!(": this portion was not kept in the state file {:?}: ", checked.state);
    let (exit, text, error) = run("5");
    assert!(exit == 1 && text.is_empty() && error.contains(&not_kept), "{error}");
    assert!(
        error.contains("File too large")
            && error.ends_with("\n  The same command takes it again.\n")
    );
    assert!(!checked.state.exists());
    assert_eq!(checked.portion("--entries 5").exit, 4);
    let (kept, before) = (checked.kept(), place(&checked.state));
    assert_eq!(run("5").0, 1);
    assert!(checked.kept() == kept && place(&checked.state) == before);
    assert_eq!(run("0").0, 4);
    let (exit, text, error) = run("1000");
    assert!(exit == 0 && text == "sound\n" && error.contains(": note: this portion was not kept"));
    assert!(checked.kept() == kept && place(&checked.state) == before);
    assert_eq!(checked.portion("").text, "sound\n");
}

/// A folder that takes no file.
#[test]
fn no_file_can_be_made() {
    let checked = Checked::with(&bench_image(), "file-unmade");
    let state = Path::new("/proc/qstore.check");
    for (entries, exit) in [("0", 4), ("1", 1), ("2", 0)] {
        let output = ended(&mut qstore(&checked.image.path, state, &["--entries", entries]));
        let error = String::from_utf8_lossy(&output.stderr);
        assert_eq!(output.status.code(), Some(exit), "{error}");
        let said = error.contains("was not kept in the state file \"/proc/qstore.check\": making");
        assert_eq!(said, entries != "0", "{error}");
    }
}

/// What stands in the way of the file that is made beside it is left alone.
#[test]
fn the_file_beside_it() {
    let checked = Checked::with(&bench_image(), "file-beside");
    let line =
        "state=$2; echo mine > \"$state.new-$$\"; exec \"$0\" check \"$1\" --state \"$state\" \
                --entries 1";
    let mut command = Command::new("sh");
    command.args(["-c", line, env!("CARGO_BIN_EXE_qstore")]);
    let output = ended(command.arg(&checked.image.path).arg(&checked.state));
    let error = String::from_utf8_lossy(&output.stderr);
    assert!(output.status.code() == Some(1) && error.contains("File exists"), "{error}");
    assert!(!checked.state.exists());
    let [beside] = &checked.beside()[..] else { panic!("not one file") };
    assert_eq!(fs::read(beside).unwrap(), b"mine\n");
}

#[test]
fn who_may_read_it_stays() {
    let checked = Checked::with(&kept(1).bytes, "file-mode");
    assert_eq!(checked.portion("--entries 1").exit, 4);
    fs::set_permissions(&checked.state, Permissions::from_mode(0o640)).unwrap();
    assert_eq!(checked.portion("--entries 1").exit, 4);
    let mode = checked.state.metadata().unwrap().permissions().mode();
    assert_eq!(mode & 0o777, 0o640);
}

/// Another run has the file.
#[test]
fn one_run_at_a_time() {
    let checked = Checked::with(&kept(1).bytes, "file-locked");
    assert_eq!(checked.portion("--entries 1").exit, 4);
    let file = File::open(&checked.state).unwrap();
    file.lock_shared().unwrap();
    fails(&checked, &checked.state, "another qstore is at work with it: try again");
    // A process that another test is starting may have it open still.
    file.unlock().unwrap();
    assert_eq!(checked.portion("").text, "sound\n");
}

fn text_of<T>(result: Result<T, Failure>) -> String {
    match result {
        Err(Failure::Other(text)) => text,
        _ => panic!("no failure"),
    }
}

/// While a run is at work others remove the file, replace it, or make it.
#[test]
fn what_others_do_meanwhile() {
    let path = spot("file-meanwhile");
    let meanwhile = "another program made, replaced or removed it meanwhile";
    let (new, bytes) = StateFile::open(&path, &[]).ok().unwrap();
    assert_eq!(bytes, None);
    fs::write(&path, "theirs").unwrap();
    assert_eq!(new.replace(b"ours"), Err(meanwhile.into()));
    let (found, bytes) = StateFile::open(&path, &[]).ok().unwrap();
    assert_eq!(bytes, Some(b"theirs".to_vec()));
    assert!(text_of(StateFile::open(&path, &[])).contains("another qstore is at work with it"));
    let other = spot("file-meanwhile-other");
    fs::write(&other, "replaced").unwrap();
    fs::rename(&other, &path).unwrap();
    assert_eq!(found.replace(b"ours"), Err(meanwhile.into()));
    assert_eq!(fs::read(&path).unwrap(), b"replaced");
    drop(found);
    let (found, _) = StateFile::open(&path, &[]).ok().unwrap();
    fs::remove_file(&path).unwrap();
    symlink("/nowhere", &path).unwrap();
    assert_eq!(found.replace(b"ours"), Err(meanwhile.into()));
    fs::remove_file(&path).unwrap();
    assert_eq!(found.replace(b"ours"), Err(meanwhile.into()));
    assert!(!path.exists());
    drop(found);
    let (new, _) = StateFile::open(&path, &[]).ok().unwrap();
    assert_eq!(new.replace(b"ours"), Ok(()));
    assert_eq!(fs::read(&path).unwrap(), b"ours");
    // What was found is not there any more: it was replaced by this run.
    assert_eq!(new.replace(b"more"), Err(meanwhile.into()));
    fs::remove_file(&path).unwrap();
}

/// Killed at any time, mostly near its end, the file is absent or keeps a portion as a
/// whole, and the check ends as it does without.
#[test]
fn killed() {
    let checked = Checked::with(&made(3, 9, 20_000, 32 << 20).image, "file-killed");
    let (mut finished, mut killed, mut far) = (0, 0, 0);
    let mut after = Duration::from_millis(3);
    for _ in 0..300 {
        let mut command = qstore(&checked.image.path, &checked.state, &["--entries", "3"]);
        let mut child = command.stdout(Stdio::null()).stderr(Stdio::null()).spawn().unwrap();
        thread::sleep(after);
        child.kill().unwrap();
        if child.wait().unwrap().code() == Some(4) {
            (finished, after) = (finished + 1, after.mul_f32(0.9));
        } else {
            (killed, after) = (killed + 1, after.mul_f32(1.08));
        }
        if checked.state.exists() {
            let [stage, root, row, ..] = checked.kept().state.numbers();
            assert!((stage, root, row % 3) == (1, 0, 0) && row >= far, "{row}");
            far = row;
        }
    }
    assert!(killed > 20 && finished > 20 && far > 0, "{killed} {finished} {far}");
    // What was being made beside it stays, and is in nobody's way.
    checked.beside().iter().for_each(|path| fs::remove_file(path).unwrap());
    let told = checked.portion("");
    assert_eq!((told.exit, told.text.as_str(), told.error.as_str()), (0, "sound\n", ""));
}

/// Many runs at once, from the first on: each takes a portion or fails, and the check
/// ends as it does without.
#[test]
fn many_at_once() {
    let image = made(3, 9, 2000, 2 << 20).image;
    let checked = Checked::with(&image, "file-many");
    let work = || {
        for turn in 0..60 {
            let mut command = qstore(&checked.image.path, &checked.state, &["--entries", "1"]);
            let output = ended(&mut command);
            let error = String::from_utf8_lossy(&output.stderr).into_owned();
            match output.status.code() {
                Some(1) => assert!(
                    error.contains("another qstore is at work with it")
                        || error.contains("another program replaced it just now")
                        || error.contains("another program made, replaced or removed it meanwhile"),
                    "{turn}: {error}"
                ),
                Some(code) => assert!([0, 4].contains(&code), "{turn}: {error}"),
                None => panic!("killed"),
            }
        }
    };
    thread::scope(|scope| (0..4).for_each(|_| _ = scope.spawn(work)));
    let told = checked.to_the_end(7, "").0;
    assert_eq!((told.exit, told.text.as_str()), (0, "sound\n"));
    assert!(!checked.kept().changed);
}

/// What is kept is on the drive before it takes the file's name, and the name after it.
/// Where calls cannot be traced there is nothing to see.
#[test]
fn flushed_before_and_after_it_is_named() {
    let checked = Checked::with(&kept(1).bytes, "file-flushed");
    for naming in ["linkat", "rename"] {
        let mut command = Command::new("strace");
        command.args(["-e", "trace=write,fsync,fdatasync,link,linkat,rename,renameat,renameat2"]);
        command.arg(env!("CARGO_BIN_EXE_qstore")).arg("check").arg(&checked.image.path);
        command.arg("--state").arg(&checked.state).args(["--entries", "1"]);
        let Ok(output) = command.stdin(Stdio::null()).output() else { return };
        if output.status.code() != Some(4) {
            return;
        }
        let trace = String::from_utf8_lossy(&output.stderr);
        let calls = trace.lines().filter_map(|line| Some(line.split_once('(')?.0));
        let calls: Vec<&str> = calls.take(4).collect();
        assert_eq!(calls, ["write", "fsync", naming, "fsync"], "{trace}");
    }
}

/// No longer than it has to be.
#[test]
fn its_length() {
    let checked = Checked::with(&bench_image(), "file-length");
    assert_eq!(checked.portion("--entries 1").exit, 4);
    assert_eq!(checked.state.metadata().unwrap().len(), 21 + 7 * 8 + 56 + 2 * 16 + 8);
}
