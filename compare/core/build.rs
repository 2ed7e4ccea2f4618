//! Links the proved static library: from QCOW2_CORE_LIB if set, else from
//! crates/qcow2_c/out at the root of the repository.
//!
//! An archive may bring its own panic handler and parts of Rust's library,
//! which must not meet those of the program. Where one shows more than the
//! calls of the C interface, it is linked through a copy that hides the rest.
#![forbid(unsafe_code)]

use std::path::{Path, PathBuf};
use std::process::Command;
use std::{env, fs};

fn main() {
    let dir = env::var_os("QCOW2_CORE_LIB").map_or_else(default_dir, PathBuf::from);
    let archive = dir.join("libqcow2_c.a");
    println!("cargo:rerun-if-env-changed=QCOW2_CORE_LIB");
    println!("cargo:rerun-if-changed=build.rs");
    println!("cargo:rerun-if-changed={}", archive.display());
    if !archive.exists() {
        println!(
            "cargo::error={} is missing: `rt lib` in crates/qcow2_c writes it; QCOW2_CORE_LIB names \
             another directory",
            archive.display()
        );
        return;
    }
    let search = isolated(&archive).unwrap_or_else(|fault| {
        println!("cargo:warning=linking the archive as it is: {fault}");
        None
    });
    println!("cargo:rustc-link-search=native={}", search.unwrap_or(dir).display());
    println!("cargo:rustc-link-lib=static=qcow2_c");
}

fn default_dir() -> PathBuf {
    let here = env::var_os("CARGO_MANIFEST_DIR").expect("cargo sets CARGO_MANIFEST_DIR");
    PathBuf::from(here).join("../../crates/qcow2_c/out")
}

/// The directory of a copy that shows only the calls; None where the archive
/// itself shows nothing else.
fn isolated(archive: &Path) -> Result<Option<PathBuf>, String> {
    let (calls, others): (Vec<String>, Vec<String>) =
        visible(archive)?.into_iter().partition(is_call);
    if others.is_empty() {
        return Ok(None);
    }
    let out = PathBuf::from(env::var_os("OUT_DIR").expect("cargo sets OUT_DIR"));
    let object = out.join("qcow2_c.o");
    let mut link = Command::new("ld");
    link.args(["-r", "--force-group-allocation", "-o"]).arg(&object);
    calls.iter().for_each(|call| _ = link.args(["-u", call]));
    run(link.arg(archive))?;
    // Bitcode of Rust's library, of no use and broken by the joining.
    let bitcode = ["--remove-section=.llvmbc", "--remove-section=.llvmcmd"];
    run(Command::new("objcopy").args(bitcode).arg(&object))?;
    hide(&object, &out.join("hidden"))?;
    let copy = out.join("libqcow2_c.a");
    if copy.exists() {
        fs::remove_file(&copy).map_err(|error| error.to_string())?;
    }
    run(Command::new("ar").arg("crs").arg(&copy).arg(&object))?;
    Ok(Some(out))
}

fn is_call(name: &String) -> bool {
    name.starts_with("qcow2_")
}

/// Hides what is no call; objcopy refuses an empty list.
fn hide(object: &Path, list: &Path) -> Result<(), String> {
    let others: Vec<String> = visible(object)?.into_iter().filter(|name| !is_call(name)).collect();
    if others.is_empty() {
        return Ok(());
    }
    fs::write(list, others.join("\n")).map_err(|error| error.to_string())?;
    let hide = format!("--localize-symbols={}", list.display());
    run(Command::new("objcopy").arg(hide).arg(object)).map(|_| ())
}

/// The symbols that a file offers to others.
fn visible(file: &Path) -> Result<Vec<String>, String> {
    let names = run(Command::new("nm").args(["-j", "--defined-only", "-g"]).arg(file))?;
    // nm heads each member of an archive by its name and a colon.
    let is_symbol = |line: &&str| !line.is_empty() && !line.ends_with(':');
    Ok(names.lines().filter(is_symbol).map(String::from).collect())
}

/// Runs a tool; what it writes.
fn run(command: &mut Command) -> Result<String, String> {
    let program = command.get_program().to_string_lossy().into_owned();
    let output = command.output().map_err(|error| format!("{program}: {error}"))?;
    if output.status.success() {
        return Ok(String::from_utf8_lossy(&output.stdout).into_owned());
    }
    let text = String::from_utf8_lossy(&output.stderr).replace('\n', " ");
    Err(format!("{program}: {} {text}", output.status))
}
