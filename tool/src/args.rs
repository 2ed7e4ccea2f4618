//! The command line.

use std::ffi::OsString;
use std::path::PathBuf;

use crate::{help, number};

pub struct Options {
    pub json: bool,
    pub image: PathBuf,
    /// Look although another program may be changing the image.
    pub share: bool,
    /// Look at it as if it were padded and its header_length set back.
    pub as_if_mended: bool,
    /// The backing file, and whether it is a raw disk however it begins.
    pub backing: Option<PathBuf>,
    pub as_raw: bool,
    pub command: Command,
}

#[derive(Debug, PartialEq)]
pub enum Command {
    Info,
    /// The whole check, or a portion.
    Check {
        portion: Option<Portion>,
    },
    Repair {
        allowance: u64,
        force: bool,
    },
    Map,
    /// Of the disk, or of the snapshot that the word names.
    Read {
        offset: u64,
        length: u64,
        snapshot: Option<OsString>,
    },
    Write {
        offset: u64,
        allowance: u64,
    },
    Discard {
        offset: u64,
        length: u64,
        allowance: u64,
    },
    /// To so many bytes of the file.
    Extend {
        bytes: u64,
        allowance: u64,
    },
}

/// A portion of a check.
#[derive(Debug, PartialEq)]
pub struct Portion {
    /// The file that keeps the check between portions.
    pub state: PathBuf,
    /// The most L1 entries that it takes.
    pub entries: u64,
}

impl Command {
    /// Is it one that may change the image?
    pub fn changes(&self) -> bool {
        match self {
            Command::Repair { .. } | Command::Write { .. } => true,
            Command::Discard { .. } | Command::Extend { .. } => true,
            Command::Info | Command::Check { .. } => false,
            Command::Map | Command::Read { .. } => false,
        }
    }
}

pub enum Parsed {
    Run(Options),
    Help(&'static str),
    /// The manual page, for the Makefile.
    Man,
    Version,
}

/// The options of the commands that change nothing.
const LOOKS: &[&str] = &["--share", "--as-if-mended"];
const CHECKS: &[&str] = &["--state", "--entries", "--share", "--as-if-mended"];
const READS: &[&str] = &["--snapshot", "--share", "--as-if-mended"];
/// Those of all commands.
const OF_ALL: &[&str] = &["--json", "--backing", "--as-raw"];

/// A command's name, its operands beside the image, its options beside those
/// of all, and its help.
pub const COMMANDS: [(&str, &[&str], &[&str], &str); 8] = [
    ("info", &[], LOOKS, help::INFO),
    ("check", &[], CHECKS, help::CHECK),
    ("repair", &[], &["--allowance", "--force"], help::REPAIR),
    ("map", &[], LOOKS, help::MAP),
    ("read", &["OFFSET", "LENGTH"], READS, help::READ),
    ("write", &["OFFSET"], &["--allowance"], help::WRITE),
    ("discard", &["OFFSET", "LENGTH"], &["--allowance"], help::DISCARD),
    ("extend", &["BYTES"], &["--allowance"], help::EXTEND),
];

/// What is asked, or what is wrong with the line.
pub fn parse(args: impl IntoIterator<Item = OsString>) -> Result<Parsed, String> {
    let mut args = args.into_iter();
    let first = args.next().ok_or("a command is missing")?;
    let name = match first.to_str() {
        Some("--help" | "-h" | "help") => return Ok(Parsed::Help(help_on(args.next()))),
        Some("--man") => return Ok(Parsed::Man),
        Some("--version") => return Ok(Parsed::Version),
        Some(name) => name,
        None => "",
    };
    let &(name, operands, options, text) = COMMANDS
        .iter()
        .find(|command| command.0 == name)
        .ok_or_else(|| format!("there is no command '{}'", first.to_string_lossy()))?;
    let Some(line) = line(args, options)? else {
        return Ok(Parsed::Help(text));
    };
    let mut given = line.operands.iter();
    let image = given.next().ok_or_else(|| format!("{name}: IMAGE is missing"))?.into();
    let mut numbers = Vec::new();
    for operand in operands {
        let value = given.next().ok_or_else(|| format!("{name}: {operand} is missing"))?;
        let value = number::parse(&value.to_string_lossy());
        numbers.push(value.map_err(|fault| format!("{name}: {operand}: {fault}"))?);
    }
    if let Some(extra) = given.next() {
        return Err(format!("{name}: '{}' is one operand too many", extra.to_string_lossy()));
    }
    line.is_whole().map_err(|fault| format!("{name}: {fault}"))?;
    let Line { json, share, as_if_mended, as_raw, .. } = line;
    let backing = line.backing.as_ref().map(PathBuf::from);
    let command = command(name, &numbers, line);
    Ok(Parsed::Run(Options { json, image, share, as_if_mended, backing, as_raw, command }))
}

/// The text of a command, or that of all.
fn help_on(word: Option<OsString>) -> &'static str {
    let named = COMMANDS.iter().find(|command| word.as_ref().is_some_and(|it| it == command.0));
    named.map_or(help::MAIN, |command| command.3)
}

/// Does the line ask for JSON, wherever it is wrong?
pub fn asks_json(line: &[OsString]) -> bool {
    line.iter().take_while(|arg| *arg != "--").any(|arg| arg == "--json")
}

fn command(name: &str, numbers: &[u64], line: Line) -> Command {
    let Line { allowance, force, snapshot, state, entries, .. } = line;
    match (name, numbers) {
        ("info", _) => Command::Info,
        ("check", _) => {
            let entries = entries.unwrap_or(u64::MAX);
            Command::Check { portion: state.map(|state| Portion { state: state.into(), entries }) }
        }
        ("repair", _) => Command::Repair { allowance, force },
        ("read", &[offset, length]) => Command::Read { offset, length, snapshot },
        ("write", &[offset]) => Command::Write { offset, allowance },
        ("discard", &[offset, length]) => Command::Discard { offset, length, allowance },
        ("extend", &[bytes]) => Command::Extend { bytes, allowance },
        _ => Command::Map,
    }
}

#[derive(Default)]
struct Line {
    operands: Vec<OsString>,
    json: bool,
    allowance: u64,
    snapshot: Option<OsString>,
    force: bool,
    share: bool,
    as_if_mended: bool,
    backing: Option<OsString>,
    as_raw: bool,
    state: Option<OsString>,
    entries: Option<u64>,
}

/// Operands and options; None if help is asked for.
fn line(
    mut args: impl Iterator<Item = OsString>,
    options: &[&str],
) -> Result<Option<Line>, String> {
    let mut line = Line { allowance: u64::MAX, ..Line::default() };
    while let Some(arg) = args.next() {
        match arg.to_str() {
            Some("--") => {
                line.operands.extend(args);
                break;
            }
            Some("--help" | "-h") => return Ok(None),
            Some(option) if OF_ALL.contains(&option) || options.contains(&option) => {
                line.take(option, &mut args)?;
            }
            Some(option) if option.len() > 1 && option.starts_with('-') => {
                return Err(format!("there is no option '{option}' here"));
            }
            _ => line.operands.push(arg),
        }
    }
    Ok(Some(line))
}

impl Line {
    /// An option, with what has to stand after it.
    fn take(
        &mut self,
        option: &str,
        args: &mut impl Iterator<Item = OsString>,
    ) -> Result<(), String> {
        let mut next = |what| args.next().ok_or_else(|| format!("{option}: the {what} is missing"));
        match option {
            "--json" => self.json = true,
            "--as-raw" => self.as_raw = true,
            "--force" => self.force = true,
            "--share" => self.share = true,
            "--as-if-mended" => self.as_if_mended = true,
            "--allowance" => self.allowance = number(option, &next("number of units")?)?,
            "--entries" => self.entries = Some(number(option, &next("number of L1 entries")?)?),
            "--snapshot" => self.snapshot = Some(next("id, name or #number")?),
            "--backing" => {
                let file = next("name of a file")?;
                once(&mut self.backing, file, "--backing: one file alone can lie under an image")?;
            }
            "--state" => {
                let file = next("name of a file")?;
                once(&mut self.state, file, "--state: one file alone can keep a check")?;
            }
            _ => {}
        }
        Ok(())
    }

    /// Is there what an option is about?
    fn is_whole(&self) -> Result<(), &'static str> {
        if self.as_raw && self.backing.is_none() {
            return Err("--as-raw is about the file of --backing, which is missing");
        }
        if self.entries.is_some() && self.state.is_none() {
            return Err(
                "--entries is about the check that the file of --state keeps, which is missing",
            );
        }
        Ok(())
    }
}

fn once(given: &mut Option<OsString>, word: OsString, fault: &str) -> Result<(), String> {
    match given.replace(word) {
        None => Ok(()),
        Some(_) => Err(fault.into()),
    }
}

fn number(option: &str, word: &OsString) -> Result<u64, String> {
    number::parse(&word.to_string_lossy()).map_err(|fault| format!("{option}: {fault}"))
}

#[cfg(test)]
mod tests {
    use super::*;

    fn run(line: &str) -> Result<Options, String> {
        match parse(line.split_whitespace().map(OsString::from))? {
            Parsed::Run(options) => Ok(options),
            _ => Err("help".into()),
        }
    }

    #[test]
    fn commands() {
        let options = run("read a.qcow2 0x10 4k --json").unwrap();
        assert!(options.json && options.image.as_os_str() == "a.qcow2");
        let read = |snapshot| Command::Read { offset: 16, length: 4096, snapshot };
        assert_eq!(options.command, read(None));
        let options = run("read a.qcow2 --snapshot -1 0x10 4k").unwrap();
        assert_eq!(options.command, read(Some("-1".into())));
        let options = run("write --allowance 514 -- --odd-name 33285").unwrap();
        assert_eq!(options.image.as_os_str(), "--odd-name");
        assert_eq!(options.command, Command::Write { offset: 33_285, allowance: 514 });
        assert!(!options.json);
        let command = run("discard a 1M 512").unwrap().command;
        let allowance = u64::MAX;
        assert_eq!(command, Command::Discard { offset: 1 << 20, length: 512, allowance });
        let command = run("extend a 8M --allowance 7").unwrap().command;
        assert_eq!(command, Command::Extend { bytes: 8 << 20, allowance: 7 });
        let command = run("repair --force a").unwrap().command;
        assert_eq!(command, Command::Repair { allowance, force: true });
        assert_eq!(run("info a").unwrap().command, Command::Info);
        assert_eq!(run("check a").unwrap().command, Command::Check { portion: None });
        for (line, entries) in [("--state s", u64::MAX), ("--entries 2k --state s", 2048)] {
            let command = run(&format!("check {line} a")).unwrap().command;
            let portion = Some(Portion { state: "s".into(), entries });
            assert_eq!(command, Command::Check { portion });
        }
        assert_eq!(run("map -").unwrap().command, Command::Map);
        let options = run("check a --share --as-if-mended").unwrap();
        assert!(options.share && options.as_if_mended && options.backing.is_none());
        let lines = ["info a", "check a", "repair a", "map a", "read a 0 1", "write a 0"];
        for line in lines.into_iter().chain(["discard a 0 512", "extend a 512"]) {
            let options = run(&format!("{line} --backing -b")).unwrap();
            assert!(options.backing == Some("-b".into()) && !options.as_raw, "{line}");
            assert!(run(&format!("{line} --as-raw --backing b")).unwrap().as_raw, "{line}");
        }
    }

    #[test]
    fn faults() {
        let fault = |line: &str| run(line).err().expect(line);
        assert_eq!(fault(""), "a command is missing");
        assert_eq!(fault("list a"), "there is no command 'list'");
        assert_eq!(fault("info"), "info: IMAGE is missing");
        assert_eq!(fault("read a 0"), "read: LENGTH is missing");
        assert_eq!(fault("extend a"), "extend: BYTES is missing");
        assert_eq!(fault("check a b"), "check: 'b' is one operand too many");
        for line in ["check a", "write a 0", "discard a 0 512", "extend a 512"] {
            let fault = fault(&format!("{line} --force"));
            assert_eq!(fault, "there is no option '--force' here");
        }
        for line in ["write a 0", "repair a", "discard a 0 512", "extend a 512"] {
            let fault = fault(&format!("{line} --share"));
            assert_eq!(fault, "there is no option '--share' here");
        }
        for line in ["check a --snapshot 1", "map a --snapshot 1", "write a 0 --snapshot 1"] {
            assert_eq!(fault(line), "there is no option '--snapshot' here");
        }
        for line in ["info a", "map a", "repair a", "extend a 512"] {
            for option in ["--state", "--entries"] {
                let fault = fault(&format!("{line} {option} 1"));
                assert_eq!(fault, format!("there is no option '{option}' here"));
            }
        }
        assert!(fault("read a 0 1 --snapshot").contains("missing"));
        assert!(fault("write a x").starts_with("write: OFFSET: 'x' is no number"));
        assert!(fault("write a 0 --allowance").contains("missing"));
        assert!(fault("check a --backing").contains("missing"));
        assert!(fault("check a --backing b --backing b").contains("one file alone"));
        assert!(fault("check a --as-raw").contains("--backing, which is missing"));
        assert!(fault("check a --state").contains("missing"));
        assert!(fault("check a --state s --state s").contains("one file alone"));
        assert!(fault("check a --state s --entries").contains("missing"));
        assert!(fault("check a --state s --entries -1").contains("'-1' is no number"));
        assert!(fault("check a --entries 1").contains("--state keeps, which is missing"));
    }

    #[test]
    fn json_is_asked_for_anywhere_but_among_the_operands() {
        let asks = |line: &str| {
            let line: Vec<OsString> = line.split_whitespace().map(OsString::from).collect();
            asks_json(&line)
        };
        assert!(asks("--json") && asks("list a --json") && asks("read a --no --json 0"));
        assert!(!asks("") && !asks("check a b") && !asks("check -- --json b"));
    }

    #[test]
    fn every_command_has_help() {
        for (name, _, options, text) in COMMANDS {
            for line in [[name, "--help"], ["help", name], ["--help", name]] {
                let asked = parse(line.map(OsString::from));
                assert!(matches!(asked, Ok(Parsed::Help(found)) if found == text));
            }
            assert!(text.starts_with(&format!("qstore {name} IMAGE")));
            let all = COMMANDS.iter().flat_map(|command| command.2);
            for option in all {
                assert_eq!(text.contains(option), options.contains(option), "{name} {option}");
                assert_eq!(text.contains(&format!("\n  {option} ")), options.contains(option));
            }
            assert!(text.contains("\n  --backing FILE ") && text.contains("\n  --as-raw "));
            assert!(help::MAIN.contains(&format!("qstore {name} ")));
        }
        for line in [&["help"][..], &["--help", "list"]] {
            let asked = parse(line.iter().map(OsString::from));
            assert!(matches!(asked, Ok(Parsed::Help(found)) if found == help::MAIN));
        }
    }
}
