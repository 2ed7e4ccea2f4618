//! What a command ends with, shown as text or as JSON, and the exit codes.

use std::fs::File;
use std::io::{self, BufWriter, Write};
use std::os::fd::AsFd;

use crate::args::Options;
use crate::help;
use crate::json::Json;
use crate::sentences::Refusal;

pub const DONE: u8 = 0;
pub const FAILED: u8 = 1;
pub const DAMAGED: u8 = 2;
pub const LEAKS: u8 = 3;
/// Of a check in portions.
pub const UNFINISHED: u8 = 4;

pub struct Report {
    pub text: String,
    pub json: Vec<(&'static str, Json)>,
    pub exit: u8,
}

/// An answer that may be far longer than the image: it is written as it is
/// made, and nothing of it is kept.
pub trait Stream {
    /// As text; the exit code.
    fn text(&self, out: &mut Output) -> io::Result<u8>;
    /// The members of the JSON object before the long one, and its name.
    fn members(&self) -> (Vec<(&'static str, Json)>, &'static str);
    /// The value of the long one; the exit code.
    fn json(&self, out: &mut Output) -> io::Result<u8>;
}

/// Around the buffer by lines that std has for its own standard output.
pub type Output = BufWriter<File>;

/// Bytes that go to standard output at once.
pub const PORTION: usize = 1 << 20;

pub enum Answer {
    Whole(Report),
    Long(Box<dyn Stream>),
}

pub enum Failure {
    Refused(Refusal),
    /// The image is damaged, so it was not changed; in words and as JSON.
    Damaged {
        what: String,
        json: Vec<(&'static str, Json)>,
        advice: String,
    },
    /// The file or the request.
    Other(String),
    /// Standard input or output, which says nothing of the image.
    Stream(String),
}

impl From<io::Error> for Failure {
    fn from(error: io::Error) -> Failure {
        Failure::Other(error.to_string())
    }
}

impl Failure {
    fn exit(&self) -> u8 {
        match self {
            Failure::Damaged { .. } | Failure::Refused(Refusal { number: 17, .. }) => DAMAGED,
            _ => FAILED,
        }
    }
}

/// Shows the answer after the notes, which say under what conditions it holds;
/// the exit code.
pub fn show(options: &Options, notes: Vec<String>, answer: Result<Answer, Failure>) -> u8 {
    if !options.json {
        let image = name(options);
        notes.iter().for_each(|note| complain(&format!("qstore: {image}: note: {note}")));
    }
    match answer {
        Ok(Answer::Whole(report)) => tell(options, notes, report),
        Ok(Answer::Long(stream)) => written(send(options, notes, &*stream)).unwrap_or(FAILED),
        Err(failure) => fail(options, notes, failure),
    }
}

/// That standard output failed must not hide that the image was changed.
fn tell(options: &Options, notes: Vec<String>, report: Report) -> u8 {
    let Report { text, json, exit } = report;
    let told = if options.json { &object(options, json, notes) } else { &text };
    if put(told).is_some() {
        return exit;
    }
    if options.command.changes() {
        let ended = if exit == DONE { "finished" } else { "stopped" };
        complain(&format!(
            "qstore: {}: the command {ended}, only its report could not be written: {}",
            name(options),
            text.trim_end()
        ));
    }
    FAILED
}

fn fail(options: &Options, notes: Vec<String>, failure: Failure) -> u8 {
    let exit = failure.exit();
    let about = match failure {
        Failure::Stream(_) => "qstore: ".into(),
        _ => format!("qstore: {}: ", name(options)),
    };
    let (text, json) = words(failure);
    if options.json {
        return print(&object(options, json, notes), exit);
    }
    complain(&(about + &text));
    exit
}

/// To standard output as it is made.
fn send(options: &Options, notes: Vec<String>, stream: &dyn Stream) -> io::Result<u8> {
    let output = File::from(io::stdout().as_fd().try_clone_to_owned()?);
    let mut out = BufWriter::with_capacity(PORTION, output);
    let exit = if options.json {
        let (members, name) = stream.members();
        out.write_all(head(options, members).as_bytes())?;
        write!(out, ", \"{name}\": ")?;
        let exit = stream.json(&mut out)?;
        out.write_all(tail(notes).as_bytes())?;
        exit
    } else {
        stream.text(&mut out)?
    };
    out.flush()?;
    Ok(exit)
}

/// One JSON value on one line.
fn object(options: &Options, members: Vec<(&'static str, Json)>, notes: Vec<String>) -> String {
    head(options, members) + &tail(notes)
}

/// The JSON object up to its last members.
fn head(options: &Options, mut members: Vec<(&'static str, Json)>) -> String {
    members.insert(0, ("image", options.image.to_string_lossy().into_owned().into()));
    let mut text = Json::Object(members).to_string();
    text.pop();
    text
}

/// The notes, if there are any, and the object's end.
fn tail(notes: Vec<String>) -> String {
    if notes.is_empty() {
        return "}\n".into();
    }
    let notes = Json::List(notes.into_iter().map(Json::from).collect());
    format!(", \"notes\": {notes}}}\n")
}

/// A command line that can't be understood; the exit code.
pub fn usage(json: bool, message: &str) -> u8 {
    if json {
        let members = vec![("failed", message.into()), ("usage", true.into())];
        return print(&format!("{}\n", Json::Object(members)), FAILED);
    }
    complain(&format!("qstore: {}\n{}", printable(message), help::HINT));
    FAILED
}

/// To standard output; the exit code given, if all is written.
pub fn print(text: &str, exit: u8) -> u8 {
    put(text).map_or(FAILED, |()| exit)
}

fn put(text: &str) -> Option<()> {
    let mut out = io::stdout().lock();
    written(out.write_all(text.as_bytes()).and_then(|()| out.flush()))
}

/// What was written, or None and a complaint.
fn written<T>(result: io::Result<T>) -> Option<T> {
    result.map_err(|error| complain(&format!("qstore: standard output: {error}"))).ok()
}

/// To standard error. Where that fails too, the exit code alone is left.
fn complain(text: &str) {
    _ = writeln!(io::stderr(), "{text}");
}

/// The image's name for a terminal.
fn name(options: &Options) -> String {
    printable(&options.image.to_string_lossy())
}

/// Without control characters, which a terminal would obey.
fn printable(text: &str) -> String {
    let mut shown = String::new();
    for letter in text.chars() {
        match letter.is_control() {
            true => shown.extend(letter.escape_unicode()),
            false => shown.push(letter),
        }
    }
    shown
}

/// A number of units, with what a unit is.
pub fn units(number: u64) -> String {
    let unit = if number == 1 { "unit" } else { "units" };
    format!("{number} {unit} (counts, table entries and bytes stored)")
}

fn words(failure: Failure) -> (String, Vec<(&'static str, Json)>) {
    match failure {
        Failure::Refused(Refusal { number, what, advice, members }) => {
            let text = format!("refused ({number}): {what}\n  {advice}");
            let mut json = vec![
                ("refused", number.into()),
                ("reason", what.into()),
                ("advice", advice.into()),
            ];
            json.extend(members);
            (text, json)
        }
        Failure::Damaged { what, mut json, advice } => {
            json.push(("advice", advice.clone().into()));
            (format!("not changed: {what}\n  {advice}"), json)
        }
        Failure::Other(message) | Failure::Stream(message) => {
            (message.clone(), vec![("failed", message.into())])
        }
    }
}

#[cfg(test)]
mod tests {
    use super::printable;

    #[test]
    fn control_characters_are_shown() {
        assert_eq!(printable("größe \u{1f4be} a\\b.qcow2"), "größe \u{1f4be} a\\b.qcow2");
        assert_eq!(printable("a\u{1b}[2J\n\u{7f}\u{9b}"), "a\\u{1b}[2J\\u{a}\\u{7f}\\u{9b}");
    }
}
