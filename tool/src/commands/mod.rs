//! The commands.

pub mod change;
mod check;
pub mod discard;
pub mod extend;
mod info;
mod map;
mod portion;
mod read;
pub mod repair;
mod snapshot;
pub mod write;

use crate::args::{Command, Options};
use crate::backing::{Backing, Given, Watch};
use crate::image_file::{notes_unread, Access, ImageFile, View};
use crate::report::{Answer, Failure};

/// Runs the command: what is to be noted of the conditions, and its answer.
pub fn run(options: &Options) -> (Vec<String>, Result<Answer, Failure>) {
    let given = options.backing.as_deref().map(|path| Given { path, as_raw: options.as_raw });
    match ImageFile::open(&options.image, access(options), view(options), given) {
        Ok(mut image) => {
            let (mut notes, watch) = (std::mem::take(&mut image.notes), image.backing.watch());
            let answer = answer(options, image, &mut notes);
            notes.extend(watch.filter(|_| options.command.changes()).and_then(changed));
            (notes, answer)
        }
        // Opening judges only files that are too long.
        Err(Failure::Refused(refusal)) => {
            let notes = notes_unread(access(options), view(options));
            if options.command != Command::Info {
                return (notes, Err(Failure::Refused(refusal)));
            }
            let backing = Backing::named(options.backing.as_deref());
            (notes, info::too_long(&options.image, &backing).map(Answer::Whole))
        }
        Err(failure) => (Vec::new(), Err(failure)),
    }
}

/// The image was changed over what the backing file was at the start.
fn changed(watch: Watch) -> Option<String> {
    let text = match watch.has_changed() {
        Ok(false) => return None,
        Ok(true) => "another program changed the backing file meanwhile: what the image does not \
                     have is read from it, so the disk has changed with it"
            .into(),
        Err(error) => format!("whether the backing file was changed is not known: {error}"),
    };
    Some(text)
}

fn access(options: &Options) -> Access {
    if options.command.changes() {
        Access::Change
    } else if options.share {
        Access::LookShared
    } else {
        Access::Look
    }
}

fn view(options: &Options) -> View {
    match options.command {
        Command::Extend { bytes, .. } => View::Lengthened(bytes),
        _ if options.as_if_mended => View::AsIfMended,
        _ => View::AsItIs,
    }
}

/// What is to be noted beside it is added to the notes.
fn answer(options: &Options, image: ImageFile, notes: &mut Vec<String>) -> Result<Answer, Failure> {
    let report = match &options.command {
        Command::Map => return Ok(Answer::Long(Box::new(map::Map::of(image)?))),
        &Command::Read { offset, length, snapshot: None } => {
            return Ok(Answer::Long(Box::new(read::Range::of(image, offset, length)?)));
        }
        Command::Read { offset, length, snapshot: Some(word) } => {
            let kept = snapshot::Kept::of(image, word, *offset, *length)?;
            return Ok(Answer::Long(Box::new(kept)));
        }
        Command::Info => info::run(image),
        Command::Check { portion: None } => check::run(&image),
        Command::Check { portion: Some(asked) } => portion::run(&image, asked, notes),
        &Command::Repair { allowance, force } => repair::run(image, allowance, force),
        &Command::Write { offset, allowance } => write::of_stdin(image, offset, allowance),
        &Command::Discard { offset, length, allowance } => {
            discard::run(image, offset, length, allowance)
        }
        &Command::Extend { bytes, allowance } => extend::run(image, bytes, allowance),
    };
    report.map(Answer::Whole)
}
