//! One portion of a check, which a file keeps until the next.

use qcow2_core::{Portion, Verdict};

use super::check::{self, Checked};
use crate::args;
use crate::digest::digest;
use crate::image_file::ImageFile;
use crate::kept_check::{KeptCheck, Whose};
use crate::layout::Layout;
use crate::position::Position;
use crate::report::{Failure, Report, UNFINISHED};
use crate::sentences::Request;
use crate::state_file::StateFile;

/// The image as it is now.
struct Now<'a> {
    image: &'a ImageFile,
    layout: Layout,
    whose: Whose,
    digest: u64,
}

/// Takes the portion that is asked for. What has to be known beside its report is
/// noted.
pub fn run(
    image: &ImageFile,
    asked: &args::Portion,
    notes: &mut Vec<String>,
) -> Result<Report, Failure> {
    let about = |failure| about(asked, failure);
    let (file, bytes) = open(image, asked).map_err(about)?;
    let now = Now::of(image)?;
    let mut kept = match bytes {
        None => KeptCheck::new(now.whose, now.digest),
        Some(bytes) => now.found(&bytes).map_err(about)?,
    };
    if let Portion::Told(verdict) = now.portion(&mut kept, 0)? {
        notes.push(now.again(asked, &kept, verdict).map_err(about)?);
        return Ok(now.finished(kept, verdict, notes));
    }
    kept.changed |= kept.digest != now.digest;
    kept.taken(now.whose, now.digest);
    let answer = now.portion(&mut kept, asked.entries)?;
    let stored = match asked.entries {
        // Nothing has changed.
        0 => Ok(()),
        _ => file.replace(&kept.bytes()).map_err(|fault| not_kept(asked, &fault)),
    };
    match (answer, stored) {
        (Portion::Told(verdict), stored) => {
            notes.extend(stored.err());
            Ok(now.finished(kept, verdict, notes))
        }
        (_, Ok(())) => Ok(now.unfinished(&kept, asked.entries, notes)),
        (_, Err(fault)) => Err(Failure::Other(fault)),
    }
}

/// The file that keeps the check, which has to be another one than those that are
/// open.
fn open(image: &ImageFile, asked: &args::Portion) -> Result<(StateFile, Option<Vec<u8>>), Failure> {
    let mut others = vec![("image", image.file.metadata()?)];
    if let Some(backing) = &image.backing.path {
        others.push(("backing file", backing.metadata()?));
    }
    StateFile::open(&asked.state, &others)
}

/// A failure of the file that keeps the check.
fn about(asked: &args::Portion, failure: Failure) -> Failure {
    match failure {
        Failure::Other(text) => Failure::Other(format!("state file {:?}: {text}", asked.state)),
        other => other,
    }
}

fn not_kept(asked: &args::Portion, fault: &str) -> String {
    format!(
        "this portion was not kept in the state file {:?}: {fault}.\n  The same command takes it \
         again.",
        asked.state
    )
}

impl Now<'_> {
    /// Of an image that is accepted.
    fn of(image: &ImageFile) -> Result<Now<'_>, Failure> {
        let refused = |number| image.refused(number, Request::Look);
        qcow2_core::geometry(&image.bytes, &image.backing.bytes).map_err(refused)?;
        let layout = Layout::of(&image.bytes).ok_or_else(|| refused(1))?;
        let whose = Whose::of(&image.bytes, layout.bits, &image.file.metadata()?);
        Ok(Now { image, layout, whose, digest: digest(&image.bytes) })
    }

    /// The check that these bytes keep, if it is one of this image.
    fn found(&self, bytes: &[u8]) -> Result<KeptCheck, Failure> {
        let kept = KeptCheck::parse(bytes).map_err(|text| Failure::Other(text.into()))?;
        let (then, now) = (kept.whose, self.whose);
        let what = if (then.length, then.cluster_bits) != (now.length, now.cluster_bits) {
            format!("an image of {}, and this one has {}", then.shape(), now.shape())
        // A device may get another number when the machine is started again.
        } else if then.inode != now.inode || then.device != now.device && kept.digest != self.digest
        {
            "another file than this image".into()
        } else {
            return Ok(kept);
        };
        Err(Failure::Other(format!(
            "it keeps the check of {what}.\n  Name another file for this image; remove this one if \
             the check that it keeps is no longer wanted."
        )))
    }

    /// The next portion of so many entries.
    fn portion(&self, kept: &mut KeptCheck, may: u64) -> Result<Portion, Failure> {
        let (image, backing) = (&self.image.bytes, &self.image.backing.bytes);
        let (state, scratch) = (&mut kept.state, &mut kept.scratch);
        match qcow2_core::check_portion(image, backing, state, scratch, may) {
            Portion::Refused(number) => Err(self.image.refused(number, Request::Look)),
            answer => Ok(answer),
        }
    }

    /// For a check that had ended: its verdict is about the bytes of then.
    fn again(
        &self,
        asked: &args::Portion,
        kept: &KeptCheck,
        verdict: Verdict,
    ) -> Result<String, Failure> {
        let date = kept.date();
        if kept.digest == self.digest {
            return Ok(format!(
                "this check had ended already, on {date}, for the bytes that the image still has; \
                 remove {:?} to begin a new one",
                asked.state
            ));
        }
        let said = match verdict {
            Verdict::Sound => "sound".into(),
            Verdict::Leaks(number) => format!("leaks {number}"),
            _ => "damaged".into(),
        };
        Err(Failure::Other(format!(
            "the check that it keeps ended on {date} and said: {said}. The image has been changed \
             since, so that says nothing of it now.\n  Remove the file to begin a new check."
        )))
    }

    /// As the check says it.
    fn finished(&self, kept: KeptCheck, verdict: Verdict, notes: &mut Vec<String>) -> Report {
        let KeptCheck { changed, scratch, .. } = kept;
        notes.extend(changed.then(|| CHANGED.into()));
        let checked = Checked { layout: self.layout, verdict, scratch };
        let mut report = check::report(self.image, &checked, changed);
        report.json.push(("finished", true.into()));
        report
    }

    fn unfinished(&self, kept: &KeptCheck, entries: u64, notes: &mut Vec<String>) -> Report {
        notes.extend(kept.changed.then(|| CHANGED.into()));
        let position = Position::of(&self.layout, &self.image.bytes, &kept.state);
        let mut text = position.text();
        if entries > 0 {
            text += "  The same command goes on.\n";
        }
        Report { text, json: position.members(), exit: UNFINISHED }
    }
}

const CHANGED: &str = "the image was changed between two portions, each of which judges the bytes \
                       that it finds: what the check says may hold for none of them. 'qstore \
                       check' without --state judges the bytes of now";
