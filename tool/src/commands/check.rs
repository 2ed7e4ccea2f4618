//! Sound, leaks or damaged.

use qcow2_core::Verdict;

use crate::autoclear;
use crate::damage::Damage;
use crate::findings;
use crate::image_file::ImageFile;
use crate::json::Json;
use crate::layout::Layout;
use crate::report::{Failure, Report, DAMAGED, DONE, LEAKS};
use crate::runs;
use crate::sentences::Request;

/// The verdict on an accepted image, with the scratch that the check left.
pub struct Checked {
    pub layout: Layout,
    pub verdict: Verdict,
    pub scratch: Vec<u8>,
}

impl Checked {
    /// The verdict as text, and as members of a JSON object.
    pub fn words(&self, image: &[u8]) -> (String, Vec<(&'static str, Json)>) {
        findings::verdict(&self.layout, image, self.verdict, &self.scratch)
    }
}

pub fn check<D>(image: &ImageFile<D>) -> Result<Checked, Failure> {
    // Two bytes a cluster: enough for any cluster size that is accepted.
    let mut scratch = vec![0; image.bytes.len() / 256];
    let verdict = qcow2_core::check(&image.bytes, &image.backing.bytes, &mut scratch);
    let refused = |number| image.refused(number, Request::Look);
    match (verdict, Layout::of(&image.bytes)) {
        (Verdict::Refused(number), _) => Err(refused(number)),
        (_, Some(layout)) => Ok(Checked { layout, verdict, scratch }),
        (_, None) => Err(refused(1)),
    }
}

pub fn run(image: &ImageFile) -> Result<Report, Failure> {
    Ok(report(image, &check(image)?, false))
}

/// What a check says. Was the image changed while it ran?
pub fn report(image: &ImageFile, checked: &Checked, changed: bool) -> Report {
    let (mut text, mut json) = checked.words(&image.bytes);
    if checked.verdict == Verdict::Sound {
        json.extend(Damage::default().members(&checked.layout));
        return Report { text: text + "\n", json, exit: DONE };
    }
    let damage = Damage::of(&checked.layout, &image.bytes, checked.verdict, &checked.scratch);
    let (advice, exit) = if matches!(checked.verdict, Verdict::Leaks(_)) {
        text += &format!(" (clusters {})\n", runs::text(&damage.leaked));
        (advice(image), LEAKS)
    } else {
        text += &format!("\n{}", damage.lines(&checked.layout));
        (if changed { LOOK_AGAIN.into() } else { image.subject().advice(damage.remedy()) }, DAMAGED)
    };
    text += &format!("  {advice}\n");
    json.push(("advice", advice.into()));
    json.extend(damage.members(&checked.layout));
    Report { text, json, exit }
}

/// What was counted before a change may seem damaged after it.
const LOOK_AGAIN: &str = "Let no program write to the file before 'qstore check' without --state \
                          has judged it as it is now, and said what is safe.";

/// What to do about leaks.
fn advice(image: &ImageFile) -> String {
    match autoclear::bits(&image.bytes) {
        0 if image.is_mended() => "Guest bytes are not affected. The file as it is would not be \
                                   repaired: first do what 'qstore check' without --as-if-mended \
                                   says; 'qstore repair' then gives the clusters back."
            .into(),
        0 => "Guest bytes are not affected; 'qstore repair' gives the clusters back.".into(),
        bits => autoclear::advice(bits),
    }
}
