//! What the image is, and all that stands in its way if it is refused.

use std::fs::File;
use std::io::Read;
use std::path::Path;

use qcow2_core::Verdict;

use super::check::{check, Checked};
use crate::backing::Backing;
use crate::facts::{facts, Facts};
use crate::findings;
use crate::image_file::{ImageFile, Own};
use crate::json::Json;
use crate::obstacles;
use crate::report::{Failure, Report, DONE, FAILED};
use crate::sentences::Refusal;

pub fn run(mut image: ImageFile) -> Result<Report, Failure> {
    match check(&image) {
        Ok(checked) => Ok(accepted(&image, &checked)),
        Err(Failure::Refused(_)) => {
            let length = image.bytes.len() as u64;
            Ok(refused(&image.path, &mut image.bytes, length, &image.backing, image.own))
        }
        Err(failure) => Err(failure),
    }
}

/// A file that is too long to be read.
pub fn too_long(path: &Path, backing: &Backing) -> Result<Report, Failure> {
    let mut file = File::open(path)?;
    let length = file.metadata()?.len();
    let mut head = vec![0; 512];
    file.read_exact(&mut head)?;
    let own = Own::of(&head, length);
    Ok(refused(path, &mut head, length, backing, own))
}

fn accepted(image: &ImageFile, checked: &Checked) -> Report {
    let (bytes, layout) = (&image.bytes, checked.layout);
    let (verdict, members) = checked.words(bytes);
    let Facts { mut text, members: mut json } = facts(bytes, &image.backing, image.own);
    let free = layout.free(bytes);
    let used = layout.clusters - free;
    let leaked = match checked.verdict {
        Verdict::Sound => Some(0),
        Verdict::Leaks(number) => Some(number),
        _ => None,
    };
    let leaked_text = leaked.map_or("not known".into(), |number| number.to_string());
    text += &format!(
        "clusters in use: {used}\nclusters free: {free}\nclusters leaked: {leaked_text}\n"
    );
    let compressed = findings::compressed(&layout, bytes, checked.verdict);
    if compressed > 0 {
        text += &format!("clusters compressed: {compressed}\n");
    }
    text += &format!("verdict: {verdict}\n");
    json.extend([
        ("clusters_in_use", used.into()),
        ("clusters_free", free.into()),
        ("clusters_leaked", leaked.map_or(Json::Null, Json::Number)),
        ("obstacles", Json::List(Vec::new())),
        ("check", Json::Object(members)),
    ]);
    Report { text, json, exit: DONE }
}

fn refused(path: &Path, bytes: &mut Vec<u8>, length: u64, backing: &Backing, own: Own) -> Report {
    let Facts { mut text, members: mut json } = facts(bytes, backing, own);
    let obstacles = obstacles::of(path, bytes, length, backing);
    for Refusal { number, what, advice, .. } in &obstacles {
        text += &format!("refused ({number}): {what}\n  {advice}\n");
    }
    if let Some(first) = obstacles.first() {
        json.extend([
            ("refused", first.number.into()),
            ("reason", first.what.clone().into()),
            ("advice", first.advice.clone().into()),
        ]);
    }
    let object = |Refusal { number, what, advice, members }| {
        let mut object: Vec<(&'static str, Json)> = vec![
            ("number", Json::from(number)),
            ("reason", Json::from(what)),
            ("advice", Json::from(advice)),
        ];
        object.extend(members);
        Json::Object(object)
    };
    json.push(("obstacles", Json::List(obstacles.into_iter().map(object).collect())));
    Report { text, json, exit: FAILED }
}
