//! Number 22: a snapshot holds what a write or discard would change.

use std::ops::RangeInclusive;

use super::commands::DELETE;
use super::request::guests;
use super::{Remedy, Request, Sentence, Subject};
use crate::fields::{be64, PLACE, USED};
use crate::json::Json;
use crate::layout::Layout;
use crate::owners::holders;
use crate::snapshots::labels;

/// An entry on the way that has a place and bit 63 clear.
pub struct Held {
    guest: u64,
    /// What it names: an L2 table, or data.
    is_table: bool,
    place: u64,
}

/// The first on the way to these guest clusters.
pub fn first(layout: &Layout, image: &[u8], guests: RangeInclusive<u64>) -> Option<Held> {
    let (per_table, common) = (layout.per_table(), |entry: u64| entry & USED == 0);
    let mut guest = *guests.start();
    while guest <= *guests.end() {
        let entry = be64(image, layout.l1_entry_at(guest / per_table))?;
        if entry & PLACE == 0 {
            guest = (guest / per_table + 1) * per_table;
            continue;
        }
        if common(entry) {
            return Some(Held { guest, is_table: true, place: entry & PLACE });
        }
        let entry = be64(image, layout.l2_entry_at(image, guest)?)?;
        if entry & PLACE != 0 && common(entry) {
            return Some(Held { guest, is_table: false, place: entry & PLACE });
        }
        guest += 1;
    }
    None
}

pub fn sentence(subject: &Subject, request: Request) -> Sentence {
    let image = subject.bytes;
    let layout = Layout::of(image);
    let found = layout.and_then(|layout| {
        let held = first(&layout, image, guests(&layout, request))?;
        Some((layout, held))
    });
    let remedy = Remedy::NewImage(deleted());
    let Some((layout, held)) = found else {
        let what = "a snapshot holds what would be changed; nothing was changed".into();
        return Sentence::new(22, (what, remedy));
    };
    let snapshots = holders(&layout, image, held.place);
    let owner = match snapshots.len() {
        0 => "another entry too".into(),
        1 => format!("snapshot {}", labels(&snapshots)),
        _ => format!("snapshots {}", labels(&snapshots)),
    };
    let kind = if held.is_table { "L2 table" } else { "cluster" };
    let what = format!(
        "the {kind} of guest offset {} (at {}) is held by {owner}; nothing was changed",
        held.guest << layout.bits,
        held.place
    );
    let numbers = snapshots.iter().map(|snapshot| snapshot.number.into()).collect();
    let members = vec![("held_by", Json::List(numbers))];
    Sentence { number: 22, what, remedy, members }
}

/// What else can be done.
pub fn deleted() -> String {
    format!(
        "Or delete the snapshots that hold it, if they are no longer wanted, with {DELETE}: their \
         bytes are then lost, and the disk's can be changed."
    )
}
