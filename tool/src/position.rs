//! How far a check in portions is, in words.

use qcow2_core::CheckBytes;

use crate::findings::of_snapshot;
use crate::json::Json;
use crate::layout::Layout;

pub struct Position {
    /// The last L1 entry that was taken.
    last: Option<Place>,
    /// The first bad entry that was met.
    bad: Option<Place>,
    /// L1 entries still to be taken, and all of them, by the bytes of now.
    left: u64,
    total: u64,
}

/// An entry of an L1 table, or below it.
struct Place {
    snapshot: Option<u64>,
    l1_index: u64,
    l2_index: Option<u64>,
}

impl Position {
    pub fn of(layout: &Layout, image: &[u8], state: &CheckBytes) -> Position {
        let [stage, root, row, tag, a, b, c] = state.numbers();
        let place = |table: u64, l1_index, l2_index| {
            Some(Place { snapshot: table.checked_sub(1), l1_index, l2_index })
        };
        let (last, bad) = match (stage, tag) {
            (0, _) => (None, None),
            (_, 2) => (place(root, row.saturating_sub(1), None), place(a, b, None)),
            (_, 3) => (place(root, row.saturating_sub(1), None), place(a, b, Some(c))),
            _ => (place(root, row.saturating_sub(1), None), None),
        };
        let sizes = layout.with_snapshots(image).into_iter().map(|tree| tree.l1_size as u64);
        let (mut left, mut total) = (0, 0);
        for (table, size) in (0..).zip(sizes) {
            total += size;
            left += match last {
                Some(_) if table < root => 0,
                Some(_) if table == root => size.saturating_sub(row),
                _ => size,
            };
        }
        Position { last, bad, left, total }
    }

    pub fn text(&self) -> String {
        let Position { last, bad, left, total } = self;
        let reached = match last {
            Some(place) => format!("up to {}", place.text()),
            None => "not begun".into(),
        };
        let mut text = format!("not finished: {reached}; {left} of {total} L1 entries are left\n");
        if let Some(place) = bad {
            text += &format!("  A bad entry was met: {}.\n", place.text());
        }
        text
    }

    pub fn members(&self) -> Vec<(&'static str, Json)> {
        let place = |place: &Option<Place>| {
            place.as_ref().map_or(Json::Null, |place| Json::Object(place.members()))
        };
        vec![
            ("finished", false.into()),
            ("last", place(&self.last)),
            ("entries_left", self.left.into()),
            ("entries", self.total.into()),
            ("bad_entry", place(&self.bad)),
        ]
    }
}

impl Place {
    fn text(&self) -> String {
        let (l1_index, whose) = (self.l1_index, of_snapshot(self.snapshot));
        match self.l2_index {
            None => format!("L1 entry {l1_index}{whose}"),
            Some(l2_index) => format!("L2 entry {l2_index} below L1 entry {l1_index}{whose}"),
        }
    }

    fn members(&self) -> Vec<(&'static str, Json)> {
        let mut members = vec![("l1_index", self.l1_index.into())];
        members.extend(self.l2_index.map(|index| ("l2_index", index.into())));
        members.extend(self.snapshot.map(|number| ("snapshot", number.into())));
        members
    }
}
