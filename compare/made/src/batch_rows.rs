//! The rows of calls that are planned into batches, by two implementations: on images
//! of every kind, after rows of a batch or any numbers, with room for few and many.

use std::collections::BTreeMap;

use answers::{Batches, Planned, STEP};

use crate::batches::plan;
use crate::clearing::call as run;
use crate::drive::{any_image, with_allowance};
use crate::guard::{with_numbers, Guarded};
use crate::image::Made;
use crate::requests::{Request, Requests};
use crate::rng::Rng;
use crate::snapshot_drive;

/// How often each answer was given, refusals by their number.
pub type Tally = BTreeMap<String, u64>;

/// What numbers hold that no row has filled.
const HELD: u64 = 0xC3C3;

/// Both sides plan until so many calls were planned.
pub fn compare(left: &dyn Batches, right: &dyn Batches, rng: &mut Rng, calls: u64) -> Tally {
    let (mut tally, mut planned) = (Tally::new(), 0);
    while planned < calls {
        let made = if rng.once_in(3) { snapshot_drive::any_over(rng) } else { any_image(rng) };
        for _ in 0..3 {
            planned += batch([left, right], &made, rng, &mut tally);
        }
    }
    tally
}

/// One batch, whose calls are made in memory; how many were planned.
fn batch(sides: [&dyn Batches; 2], made: &Made, rng: &mut Rng, tally: &mut Tally) -> u64 {
    let (mut image, mut requests) = (made.bytes.clone(), Requests::new(made));
    let room = rng.pick(&[0, 3, 4, 27, 28, 31, 60, 161, 400, 4 * made.clusters() + 8]);
    let mut rows = vec![HELD; room];
    let mut held = if rng.once_in(3) { fill(made, &mut rows, rng) } else { 0 };
    let calls = 1 + rng.below(12);
    for _ in 0..calls {
        let request = with_allowance(&requests.storing(rng), u64::MAX);
        // At times other rows are held than were planned.
        let lent =
            if rng.once_in(24) { rng.pick(&[0, 1, room / 4, room, usize::MAX]) } else { held };
        let planned = both(sides, made, &image, &request, &mut rows, lent);
        let kind = match planned {
            Planned::Rows(_) => "Rows".into(),
            other => format!("{other:?}"),
        };
        *tally.entry(format!("{} {kind}", request.name())).or_default() += 1;
        match planned {
            Planned::Rows(count) => {
                held = count;
                image = run(made.over(sides[0]), &image, &request).1;
            }
            Planned::Ends => held = 0,
            Planned::Refused(_) => {}
        }
    }
    calls
}

/// Rows that no call has made, near what the image holds; how many.
fn fill(made: &Made, rows: &mut [u64], rng: &mut Rng) -> usize {
    let count = rng.index(rows.len() / STEP + 1).min(20);
    for row in rows.as_chunks_mut::<STEP>().0[..count].iter_mut() {
        let block = some(&made.blocks, rng) + rng.index(made.cluster());
        let cluster = rng.index(made.clusters() + 1) << made.cluster_bits;
        let entry = some(&made.entries, rng);
        let at = rng.pick(&[block, cluster, entry, made.l1_at, 88]) as u64;
        let near = at.wrapping_add(rng.below(17)).wrapping_sub(8);
        let at = rng.pick(&[at, near, near, u64::MAX - 3]);
        let len = rng.pick(&[0, 1, 2, 7, 8, 9, made.cluster() as u64, u64::MAX]);
        *row = [at, len, rng.below(3), rng.pick(&[0, 1, 1, 1, 2, 3, 3, 3, 4, u64::MAX])];
    }
    count
}

/// One of these places, or none.
fn some(places: &[usize], rng: &mut Rng) -> usize {
    places.get(rng.index(places.len() + 1)).copied().unwrap_or_default()
}

/// Both plan alike, fill the same rows, and change nothing else.
fn both(
    sides: [&dyn Batches; 2],
    made: &Made,
    image: &[u8],
    request: &Request,
    rows: &mut Vec<u64>,
    held: usize,
) -> Planned {
    let length = match *request {
        Request::Repair { scratch, .. } => scratch,
        _ => 0,
    };
    let [left, right] = sides.map(|side| {
        let (lent, backing) = (Guarded::of(image), Guarded::of(&made.backing));
        let mut scratch = Guarded::of(&vec![0x5A; length]);
        let (numbers, planned) = with_numbers(rows.len(), HELD, |numbers| {
            numbers.copy_from_slice(rows);
            let scratch = scratch.lent_mut();
            plan(side, lent.lent(), backing.lent(), request, scratch, numbers, held)
        });
        assert!(lent.intact() && lent.lent() == image, "the image changed: {request:?}");
        assert!(backing.intact() && scratch.intact(), "bytes around changed: {request:?}");
        (planned, numbers, scratch.lent().to_vec())
    });
    assert_eq!(left.0, right.0, "answers differ, {held} rows held of {}: {request:?}", rows.len());
    assert!(left.1 == right.1, "rows differ, {held} held of {}: {request:?}", rows.len());
    assert!(left.2 == right.2, "scratches differ: {request:?}");
    let start = held.saturating_mul(STEP).min(rows.len());
    assert!(left.1[..start] == rows[..start], "a row that is held changed: {request:?}");
    if matches!(left.0, Planned::Refused(_)) {
        assert!(left.1 == *rows, "a refused call's row: {request:?}");
    }
    *rows = left.1;
    left.0
}
