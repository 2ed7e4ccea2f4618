//! The steps of calls on sound and leaking images, for one implementation: they
//! are just what the call changes, and a store that brings the finished image's
//! bytes to a drive epoch by epoch may lose any sectors of the last, or any units.

use answers::{Calls, Outcome, Over, Step, STEP};
use plain::plain_disk::Series;

use crate::clearing::call as run;
use crate::drive::{call, step, usable, with_allowance};
use crate::image::Made;
use crate::pair::list_steps;
use crate::requests::{Request, Requests};
use crate::rng::Rng;
use crate::snapshot_drive;

const ALL: u64 = u64::MAX;
/// What a drive stores whole or not at all.
pub const SECTOR: usize = 512;

/// What a run has met.
#[derive(Debug, Default)]
pub struct Met {
    pub calls: u64,
    /// Power cuts, by the epoch that they fell into.
    pub cuts: [u64; 3],
    /// Calls that were refused.
    pub refused: u64,
}

/// Random images, every second with snapshots.
pub fn any_usable(rng: &mut Rng) -> Made {
    match rng.once_in(2) {
        true => usable(rng),
        false => snapshot_drive::usable_over(rng),
    }
}

/// Series of calls on such images, until so many were made.
pub fn follow(side: &dyn Calls, rng: &mut Rng, calls: u64, such: fn(&mut Rng) -> Made) -> Met {
    let mut met = Met::default();
    while met.calls < calls {
        let made = such(rng);
        follow_on(side, &made, rng, &mut met);
    }
    met
}

/// One series; each call is cut before it is made, and autoclear bits are set
/// again at times.
pub fn follow_on(side: &dyn Calls, made: &Made, rng: &mut Rng, met: &mut Met) {
    let (side, mut image) = (made.over(side), made.bytes.clone());
    let mut series = Series::start(side, &image).expect("a usable image");
    let mut requests = Requests::new(made);
    for _ in 0..4 + rng.below(8) {
        if made.version == 3 && rng.once_in(4) {
            image[88 + rng.index(8)] |= 1 << rng.below(8);
        }
        let request = with_allowance(&requests.storing(rng), ALL);
        look(side, &series, &image, &request, rng, met);
        step(&mut series, &mut image, &request);
        met.calls += 1;
    }
}

/// The steps of one request on this image.
fn look(
    side: Over,
    series: &Series,
    image: &[u8],
    request: &Request,
    rng: &mut Rng,
    met: &mut Met,
) {
    let listed = steps(side, image, request);
    let (outcome, finished, _) = run(side, image, request);
    let (steps, units) = match (listed, outcome) {
        (Ok(steps), Outcome::Finished(units)) => (steps, units),
        (Err(number), Outcome::Refused(other)) if number == other => {
            met.refused += 1;
            return;
        }
        (listed, outcome) => panic!("{listed:?} for {outcome:?}: {request:?}"),
    };
    assert_eq!(steps.iter().map(|step| step.units).sum::<u64>(), units, "{request:?}");
    let case = Case { side, series, image, request, finished, steps };
    case.are_apart();
    case.are_all();
    case.are_filled();
    case.are_units(rng);
    for epoch in (0..3).filter(|epoch| case.steps.iter().any(|step| step.epoch == *epoch)) {
        Kept::TRIED.into_iter().for_each(|kept| case.cut(epoch, kept, rng));
        met.cuts[epoch as usize] += 1;
    }
}

/// A call that was not refused, with its steps.
struct Case<'a> {
    side: Over<'a>,
    series: &'a Series<'a>,
    image: &'a [u8],
    request: &'a Request,
    finished: Vec<u8>,
    steps: Vec<Step>,
}

impl Case<'_> {
    /// Epochs rise, and no byte is in steps of two of them.
    fn are_apart(&self) {
        assert!(self.steps.is_sorted_by_key(|step| step.epoch), "{:?}", self.request);
        for (index, one) in self.steps.iter().enumerate() {
            for other in self.steps[index..].iter().filter(|other| other.epoch != one.epoch) {
                let apart = one.range().end <= other.at || other.range().end <= one.at;
                assert!(apart, "{one:?} and {other:?}: {:?}", self.request);
            }
        }
    }

    /// What is changed is in a step.
    fn are_all(&self) {
        let mut brought = self.image.to_vec();
        bring(&mut brought, &self.finished, &self.steps, |_| true);
        assert!(brought == self.finished, "a change that no step has: {:?}", self.request);
    }

    /// All bytes of a fill are stored: what they were before does not matter.
    fn are_filled(&self) {
        // A write with nothing to link or to show has its data in place, which may
        // be one byte.
        let is_write = matches!(self.request, Request::Write { .. });
        let in_place = is_write && self.steps.iter().all(|step| step.epoch < 2);
        let is_fill = |step: &&Step| step.units > 1 || in_place && step.epoch == 1;
        let mut other = self.image.to_vec();
        for step in self.steps.iter().filter(is_fill) {
            other[step.range()].iter_mut().for_each(|byte| *byte = !*byte);
        }
        let listed = steps(self.side, &other, self.request);
        assert_eq!(listed.as_deref(), Ok(&self.steps[..]), "{:?}", self.request);
        let stored = run(self.side, &other, self.request).1 == self.finished;
        assert!(stored, "not stored: {:?}", self.request);
    }

    /// Each unit stores in its own place: of a fill one byte, else the step's.
    fn are_units(&self, rng: &mut Rng) {
        let mut done = 0;
        for step in self.steps.iter().take(8) {
            let random = rng.below(step.units);
            for unit in [0, random, step.units - 1] {
                let place = match step.units {
                    1 => step.range(),
                    _ => step.at + unit as usize..step.at + unit as usize + 1,
                };
                let (mut fewer, more) = (self.after(done + unit), self.after(done + unit + 1));
                fewer[place.clone()].copy_from_slice(&more[place]);
                assert!(fewer == more, "unit {unit} of {step:?}: {:?}", self.request);
            }
            done += step.units;
        }
    }

    /// A power cut in this epoch; then the request is made once more, or a repair.
    fn cut(&self, epoch: u64, kept: Kept, rng: &mut Rng) {
        let mut now = self.left(epoch, kept, rng);
        let mut series = self.series.clone();
        let holds = series.cut(self.image, call(self.request).0, &now);
        holds.unwrap_or_else(|fault| panic!("{fault}: cut in epoch {epoch}: {:?}", self.request));
        let repair = Request::Repair { scratch: 2 * now.len() / SECTOR, allowance: ALL };
        step(&mut series, &mut now, if rng.once_in(2) { self.request } else { &repair });
    }

    /// What a drive holds after a power cut in this epoch.
    fn left(&self, epoch: u64, kept: Kept, rng: &mut Rng) -> Vec<u8> {
        let start = self.steps.partition_point(|step| step.epoch < epoch);
        let end = self.steps.partition_point(|step| step.epoch <= epoch);
        let mut now = self.image.to_vec();
        bring(&mut now, &self.finished, &self.steps[..start], |_| true);
        let (seed, steps) = (rng.number(), &self.steps[start..end]);
        let some = |sector: usize| Rng::new(seed ^ sector as u64).once_in(2);
        match kept {
            Kept::Nothing => {}
            Kept::All => bring(&mut now, &self.finished, steps, |_| true),
            Kept::Sectors => bring(&mut now, &self.finished, steps, some),
            Kept::Units => {
                for index in (start..end).filter(|_| steps.len() <= 16 || rng.once_in(16)) {
                    self.make(&mut now, index, Rng::new(seed ^ index as u64));
                }
            }
            Kept::Rough => {
                let next = start + rng.index(steps.len());
                now = self.after(self.units_before(next));
                self.make(&mut now, next, Rng::new(seed));
            }
        }
        now
    }

    /// Makes units of a step: of a fill any bytes, else its one unit or not.
    fn make(&self, now: &mut [u8], index: usize, mut rng: Rng) {
        let (step, done) = (self.steps[index], self.units_before(index));
        let (before, after) = (self.after(done), self.after(done + step.units));
        let (is_fill, is_made) = (step.units > 1, rng.once_in(2));
        for at in step.range() {
            match step.len {
                _ if is_fill && rng.once_in(2) || !is_fill && !is_made => {}
                // A count, whose byte may have others.
                1 | 2 | 4 if !is_fill => now[at] ^= before[at] ^ after[at],
                _ => now[at] = after[at],
            }
        }
    }

    /// What the call leaves with this allowance.
    fn after(&self, units: u64) -> Vec<u8> {
        run(self.side, self.image, &with_allowance(self.request, units)).1
    }

    fn units_before(&self, index: usize) -> u64 {
        self.steps[..index].iter().map(|step| step.units).sum()
    }
}

/// What a power cut leaves stored of an epoch.
#[derive(Clone, Copy)]
enum Kept {
    Nothing,
    All,
    /// Any sectors.
    Sectors,
    /// Any units.
    Units,
    /// The first units, and any bytes of the fill that comes next.
    Rough,
}

impl Kept {
    const TRIED: [Kept; 7] = [
        Kept::Nothing,
        Kept::All,
        Kept::Sectors,
        Kept::Sectors,
        Kept::Units,
        Kept::Units,
        Kept::Rough,
    ];
}

/// All steps of a storing request.
pub fn steps(side: Over, image: &[u8], request: &Request) -> Result<Vec<Step>, u32> {
    let scratch = match *request {
        Request::Repair { scratch, .. } => scratch,
        _ => 0,
    };
    // A count for each cluster, and the clearing unit.
    let mut rows = vec![0; STEP * (8 + scratch)];
    let request = request.steps(rows.len());
    let count = list_steps(side, image, &request, &mut vec![0x5A; scratch], &mut rows)?;
    Ok(Step::of_rows(&rows[..STEP * count]).collect())
}

/// Brings the steps' bytes in the sectors that are kept.
pub fn bring(drive: &mut [u8], finished: &[u8], steps: &[Step], kept: impl Fn(usize) -> bool) {
    for at in steps.iter().flat_map(Step::range) {
        if kept(at / SECTOR) {
            drive[at] = finished[at];
        }
    }
}
