//! Batches of calls on sound and leaking images, for one implementation: whatever of
//! the phase at work a power cut leaves, the image is sound or leaks, and each guest
//! cluster is as the calls of the batch allow.

use std::collections::BTreeMap;

use answers::{Batches, Outcome, Over, Planned, Step, PHASES, STEP};
use plain::plain_disk::{Call, Series};

use crate::clearing::call as run;
use crate::drive::{call, step, with_allowance};
use crate::image::{Made, AUTOCLEAR};
use crate::requests::{Request, Requests};
use crate::rng::Rng;
use crate::steps::bring;

const ALL: u64 = u64::MAX;

/// What a run has met.
#[derive(Debug, Default)]
pub struct Met {
    pub batches: u64,
    pub calls: u64,
    /// Batches that a call ended, for want of room and by a byte of two phases.
    pub full: u64,
    pub clashes: u64,
    pub refused: u64,
    /// Power cuts, by the phase that they fell into.
    pub cuts: [u64; PHASES as usize],
}

/// Series of batches on such images, until so many calls were made.
pub fn follow(side: &dyn Batches, rng: &mut Rng, calls: u64, such: fn(&mut Rng) -> Made) -> Met {
    let mut met = Met::default();
    while met.calls < calls {
        let made = such(rng);
        follow_on(side, &made, rng, &mut met);
    }
    met
}

/// A few batches in a row; autoclear bits are set again at times.
pub fn follow_on(side: &dyn Batches, made: &Made, rng: &mut Rng, met: &mut Met) {
    let mut image = made.bytes.clone();
    let mut series = Series::start(made.over(side), &image).expect("a usable image");
    let mut requests = Requests::new(made);
    for _ in 0..1 + rng.below(3) {
        if made.version == 3 && rng.once_in(3) {
            image[AUTOCLEAR + rng.index(8)] |= 1 << rng.below(8);
        }
        let batch = Batch::planned(side, made, &image, &mut requests, rng, met);
        for phase in (0..PHASES).filter(|phase| batch.rows().any(|row| row.epoch == *phase)) {
            Kept::TRIED.into_iter().for_each(|kept| batch.cut(&series, phase, kept, rng));
            met.cuts[phase as usize] += 1;
        }
        batch.is_whole();
        for planned in &batch.calls {
            step(&mut series, &mut image, &planned.request);
        }
        assert!(image == batch.memory, "another image in memory");
        met.batches += 1;
    }
}

/// A request that was planned on `image`, with its rows.
struct Asked {
    request: Request,
    image: Vec<u8>,
    rows: Vec<Step>,
}

struct Batch<'a> {
    side: Over<'a>,
    made: &'a Made,
    start: Vec<u8>,
    calls: Vec<Asked>,
    memory: Vec<u8>,
}

impl<'a> Batch<'a> {
    /// Plans requests, most of them for few guest clusters, until the batch ends or is
    /// long enough.
    fn planned(
        side: &'a dyn Batches,
        made: &'a Made,
        start: &[u8],
        requests: &mut Requests,
        rng: &mut Rng,
        met: &mut Met,
    ) -> Batch<'a> {
        let mut rows = vec![0; STEP * rng.pick(&[7, 12, 40, 400])];
        let (over, start) = (made.over(side), start.to_vec());
        let mut batch = Batch { side: over, made, memory: start.clone(), start, calls: vec![] };
        let hot: Vec<u64> = (0..4).map(|_| requests.guest_cluster(rng)).collect();
        let mut held = 0;
        for _ in 0..2 + rng.below(10) {
            let request = request(made, &hot, requests, rng);
            match batch.add(side, request, &mut rows, held, met) {
                Some(count) => held = count,
                None => break,
            }
        }
        batch
    }

    /// Plans one more request and makes it in memory; how many rows are held then, None
    /// where the batch ends.
    fn add(
        &mut self,
        side: &dyn Batches,
        request: Request,
        rows: &mut [u64],
        held: usize,
        met: &mut Met,
    ) -> Option<usize> {
        let (room, scratch) = (rows.len() / STEP, &mut vec![0x5A; scratch(&request)]);
        let planned = plan(side, &self.memory, &self.made.backing, &request, scratch, rows, held);
        let (outcome, after, _) = run(self.side, &self.memory, &request);
        met.calls += 1;
        let count = match (planned, outcome) {
            (Planned::Rows(count), Outcome::Finished(_)) => count,
            (Planned::Refused(number), Outcome::Refused(other)) if number == other => {
                met.refused += 1;
                return Some(held);
            }
            (Planned::Ends, Outcome::Finished(_)) if held > 0 || room < self.made.clusters() => {
                *(if room - held < 7 { &mut met.full } else { &mut met.clashes }) += 1;
                return None;
            }
            (planned, outcome) => panic!("{planned:?} for {outcome:?}: {request:?}"),
        };
        let rows: Vec<Step> = Step::of_rows(&rows[STEP * held..STEP * count]).collect();
        let units = rows.iter().map(|row| row.units).sum();
        assert_eq!(outcome, Outcome::Finished(units), "{request:?}");
        let image = std::mem::replace(&mut self.memory, after);
        self.calls.push(Asked { request, image, rows });
        Some(count)
    }

    fn rows(&self) -> impl Iterator<Item = Step> + '_ {
        self.calls.iter().flat_map(|asked| asked.rows.iter().copied())
    }

    /// The rows of one phase.
    fn phase(&self, phase: u64) -> Vec<Step> {
        self.rows().filter(|row| row.epoch == phase).collect()
    }

    /// What is stored once these phases are: memory's bytes are those of the units.
    fn stored(&self, phases: u64) -> Vec<u8> {
        let mut now = self.start.to_vec();
        (0..phases).for_each(|phase| bring(&mut now, &self.memory, &self.phase(phase), |_| true));
        now
    }

    /// Phase by phase, and all of them are what memory has.
    fn is_whole(&self) {
        let mut now = self.start.to_vec();
        for phase in 0..PHASES {
            assert!(now == self.stored(phase), "other bytes than the units' before {phase}");
            self.units_of(&mut now, phase, |_| true);
        }
        assert!(now == self.memory, "the units leave another image than memory");
        assert!(self.stored(PHASES) == self.memory, "a change that no row has");
    }

    /// Makes the units of a phase that are chosen, in order.
    fn units_of(&self, now: &mut [u8], phase: u64, mut chosen: impl FnMut(&Step) -> bool) {
        for asked in &self.calls {
            let mut done = 0;
            for row in &asked.rows {
                if row.epoch == phase {
                    self.make(now, asked, row, done, &mut chosen);
                }
                done += row.units;
            }
        }
    }

    /// Makes units of a row, before which its call has made `done`.
    fn make(
        &self,
        now: &mut [u8],
        asked: &Asked,
        row: &Step,
        done: u64,
        chosen: &mut impl FnMut(&Step) -> bool,
    ) {
        let after = |units| run(self.side, &asked.image, &with_allowance(&asked.request, units)).1;
        let stored = after(done + row.units);
        if asked.is_fill(row) {
            row.range().filter(|_| chosen(row)).for_each(|at| now[at] = stored[at]);
        } else if chosen(row) {
            let mask = self.mask(&after(done), &stored, row);
            row.range().for_each(|at| now[at] = now[at] & !mask | stored[at] & mask);
        }
    }

    /// The bits of a count in its byte, which has others below eight bits.
    fn mask(&self, before: &[u8], after: &[u8], row: &Step) -> u8 {
        if row.len > 1 || self.made.order >= 3 {
            return !0;
        }
        let (width, differ) = (1 << self.made.order, before[row.at] ^ after[row.at]);
        let first = differ.trailing_zeros() / width * width;
        (((1u32 << width) - 1) << first) as u8
    }

    /// A power cut in this phase.
    fn cut(&self, series: &Series, phase: u64, kept: Kept, rng: &mut Rng) {
        let mut now = self.stored(phase);
        let seed = rng.number();
        match kept {
            Kept::All => bring(&mut now, &self.memory, &self.phase(phase), |_| true),
            Kept::Sectors => bring(&mut now, &self.memory, &self.phase(phase), |sector| {
                Rng::new(seed ^ sector as u64).once_in(2)
            }),
            Kept::Units(often) => self.units_of(&mut now, phase, |_| !rng.once_in(often)),
        }
        let calls = self.calls.iter().map(|asked| (&asked.image[..], call(&asked.request).0));
        let mut series = series.clone();
        let fault = series.cut_batch(calls, &now).err().or_else(|| self.fault(&now, phase));
        if let Some(fault) = fault {
            let requests: Vec<&Request> = self.calls.iter().map(|asked| &asked.request).collect();
            panic!("{fault}: cut in phase {phase}, {kept:?}: {requests:?}");
        }
        let repair = Request::Repair { scratch: self.made.scratch(), allowance: ALL };
        step(&mut series, &mut now, &repair);
    }

    /// What only holds of batches.
    fn fault(&self, now: &[u8], phase: u64) -> Option<String> {
        let field = |image: &[u8]| image[AUTOCLEAR..AUTOCLEAR + 8] != [0; 8];
        if self.made.version == 3 && field(&self.start) && field(now) && now != self.start {
            return Some("the autoclear bits stand".into());
        }
        if phase < 2 {
            return None;
        }
        // Each guest cluster is as one of the images had it, in the end the last.
        for (cluster, images) in self.images() {
            let held = self.guest(now, cluster);
            let first = if phase == 2 { 0 } else { images.len() - 1 };
            if !images[first..].iter().any(|image| self.guest(image, cluster) == held) {
                return Some(format!("guest cluster {cluster} is as no image had it"));
            }
        }
        None
    }

    /// For each guest cluster that was asked for, the images before and after it was.
    fn images(&self) -> BTreeMap<u64, Vec<&[u8]>> {
        let mut images: BTreeMap<u64, Vec<&[u8]>> = BTreeMap::new();
        let after = self.calls.iter().skip(1).map(|asked| &asked.image[..]);
        for (asked, after) in self.calls.iter().zip(after.chain([&self.memory[..]])) {
            let cluster = match call(&asked.request).0 {
                Call::Write { offset, data } if !data.is_empty() => {
                    offset >> self.made.cluster_bits
                }
                Call::Discard { cluster } => cluster,
                _ => continue,
            };
            images.entry(cluster).or_insert_with(|| vec![&self.start[..]]).push(after);
        }
        images
    }

    fn guest(&self, image: &[u8], cluster: u64) -> Vec<u8> {
        let offset = cluster << self.made.cluster_bits;
        let len = (self.made.size - offset).min(self.made.cluster() as u64);
        let mut bytes = vec![0; len as usize];
        self.side.read(image, offset, &mut bytes).expect("an accepted read");
        bytes
    }
}

impl Asked {
    /// A fill of one byte is data in place, beside which there is no other row.
    fn is_fill(&self, row: &Step) -> bool {
        let alone = self.rows.iter().filter(|row| row.epoch > 0).count() == 1;
        let is_write = matches!(self.request, Request::Write { .. });
        row.units > 1 || row.epoch == 1 && alone && is_write
    }
}

/// What a power cut leaves stored of a phase.
#[derive(Clone, Copy, Debug)]
enum Kept {
    All,
    /// Any sectors.
    Sectors,
    /// All units but one in so many.
    Units(u64),
}

impl Kept {
    const TRIED: [Kept; 6] =
        [Kept::All, Kept::Sectors, Kept::Sectors, Kept::Units(2), Kept::Units(2), Kept::Units(5)];
}

/// One for a hot guest cluster, or any.
fn request(made: &Made, hot: &[u64], requests: &mut Requests, rng: &mut Rng) -> Request {
    let cluster = rng.pick(hot);
    let offset = cluster.saturating_mul(made.cluster() as u64);
    if offset >= made.size || rng.once_in(3) {
        return with_allowance(&requests.storing(rng), ALL);
    }
    if rng.once_in(3) {
        return Request::Discard { cluster, allowance: ALL };
    }
    let len = (made.size - offset).min(made.cluster() as u64);
    let at = rng.below(len);
    let some = 1 + rng.below(len - at);
    let few = some.min(3);
    let (at, len) = rng.pick(&[(0, len), (at, some), (at, few)]);
    Request::Write { offset: offset + at, data: rng.bytes(len as usize), allowance: ALL }
}

fn scratch(request: &Request) -> usize {
    match *request {
        Request::Repair { scratch, .. } => scratch,
        _ => 0,
    }
}

/// Plans a storing request after the first `held` rows.
pub fn plan(
    side: &dyn Batches,
    image: &[u8],
    backing: &[u8],
    request: &Request,
    scratch: &mut [u8],
    rows: &mut [u64],
    held: usize,
) -> Planned {
    match *request {
        Request::Write { offset, ref data, .. } => {
            side.batch_write(image, backing, offset, data.len() as u64, rows, held)
        }
        Request::Discard { cluster, .. } => side.batch_discard(image, backing, cluster, rows, held),
        Request::Repair { .. } => side.batch_repair(image, backing, scratch, rows, held),
        _ => unreachable!("not a storing request"),
    }
}
