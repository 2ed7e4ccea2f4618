//! Drivers of random runs.

use answers::{Calls, Outcome};
use plain::plain_disk::{Call, Series};

use crate::backing;
use crate::breaks::{break_header, ORDER};
use crate::damage;
use crate::image::Made;
use crate::pair::Pair;
use crate::plan::Plan;
use crate::requests::{Request, Requests};
use crate::rng::Rng;
use crate::snapshot_drive;
use crate::snapshots::{self, MAX_SNAPSHOTS};

/// A sound image with tables and entries, at times with snapshots and a backing
/// file.
pub fn sound(rng: &mut Rng) -> Made {
    let plan = Plan::random(rng);
    backing::maybe(sound_of(plan, rng), rng)
}

fn sound_of(plan: Plan, rng: &mut Rng) -> Made {
    let mut made = without_snapshots(plan, rng);
    if rng.once_in(3) {
        let few = 1 + rng.index(3);
        let many = 1 + rng.index(MAX_SNAPSHOTS);
        let count = rng.pick(&[few, few, few, few, few, few, few, many, MAX_SNAPSHOTS]);
        snapshots::add(&mut made, count, rng);
    }
    made
}

pub fn without_snapshots(plan: Plan, rng: &mut Rng) -> Made {
    let mut made = plan.build(rng);
    made.populate(rng);
    made
}

/// Sound or leaking, at times with no or little room, at times over a backing file.
pub fn usable(rng: &mut Rng) -> Made {
    let plan = Plan::random(rng);
    usable_over(plan, rng)
}

pub fn usable_over(plan: Plan, rng: &mut Rng) -> Made {
    backing::maybe(usable_of(plan, rng), rng)
}

/// The same with no backing file.
pub fn usable_of(plan: Plan, rng: &mut Rng) -> Made {
    let mut made = sound_of(plan, rng);
    if rng.once_in(3) {
        damage::leak(&mut made, rng);
    }
    if rng.once_in(6) {
        damage::fill_up(&mut made, rng);
    }
    made
}

/// An image of any kind: usable, damaged, refused or random.
pub fn any_image(rng: &mut Rng) -> Made {
    let plan = Plan::random(rng);
    any_image_of(plan, rng)
}

pub fn any_image_of(plan: Plan, rng: &mut Rng) -> Made {
    let mut made = usable_over(plan, rng);
    match rng.below(16) {
        0..=4 => {}
        5 => {
            let first = rng.index(ORDER.len());
            let last = first + rng.index(ORDER.len() - first);
            break_header(&mut made, ORDER[last], rng);
            break_header(&mut made, ORDER[first], rng);
        }
        6 => {
            // Any byte of the header, or the last of refcount_order.
            let (any, number) = (rng.index(104), rng.number() as u8);
            let (at, byte) = rng.pick(&[(any, number), (any, number), (99, number % 9)]);
            made.bytes[at] = byte;
        }
        7 if rng.once_in(8) => rng.fill(&mut made.bytes),
        _ => {
            for _ in 0..1 + rng.below(4) {
                rng.pick(&damage::ALL)(&mut made, rng);
            }
        }
    }
    made
}

/// Feeds both sides requests for random images until `calls` were made.
pub fn compare(pair: &mut Pair, rng: &mut Rng, calls: u64) {
    while pair.calls < calls {
        let made = any_image(rng);
        compare_on(pair, &made, rng);
    }
}

/// Feeds both sides the check, requests and cut requests for such images.
pub fn compare_such(pair: &mut Pair, rng: &mut Rng, calls: u64, such: fn(&mut Rng) -> Made) {
    while pair.calls < calls {
        let made = such(rng);
        pair.load(&made);
        pair.run(&Request::Check { scratch: made.scratch() });
        compare_on(pair, &made, rng);
        if rng.once_in(4) {
            compare_cuts_on(pair, &made, rng);
        }
    }
}

/// Some requests for one image.
pub fn compare_on(pair: &mut Pair, made: &Made, rng: &mut Rng) {
    pair.load(made);
    let mut requests = Requests::new(made);
    for _ in 0..8 + rng.below(24) {
        pair.run(&requests.any(rng));
        if rng.once_in(32) {
            pair.load(made);
        }
    }
}

/// Feeds both sides requests for steps, each with room for 0 to 31 numbers,
/// until `calls` were made; every third image has snapshots.
pub fn compare_steps(pair: &mut Pair, rng: &mut Rng, calls: u64) {
    while pair.calls < calls {
        let made = if rng.once_in(3) { snapshot_drive::any_over(rng) } else { any_image(rng) };
        pair.load(&made);
        pair.run(&Request::Geometry);
        let mut requests = Requests::new(&made);
        for _ in 0..6 {
            let request = requests.steps(rng);
            for room in 0..=31 {
                pair.run(&request.steps(room));
            }
            pair.run(&requests.storing(rng));
        }
    }
}

/// The request with another allowance.
pub fn with_allowance(request: &Request, allowance: u64) -> Request {
    let mut request = request.clone();
    match &mut request {
        Request::Write { allowance: old, .. }
        | Request::Discard { allowance: old, .. }
        | Request::Repair { allowance: old, .. }
        | Request::Extend { allowance: old, .. } => *old = allowance,
        _ => {}
    }
    request
}

/// Where to cut a list: everywhere if it is short, else at the edges of its
/// runs and at random places.
pub fn cuts(units: u64, cluster: u64, rng: &mut Rng) -> Vec<u64> {
    if units <= 40 || units <= 1100 && rng.once_in(16) {
        return (0..=units + 1).collect();
    }
    let edges = [0, cluster, 2 * cluster, units];
    let mut cuts: Vec<u64> = (0..5).map(|_| rng.below(units)).collect();
    for edge in edges {
        cuts.extend((edge.saturating_sub(3)..=edge + 4).filter(|&cut| cut <= units + 1));
    }
    cuts.sort_unstable();
    cuts.dedup();
    cuts
}

/// Cuts requests for random images until `calls` calls were made.
pub fn compare_cuts(pair: &mut Pair, rng: &mut Rng, calls: u64) {
    while pair.calls < calls {
        let made = any_image(rng);
        compare_cuts_on(pair, &made, rng);
    }
}

/// Cuts some requests at many units, each time from the same image.
pub fn compare_cuts_on(pair: &mut Pair, made: &Made, rng: &mut Rng) {
    let mut requests = Requests::new(made);
    for _ in 0..4 {
        let request = requests.storing(rng);
        pair.load(made);
        let whole = pair.run(&with_allowance(&request, u64::MAX));
        let Some(Outcome::Finished(units)) = whole else {
            continue;
        };
        for cut in cuts(units, made.cluster() as u64, rng) {
            pair.load(made);
            pair.run(&with_allowance(&request, cut));
        }
    }
}

/// A request as a call of a series, with its allowance.
pub(crate) fn call(request: &Request) -> (Call<'_>, u64) {
    match *request {
        Request::Write { offset, ref data, allowance } => (Call::Write { offset, data }, allowance),
        Request::Discard { cluster, allowance } => (Call::Discard { cluster }, allowance),
        Request::Repair { scratch, allowance } => (Call::Repair { scratch }, allowance),
        _ => unreachable!("not a storing request"),
    }
}

pub(crate) fn step(series: &mut Series, image: &mut [u8], request: &Request) -> Outcome {
    let (asked, allowance) = call(request);
    series.step(image, asked, allowance).unwrap_or_else(|fault| panic!("{fault}: {request:?}"))
}

/// Random series of one side, followed by the plain disk, until `calls` calls
/// were made; how many were finished, stopped and refused.
pub fn series(side: &dyn Calls, rng: &mut Rng, calls: u64) -> [u64; 3] {
    let mut ended = [0; 3];
    while ended.iter().sum::<u64>() < calls {
        let made = usable(rng);
        series_on(side, &made, rng, &mut ended);
    }
    ended
}

/// The same whole and cut, on such images; how many were finished, stopped and
/// refused in the whole ones.
pub fn series_such(
    side: &dyn Calls,
    rng: &mut Rng,
    calls: u64,
    such: fn(&mut Rng) -> Made,
) -> [u64; 3] {
    let (mut ended, mut cut) = ([0; 3], 0);
    while ended.iter().sum::<u64>() + cut < calls {
        let made = such(rng);
        series_on(side, &made, rng, &mut ended);
        cut += series_cuts_on(side, &made, rng);
    }
    ended
}

/// One series, from this image on.
pub fn series_on(side: &dyn Calls, made: &Made, rng: &mut Rng, ended: &mut [u64; 3]) {
    let mut image = made.bytes.clone();
    let mut requests = Requests::new(made);
    let mut series = Series::start(made.over(side), &image).expect("a usable image");
    for _ in 0..20 + rng.below(60) {
        let request = requests.storing(rng);
        match step(&mut series, &mut image, &request) {
            Outcome::Finished(_) => ended[0] += 1,
            Outcome::Stopped(_) => ended[1] += 1,
            Outcome::Refused(_) => ended[2] += 1,
        }
    }
}

/// Cuts requests for random images at many units, until `calls` calls were made.
pub fn series_cuts(side: &dyn Calls, rng: &mut Rng, calls: u64) {
    let mut made_calls = 0;
    while made_calls < calls {
        let made = usable(rng);
        made_calls += series_cuts_on(side, &made, rng);
    }
}

/// Cuts requests at many units; after each cut the request once more, a repair
/// or a discard. Returns the calls made.
pub fn series_cuts_on(side: &dyn Calls, made: &Made, rng: &mut Rng) -> u64 {
    let mut made_calls = 0;
    let start = Series::start(made.over(side), &made.bytes).expect("a usable image");
    let mut requests = Requests::new(made);
    for _ in 0..3 {
        let request = requests.storing(rng);
        let (mut series, mut image) = (start.clone(), made.bytes.clone());
        let whole = step(&mut series, &mut image, &with_allowance(&request, u64::MAX));
        made_calls += 1;
        let Outcome::Finished(units) = whole else {
            continue;
        };
        for cut in cuts(units, made.cluster() as u64, rng) {
            let (mut series, mut image) = (start.clone(), made.bytes.clone());
            step(&mut series, &mut image, &with_allowance(&request, cut));
            let repair = Request::Repair { scratch: made.scratch(), allowance: u64::MAX };
            let discard = requests.storing(rng);
            let next = [&request, &repair, &discard][rng.index(3)].clone();
            step(&mut series, &mut image, &with_allowance(&next, u64::MAX));
            made_calls += 2;
        }
    }
    made_calls
}
