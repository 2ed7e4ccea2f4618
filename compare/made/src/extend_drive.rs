//! Drivers of runs that take in appended clusters: two implementations side by
//! side on any bytes, and one followed from a sound or leaking image on.

use answers::{Calls, Outcome, Over, Verdict};
use plain::plain_disk::Series;

use crate::clearing::call as run;
use crate::drive::step;
use crate::longer::{self, Longer};
use crate::longer_damage::any;
use crate::pair::Pair;
use crate::requests::{Request, Requests};
use crate::rng::Rng;

const ALL: u64 = u64::MAX;

/// What a random comparison has to meet.
pub const WANTED: [&str; 15] = [
    "extend Finished",
    "extend Stopped",
    "extend Refused(1)",
    "extend Refused(2)",
    "extend Refused(3)",
    "extend Refused(4)",
    "extend Refused(5)",
    "extend Refused(6)",
    "extend Refused(7)",
    "extend Refused(8)",
    "extend Refused(18)",
    "extend Refused(9)",
    "extend Refused(10)",
    "extend Refused(19)",
    "extend Refused(21)",
];

/// Feeds both sides images of every kind that were made longer, until so many calls
/// were made.
pub fn compare(pair: &mut Pair, rng: &mut Rng, calls: u64) {
    while pair.calls < calls {
        let longer = any(rng);
        compare_on(pair, &longer, rng);
    }
}

/// Some old lengths; a list is cut at many units, and goes on from there at times.
pub fn compare_on(pair: &mut Pair, longer: &Longer, rng: &mut Rng) {
    let mut requests = Requests::new(&longer.made);
    for _ in 0..4 {
        let old = longer.old_length(rng);
        let extend = |allowance| Request::Extend { old, allowance };
        pair.load(&longer.made);
        let Some(Outcome::Finished(units @ 1..)) = pair.run(&extend(ALL)) else { continue };
        pair.run(&extend(ALL));
        for allowance in allowances(longer, units, rng) {
            pair.load(&longer.made);
            pair.run(&extend(allowance));
            if rng.once_in(3) {
                pair.run(&requests.any(rng));
                let old = longer.old_length(rng);
                pair.run(&Request::Extend { old, allowance: rng.pick(&[allowance, ALL]) });
            }
        }
    }
}

/// Where to cut a list of so many units: around the edges of its runs, and anywhere.
fn allowances(longer: &Longer, units: u64, rng: &mut Rng) -> Vec<u64> {
    let block = longer.made.cluster() as u64 + 1;
    let edge = block * rng.below(units / block + 1);
    let near = (edge + rng.below(6)).saturating_sub(2);
    vec![0, 1, 2, near, rng.below(units), units - 1, units, units + 1]
}

/// What followed runs have met.
#[derive(Debug, Default)]
pub struct Met {
    /// Series with new blocks, and with none.
    pub series: [u64; 2],
    /// Runs that were cut smoothly, and inside a fill.
    pub cuts: [u64; 2],
    /// Other calls that were refused meanwhile.
    pub refused: u64,
    /// Images that were sound in the end, and that leaked.
    pub ended: [u64; 2],
    pub calls: u64,
}

impl Met {
    pub fn everything(&self) -> bool {
        let each = self.series.into_iter().chain(self.cuts).chain(self.ended);
        each.chain([self.refused]).all(|count| count > 0)
    }
}

/// Series on images that were made longer, until so many calls were made; at times
/// they are made longer once more.
pub fn follow(side: &dyn Calls, rng: &mut Rng, calls: u64) -> Met {
    let mut met = Met::default();
    while met.calls < calls {
        let mut longer = longer::usable(rng);
        // Else the table is too short.
        while longer.new_blocks().end <= longer.made.table_clusters * longer.made.cluster() / 8 {
            let image = follow_on(side, &longer, rng, &mut met);
            if image.len() > 2 << 20 || !rng.once_in(3) {
                break;
            }
            longer = longer.longer_still(image, rng);
        }
    }
    met
}

/// Runs with any allowance, cut smoothly or roughly, and other calls between them,
/// until the work is done; then the usual calls go on. The image in the end.
pub fn follow_on(side: &dyn Calls, longer: &Longer, rng: &mut Rng, met: &mut Met) -> Vec<u8> {
    let side = longer.made.over(side);
    let (earlier, start) = (&longer.made.bytes[..longer.old], &longer.made.bytes);
    let series = Series::start(side, earlier).expect("a usable image");
    let uncut = extended(side, start, longer.old as u64, ALL);
    let Outcome::Finished(units) = uncut.0 else { panic!("{:?}", uncut.0) };
    assert_eq!(units, expected_units(longer), "units of an uncut run");
    assert!(uncut.1 == longer.taken_in(), "bytes of an uncut run");
    met.series[usize::from(units == 0)] += 1;
    let mut image = start.clone();
    while !turn(side, longer, &uncut.1, &mut image, rng, met) {}
    assert!(image == uncut.1, "not the bytes of one uncut run");
    let leaks = expected_leaks(side, longer, earlier);
    let verdict = side.check(&image, &mut vec![0x5A; longer.made.scratch()]);
    assert_eq!(verdict, if leaks == 0 { Verdict::Sound } else { Verdict::Leaks(leaks) });
    met.ended[usize::from(leaks > 0)] += 1;
    go_on(series, longer, &mut image, rng);
    image
}

/// One run, which has to lead to `uncut` if it is not cut; was it the last? Until then
/// no other call is let through.
fn turn(
    side: Over,
    longer: &Longer,
    uncut: &[u8],
    image: &mut Vec<u8>,
    rng: &mut Rng,
    met: &mut Met,
) -> bool {
    let old = match rng.below(3) {
        0 => longer.old as u64,
        1 => longer.alike(rng),
        _ => longer.alike_named(image, rng),
    };
    let (outcome, whole) = extended(side, image, old, ALL);
    assert!(whole == uncut, "from {old} on: not the bytes of one uncut run");
    let Outcome::Finished(left) = outcome else { panic!("{outcome:?}") };
    if left > 0 {
        refuse_all(side, longer, image, rng, met);
    }
    let block = longer.made.cluster() as u64 + 1;
    let some = rng.below(3 * block);
    let allowance = rng.pick(&[0, 1, block - 1, block, some, some, some, left, ALL]);
    let (outcome, after) = extended(side, image, old, allowance);
    *image = after;
    met.calls += 1;
    if allowance >= left {
        assert_eq!(outcome, Outcome::Finished(left));
        return true;
    }
    assert_eq!(outcome, Outcome::Stopped(allowance));
    let is_rough = rng.once_in(2) && roughen(side, longer, old, image, rng);
    met.cuts[usize::from(is_rough)] += 1;
    false
}

/// One call on a copy of the image.
fn extended(side: Over, image: &[u8], old: u64, allowance: u64) -> (Outcome, Vec<u8>) {
    let (outcome, image, _) = run(side, image, &Request::Extend { old, allowance });
    (outcome, image)
}

/// By the paper: C + 1 for each new block, and the clearing unit.
fn expected_units(longer: &Longer) -> u64 {
    match longer.new_blocks().len() as u64 {
        0 => 0,
        blocks => blocks * (longer.made.cluster() as u64 + 1) + longer.made.clearing(),
    }
}

/// The earlier image's leaks, and the counts that it had past its end.
fn expected_leaks(side: Over, longer: &Longer, earlier: &[u8]) -> u64 {
    let clusters = earlier.len() >> longer.made.cluster_bits;
    let before = match side.check(earlier, &mut vec![0; 2 * clusters]) {
        Verdict::Sound => 0,
        Verdict::Leaks(leaks) => leaks,
        other => panic!("{other:?}"),
    };
    let counted = longer.made.blocks.len() * longer.made.per_block();
    let past = clusters..counted.min(longer.made.clusters());
    before + past.filter(|&cluster| longer.made.count(cluster) != 0).count() as u64
}

/// Any bytes more of the fill at which the run was cut, if it was cut inside one.
fn roughen(side: Over, longer: &Longer, old: u64, image: &mut [u8], rng: &mut Rng) -> bool {
    // A run over again fills the block, and stops before its entry.
    let clearing = u64::from(longer.made.version == 3 && image[88..96] != [0; 8]);
    let filled = extended(side, image, old, clearing + longer.made.cluster() as u64).1;
    if clearing == 1 || filled == *image {
        return false;
    }
    for (byte, &new) in image.iter_mut().zip(&filled) {
        if *byte != new && rng.once_in(2) {
            *byte = new;
        }
    }
    true
}

/// Until the last new block is named every other call is refused with 10 and
/// changes nothing.
fn refuse_all(side: Over, longer: &Longer, image: &[u8], rng: &mut Rng, met: &mut Met) {
    let mut requests = Requests::new(&longer.made);
    let request = requests.storing(rng);
    let (outcome, after, scratch) = run(side, image, &request);
    assert_eq!(outcome, Outcome::Refused(10), "{request:?}");
    assert!(after == image && scratch.iter().all(|&byte| byte == 0x5A), "{request:?}");
    let (mut out, offset) = (vec![0xC3; 9], requests.offset(rng));
    assert_eq!(side.read(image, offset, &mut out), Err(10));
    assert_eq!(side.read_snapshot(image, rng.below(3), offset, &mut out), Err(10));
    assert_eq!(side.check(image, &mut out), Verdict::Refused(10));
    assert_eq!(side.geometry(image), Err(10));
    assert!(out == [0xC3; 9]);
    met.refused += 1;
}

/// Guest and snapshot bytes read as before, and the usual calls store.
fn go_on(mut series: Series, longer: &Longer, image: &mut [u8], rng: &mut Rng) {
    series.goes_on(image).unwrap_or_else(|fault| panic!("{fault}: taken in"));
    let mut requests = Requests::new(&longer.made);
    for _ in 0..4 + rng.below(8) {
        step(&mut series, image, &requests.storing(rng));
    }
}
