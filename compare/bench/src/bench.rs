//! The clock: one row of a table for one case, the sides taking turns.

use std::time::{Duration, Instant};

use answers::Over;
use made::image::Made;
use made::rng::setting;
use plain::Plain;
use qcow2_core::Core;

pub const ALL_UNITS: u64 = u64::MAX;

/// The longest request.
pub const REQUEST: usize = 64 << 10;

/// What the calls of one run work on.
pub struct Buffers {
    pub image: Vec<u8>,
    pub scratch: Vec<u8>,
    pub out: Vec<u8>,
}

pub struct Bench {
    pub runs: usize,
}

/// One timed run of a side, which is lent the image's backing file.
pub type Run<'a> = &'a dyn Fn(Over, &mut Buffers) -> Duration;

/// One timed run of any kind, with a scratch; a part of its time comes second.
pub type Turn<'a> = &'a dyn Fn(&mut [u8]) -> [Duration; 2];

/// The longest that the runs of one row may take together, in seconds.
const LONGEST: f64 = 20.0;

pub fn timed(work: impl FnOnce()) -> Duration {
    let start = Instant::now();
    work();
    start.elapsed()
}

impl Bench {
    pub fn from_env() -> Bench {
        Bench { runs: setting("RUNS", 31).max(1) as usize }
    }

    /// For calls after which the image is as before. Its tables and counts
    /// stay in the cache from run to run.
    pub fn row(&self, name: &str, made: &Made, calls: usize, run: Run) {
        self.measure(name, made, calls, false, run);
    }

    /// For calls that change the image: it is restored before each run.
    pub fn row_restored(&self, name: &str, made: &Made, calls: usize, run: Run) {
        self.measure(name, made, calls, true, run);
    }

    fn measure(&self, name: &str, made: &Made, calls: usize, restored: bool, run: Run) {
        let [core, plain] = self.times(made, calls, restored, run);
        let ratio = |k: usize| core[k] / plain[k];
        println!(
            "| {name} | {} | {} | {:.2} | {:.2} |",
            spread(&core),
            spread(&plain),
            ratio(core.len() / 2),
            ratio(0)
        );
    }

    /// The times of several kinds of runs in turn, rising. Long ones are run less often,
    /// three times at least; the first round, which warms up, is not counted.
    pub fn turns(&self, scratch: usize, turns: &[Turn]) -> Vec<[Vec<f64>; 2]> {
        let (mut scratch, start) = (vec![0; scratch], Instant::now());
        let mut times = vec![[Vec::new(), Vec::new()]; turns.len()];
        for round in 0..=self.runs {
            let elapsed = start.elapsed().as_secs_f64();
            if round > 3 && elapsed * (round + 1) as f64 > LONGEST * round as f64 {
                break;
            }
            for k in (0..turns.len()).map(|k| (k + round) % turns.len()) {
                let run = turns[k](&mut scratch).map(|time| time.as_nanos() as f64 / 1000.0);
                if round > 0 {
                    times[k].iter_mut().zip(run).for_each(|(of, time)| of.push(time));
                }
            }
        }
        times.iter_mut().flatten().for_each(|of| of.sort_unstable_by(f64::total_cmp));
        times
    }

    /// The times of core and plain, rising; the side that goes first changes
    /// each time, and the first round, which warms up, is not counted.
    fn times(&self, made: &Made, calls: usize, restored: bool, run: Run) -> [Vec<f64>; 2] {
        let sides = [made.over(&Core), made.over(&Plain)];
        let mut buffers = Buffers {
            image: made.bytes.clone(),
            scratch: vec![0; made.scratch()],
            out: vec![0; REQUEST],
        };
        let mut times = [Vec::new(), Vec::new()];
        for round in 0..=self.runs {
            for k in [round % 2, 1 - round % 2] {
                if restored {
                    buffers.image.copy_from_slice(&made.bytes);
                }
                buffers.scratch.fill(0);
                buffers.out.fill(0);
                let time = run(sides[k], &mut buffers);
                if round > 0 {
                    times[k].push(time.as_nanos() as f64 / 1000.0 / calls as f64);
                }
            }
        }
        times.map(|mut times| {
            times.sort_unstable_by(f64::total_cmp);
            times
        })
    }
}

/// Least, median and greatest.
pub fn spread(times: &[f64]) -> String {
    let of = |k: usize| match times[times.len() / 2] {
        t if t < 10.0 => format!("{:.2}", times[k]),
        _ => format!("{:.1}", times[k]),
    };
    format!("{} / **{}** / {}", of(0), of(times.len() / 2), of(times.len() - 1))
}
