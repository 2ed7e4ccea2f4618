//! Random series of calls, followed by the plain disk; and the drivers of the
//! differential tests, with this implementation on both sides.
#![forbid(unsafe_code)]

use made::drive;
use made::pair::{missing, Pair};
use made::rng::{setting, Rng};
use plain::Plain;

#[test]
fn random_series() {
    let mut rng = Rng::from_env("series", 31);
    let ended = drive::series(&Plain, &mut rng, setting("CALLS", 40_000));
    println!("finished, stopped, refused: {ended:?}");
    assert!(ended.iter().all(|&count| count > 0));
}

#[test]
fn cut_series() {
    let mut rng = Rng::from_env("cut series", 32);
    drive::series_cuts(&Plain, &mut rng, setting("CALLS", 40_000));
}

#[test]
fn both_sides() {
    let mut rng = Rng::from_env("both sides", 33);
    let mut pair = Pair::new(&Plain, &Plain);
    drive::compare(&mut pair, &mut rng, setting("CALLS", 100_000));
    println!("{:#?}", pair.tally);
    assert!(pair.calls < 50_000 || missing(&pair.tally).is_empty());
}

#[test]
fn both_sides_cut() {
    let mut rng = Rng::from_env("both sides, cut", 34);
    let mut pair = Pair::new(&Plain, &Plain);
    drive::compare_cuts(&mut pair, &mut rng, setting("CALLS", 60_000));
}
