//! Random series of calls of the core, followed by the plain disk.
#![forbid(unsafe_code)]

use made::drive;
use made::rng::{setting, Rng};
use qcow2_core::Core;

#[test]
fn random_series() {
    let mut rng = Rng::from_env("series", 51);
    let ended = drive::series(&Core, &mut rng, setting("CALLS", 60_000));
    println!("finished, stopped, refused: {ended:?}");
    assert!(ended.iter().all(|&count| count > 0));
}

#[test]
fn cut_series() {
    let mut rng = Rng::from_env("cut series", 52);
    drive::series_cuts(&Core, &mut rng, setting("CALLS", 60_000));
}
