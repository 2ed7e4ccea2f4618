//! Each of the longest cluster sizes, which random plans seldom have.
#![forbid(unsafe_code)]

use made::drive;
use made::pair::Pair;
use made::plan::{Plan, LONG_BITS, MAX_BITS};
use made::rng::Rng;
use plain::Plain;
use qcow2_core::Core;

#[test]
fn requests() {
    let mut rng = Rng::from_env("requests", 81);
    let mut pair = Pair::new(&Core, &Plain);
    for cluster_bits in LONG_BITS..=MAX_BITS {
        for any in [false, false, true, true] {
            let plan = Plan::random_with(cluster_bits, &mut rng);
            let made = match any {
                true => drive::any_image_of(plan, &mut rng),
                false => drive::usable_over(plan, &mut rng),
            };
            drive::compare_on(&mut pair, &made, &mut rng);
        }
    }
}

#[test]
fn cuts() {
    let mut rng = Rng::from_env("cuts", 82);
    let mut pair = Pair::new(&Core, &Plain);
    for cluster_bits in LONG_BITS..=MAX_BITS {
        let plan = Plan::random_with(cluster_bits, &mut rng);
        let made = drive::usable_over(plan, &mut rng);
        drive::compare_cuts_on(&mut pair, &made, &mut rng);
    }
}

#[test]
fn series() {
    let mut rng = Rng::from_env("series", 83);
    let mut ended = [0; 3];
    for cluster_bits in LONG_BITS..=MAX_BITS {
        let plan = Plan::random_with(cluster_bits, &mut rng);
        let made = drive::usable_over(plan, &mut rng);
        drive::series_on(&Core, &made, &mut rng, &mut ended);
    }
    println!("finished, stopped, refused: {ended:?}");
    assert!(ended.iter().all(|&count| count > 0));
}
