//! The core's unit that clears the autoclear bits.
#![forbid(unsafe_code)]

use made::clearing;
use made::pair::Pair;
use plain::Plain;
use qcow2_core::Core;

#[test]
fn figures() {
    clearing::figures(&Core);
}

#[test]
fn version_2() {
    clearing::version_2(&Core);
}

#[test]
fn overlapping() {
    clearing::compare_overlapping(&mut Pair::new(&Core, &Plain));
}
