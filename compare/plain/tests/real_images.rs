//! The images made by an independent program.
#![forbid(unsafe_code)]

use made::real_suite;
use plain::Plain;

#[test]
fn reports() {
    real_suite::reports(&Plain);
}

#[test]
fn guest_bytes() {
    real_suite::guest_bytes(&Plain);
}

#[test]
fn snapshots() {
    real_suite::snapshots(&Plain);
}

#[test]
fn lookups() {
    real_suite::lookups(&Plain);
}

#[test]
fn series() {
    real_suite::series(&Plain);
}
