//! The images made by an independent program, read by the core.
#![forbid(unsafe_code)]

use made::real_suite;
use qcow2_core::Core;

#[test]
fn reports() {
    real_suite::reports(&Core);
}

#[test]
fn guest_bytes() {
    real_suite::guest_bytes(&Core);
}

#[test]
fn snapshots() {
    real_suite::snapshots(&Core);
}

#[test]
fn lookups() {
    real_suite::lookups(&Core);
}

#[test]
fn series() {
    real_suite::series(&Core);
}
