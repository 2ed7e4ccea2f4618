//! The paper's bench image and every line about it, for the core.
#![forbid(unsafe_code)]

#[test]
fn bench_image() {
    made::bench_suite::all(&qcow2_core::Core);
}
