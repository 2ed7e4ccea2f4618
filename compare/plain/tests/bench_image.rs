//! The paper's bench image and every line about it.
#![forbid(unsafe_code)]

#[test]
fn bench_image() {
    made::bench_suite::all(&plain::Plain);
}
