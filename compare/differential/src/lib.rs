//! Tests of the proved core against the plain implementation: see `tests`.
#![forbid(unsafe_code)]
