//! `qstore`: the proved qcow2 core as a command over image files. The core
//! works on the image in memory and says which bytes a call changes and where a
//! flush has to stand; this crate brings them to the file so, and a power cut
//! leaves a file that the core has promised about.
#![forbid(unsafe_code)]

pub mod args;
pub mod autoclear;
pub mod backing;
pub mod batch;
pub mod bring;
pub mod call;
pub mod commands;
pub mod damage;
pub mod date;
pub mod digest;
pub mod disk;
pub mod extensions;
pub mod extents;
pub mod facts;
pub mod fields;
pub mod findings;
pub mod foreseen;
pub mod guest;
pub mod help;
pub mod image_file;
pub mod json;
pub mod kept_check;
pub mod layout;
pub mod lock;
pub mod longer;
pub mod man;
pub mod marks;
pub mod memory;
pub mod mended;
pub mod number;
pub mod obstacles;
pub mod ordered;
pub mod owners;
pub mod planner;
pub mod position;
pub mod progress;
pub mod report;
pub mod runs;
pub mod sentences;
pub mod snapshots;
pub mod state_file;
pub mod steps;
pub mod touched;
pub mod walk;
pub mod width;
