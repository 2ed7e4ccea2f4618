//! Times the proved core and the plain implementation side by side and prints
//! tables of ratios. An argument chooses one family of cases: check, short,
//! shared, snapshots, portions, free, read, backed, map, store, batch, extend, long or
//! widths.
#![forbid(unsafe_code)]

mod backed;
mod batch;
mod bench;
mod check;
mod damaged;
mod extend;
mod free;
mod long;
mod map;
mod portions;
mod read;
mod snapshots;
mod store;
mod widths;

use bench::Bench;

/// A family's name and its cases.
type Family = (&'static str, fn(&Bench));

const FAMILIES: [Family; 14] = [
    ("check", check::run),
    ("short", damaged::short),
    ("shared", damaged::shared),
    ("snapshots", snapshots::run),
    ("portions", portions::run),
    ("free", free::run),
    ("read", read::run),
    ("backed", backed::run),
    ("map", map::run),
    ("store", store::run),
    ("batch", batch::run),
    ("extend", extend::run),
    ("long", long::run),
    ("widths", widths::run),
];

fn main() {
    let wanted = std::env::args().nth(1);
    let bench = Bench::from_env();
    println!(
        "Microseconds for one call, least / median / greatest of {} runs, the sides in turn; \
         ratios core/plain of the medians and of the least times.",
        bench.runs
    );
    let mut found = false;
    for (name, run) in FAMILIES {
        if wanted.as_deref().is_none_or(|wanted| wanted == name) {
            found = true;
            // This one compares the core with itself too.
            if name != "portions" {
                println!("\n| {name} | core | plain | ratio | of the least |");
                println!("|---|---|---|---|---|");
            }
            run(&bench);
        }
    }
    assert!(found, "no such family of cases");
}
