#![forbid(unsafe_code)]

use std::ffi::OsString;
use std::process::ExitCode;

use qstore::args::{self, Parsed};
use qstore::{commands, man, report};

fn main() -> ExitCode {
    let line: Vec<OsString> = std::env::args_os().skip(1).collect();
    let exit = match args::parse(line.iter().cloned()) {
        Ok(Parsed::Help(text)) => report::print(text, report::DONE),
        Ok(Parsed::Man) => report::print(&man::page(), report::DONE),
        Ok(Parsed::Version) => {
            report::print(&format!("qstore {}\n", env!("CARGO_PKG_VERSION")), report::DONE)
        }
        Ok(Parsed::Run(options)) => {
            let (notes, answer) = commands::run(&options);
            report::show(&options, notes, answer)
        }
        Err(message) => report::usage(args::asks_json(&line), &message),
    };
    ExitCode::from(exit)
}
