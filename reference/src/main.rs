//! `reference cases PART FILE SEED COUNT` writes a case file and prints its tally.

use reference::cases::{self, Part};
use std::process::ExitCode;

const USAGE: &str =
    "usage: reference cases blocks|offsets|commands|verifications|lab|soak FILE SEED COUNT";

fn main() -> ExitCode {
    let arguments: Vec<String> = std::env::args().skip(1).collect();
    match run(&arguments) {
        Ok(text) => {
            println!("{text}");
            ExitCode::SUCCESS
        }
        Err(text) => {
            eprintln!("{text}");
            ExitCode::FAILURE
        }
    }
}

fn run(arguments: &[String]) -> Result<String, String> {
    let [command, part, file, seed, count] = arguments else {
        return Err(USAGE.to_string());
    };
    if command != "cases" {
        return Err(USAGE.to_string());
    }
    let part = Part::of_name(part).ok_or(USAGE)?;
    let seed = seed.parse().map_err(|_| "SEED is a number")?;
    let count = count.parse().map_err(|_| "COUNT is a number")?;
    cases::make(part, file, seed, count).map(|tally| tally.to_string())
}
