//! Compares the proved tracker with the Rust rules and times both.
mod compare;
mod inputs;
mod random;
mod timing;
mod tracker;

use std::process::ExitCode;

fn number(argument: Option<&String>, default: u64) -> u64 {
    argument.and_then(|text| text.parse().ok()).unwrap_or(default)
}

fn main() -> ExitCode {
    let arguments: Vec<String> = std::env::args().skip(1).collect();
    let done = match arguments.first().map(String::as_str) {
        Some("compare") => compare::run(number(arguments.get(1), 1), number(arguments.get(2), 100_000)),
        Some("time") => timing::run(arguments.get(1).map(Into::into)),
        _ => Err("bench compare [SEED] [COUNT]\nbench time [CLAIMRUN]".into()),
    };
    match done {
        Ok(()) => ExitCode::SUCCESS,
        Err(message) => {
            eprintln!("{message}");
            ExitCode::FAILURE
        }
    }
}
