//! `cases usi|bus|arbitration`: answers a script from standard input by the model.

use rehearsal_model::cases::{arbitration, bus, usi};
use std::io::{read_to_string, stdin};
use std::process::ExitCode;

fn main() -> ExitCode {
    match answers() {
        Ok(text) => {
            print!("{text}");
            ExitCode::SUCCESS
        }
        Err(problem) => {
            eprintln!("cases: {problem}");
            ExitCode::FAILURE
        }
    }
}

fn answers() -> Result<String, String> {
    let program = match std::env::args().nth(1).as_deref() {
        Some("usi") => usi,
        Some("bus") => bus,
        Some("arbitration") => arbitration,
        _ => return Err("usage: cases usi|bus|arbitration < script".to_string()),
    };
    program(&read_to_string(stdin()).map_err(|problem| problem.to_string())?)
}
