//! `join` answers the job on standard input as document 01, "Program", has it.

use std::io::{Read, Write};
use std::process::ExitCode;
use walk::join::join;

fn main() -> ExitCode {
    let mut input = Vec::new();
    if let Err(error) = std::io::stdin().read_to_end(&mut input) {
        eprintln!("join: {error}");
        return ExitCode::FAILURE;
    }
    match std::io::stdout().write_all(&join(&input)) {
        Ok(()) => ExitCode::SUCCESS,
        Err(_) => ExitCode::FAILURE,
    }
}
