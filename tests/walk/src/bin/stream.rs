//! `stream N SIZE SEED LENGTH` prints the first LENGTH bytes of the stream that is written at SIZE for a
//! random truth table of N options.

use std::io::Write;
use std::process::ExitCode;
use walk::calls::write;
use walk::limits::{LEAST_RECORDS, MOST_SIZE};
use walk::random::Random;

/// More than any stream of 16 options takes.
const OUTPUT: usize = 1 << 20;

fn main() -> ExitCode {
    let arguments = std::env::args().skip(1).map(|word| word.parse());
    let arguments: Result<Vec<u64>, _> = arguments.collect();
    let Ok([n @ 3..=16, size @ 0..=MOST_SIZE, seed, length]) = arguments.as_deref() else {
        eprintln!("usage: stream N SIZE SEED LENGTH");
        return ExitCode::from(2);
    };
    let truth = Random::new(*seed).garbage((1 << n) / 8);
    let (mut output, mut table) = (vec![0; OUTPUT], vec![0; LEAST_RECORDS]);
    let written = write(*n, *size, &truth, &mut output, &mut table).expect("the call is taken");
    let end = written.bytes.min(*length as usize);
    match std::io::stdout().write_all(&output[..end]) {
        Ok(()) => ExitCode::SUCCESS,
        Err(_) => ExitCode::FAILURE,
    }
}
