//! `cases SEED COUNT OUTDIR` writes at least COUNT test cases to OUTDIR/cases.txt, one to a line
//! (see `walk::case`). The seed and the number of cases for each call are printed; how often each
//! cause occurs goes to standard error.

use std::fs::{create_dir_all, File};
use std::io::{BufWriter, Write};
use std::path::Path;
use std::process::ExitCode;
use walk::case::{Case, NAMES};
use walk::generate::cases;

fn main() -> ExitCode {
    let arguments: Vec<String> = std::env::args().skip(1).collect();
    let [seed, count, directory] = &arguments[..] else {
        eprintln!("usage: cases SEED COUNT OUTDIR");
        return ExitCode::from(2);
    };
    let (Ok(seed), Ok(count)) = (seed.parse(), count.parse()) else {
        eprintln!("SEED and COUNT are numbers");
        return ExitCode::from(2);
    };
    let cases = cases(seed, count);
    if let Err(error) = save(Path::new(directory), &cases) {
        eprintln!("{directory}: {error}");
        return ExitCode::FAILURE;
    }
    eprint!("{}", tally(&cases));
    let mut by_call = [0; NAMES.len()];
    for case in &cases {
        by_call[case.call()] += 1;
    }
    let calls = NAMES.iter().zip(by_call);
    let calls: Vec<String> = calls
        .map(|(name, count)| format!("{name} {count}"))
        .collect();
    println!("seed {seed}: {} cases, {}", cases.len(), calls.join(", "));
    ExitCode::SUCCESS
}

fn save(directory: &Path, cases: &[Case]) -> std::io::Result<()> {
    create_dir_all(directory)?;
    let mut file = BufWriter::new(File::create(directory.join("cases.txt"))?);
    for case in cases {
        writeln!(file, "{}", case.line())?;
    }
    file.flush()
}

/// A table of calls by outcome: answered (for the reader: the bytes ran out), causes 1 to 13, and
/// bad jobs.
fn tally(cases: &[Case]) -> String {
    let mut counts = [[0u32; 15]; NAMES.len()];
    for case in cases {
        counts[case.call()][outcome(case)] += 1;
    }
    let mut text = format!("{:8} {:>5}", "call", "taken");
    for cause in 1..=13 {
        text += &format!(" {cause:>4}");
    }
    text += "  bad\n";
    for (name, row) in NAMES.iter().zip(counts) {
        text += &format!("{name:8} {:>5}", row[0]);
        for count in &row[1..] {
            text += &format!(" {count:>4}");
        }
        text += "\n";
    }
    text
}

/// 0 for an answer, the cause of a refusal, 14 for a bad job.
fn outcome(case: &Case) -> usize {
    let expected = case.expected();
    let cause = |number: u64| usize::try_from(number).expect("a cause is small");
    match case {
        Case::Reader { .. } => cause(expected[expected.len() - 3]),
        Case::Join { .. } => {
            let bytes = expected.iter().map(|&byte| byte as u8).collect();
            let text = String::from_utf8(bytes).unwrap_or_default();
            match text.strip_prefix("refused ") {
                Some(rest) => {
                    let number = rest.split(' ').next().and_then(|word| word.parse().ok());
                    cause(number.expect("a refusal has a cause"))
                }
                None if text.starts_with("bad job") => 14,
                None => 0,
            }
        }
        _ if expected[0] == 1 => cause(expected[1]),
        _ => 0,
    }
}
