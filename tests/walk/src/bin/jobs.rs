//! `jobs SEED COUNT OUTDIR` writes the jobs among COUNT cases for SEED (see `walk::generate`), each as a file
//! OUTDIR/NUMBER.job.

use std::fs::{create_dir_all, write};
use std::path::Path;
use std::process::ExitCode;
use walk::case::Case;
use walk::generate::cases;

fn main() -> ExitCode {
    let arguments: Vec<String> = std::env::args().skip(1).collect();
    let [seed, count, directory] = &arguments[..] else {
        eprintln!("usage: jobs SEED COUNT OUTDIR");
        return ExitCode::from(2);
    };
    let (Ok(seed), Ok(count)) = (seed.parse(), count.parse()) else {
        eprintln!("SEED and COUNT are numbers");
        return ExitCode::from(2);
    };
    match save(Path::new(directory), cases(seed, count)) {
        Ok(()) => ExitCode::SUCCESS,
        Err(error) => {
            eprintln!("{directory}: {error}");
            ExitCode::FAILURE
        }
    }
}

fn save(directory: &Path, cases: Vec<Case>) -> std::io::Result<()> {
    create_dir_all(directory)?;
    let jobs = cases.into_iter().filter_map(|case| match case {
        Case::Join { input } => Some(input),
        _ => None,
    });
    for (number, job) in (1..).zip(jobs) {
        write(directory.join(format!("{number:05}.job")), job)?;
    }
    Ok(())
}
