//! The proved library compared with the plain walk, call by call and slice by slice.
//!
//! `library SEED COUNT` compares, for SEED, the cases whose answer is stated, at least COUNT cases of the calls that
//! read, more of finding the next word and rules that are listed by it, then those of writing and of combining that are always there and random ones, a tenth of COUNT each, then
//! those of combining dense rules with many options, a fiftieth, and pairs of runs, a hundredth; with a third argument
//! it says each case before it is put to the library. `library dense SEED COUNT LEAST MOST` compares COUNT cases of
//! dense rules and a tenth as many pairs of runs with LEAST to MOST options alone.
//! `library replay LINE` compares the case of one line (see `case`). Exit status: 0 no difference; 1 a difference,
//! printed with its case; 2 it could not be told, also if some kind of case was not met.

mod buckets;
mod case;
mod combines;
mod compare;
mod dense;
mod draw;
mod foreign;
mod lent;
mod nexts;
mod pairs;
mod stated;
mod streams;
mod tally;
mod writes;

use case::Case;
use combines::Combines;
use compare::{compare, Outcome};
use dense::Dense;
use draw::Draw;
use pairs::{demand, Pairs};
use stated::stated;
use std::ops::RangeInclusive;
use std::process::ExitCode;
use std::time::Instant;
use tally::Tally;
use writes::Writes;

/// So many cases of the calls that read for each random one of writing, and of combining.
const READS: usize = 10;

/// So many cases of the calls that read for each pair of runs.
const READS_OF_PAIR: usize = 100;

/// At least so many pairs of runs.
const PAIRS: usize = 200;

/// So many cases of the calls that read for each one of dense rules.
const READS_OF_DENSE: usize = 50;

/// So many cases of dense rules for each pair of runs with such.
const DENSE_OF_PAIR: usize = 10;

fn main() -> ExitCode {
    let arguments: Vec<String> = std::env::args().skip(1).collect();
    let words: Vec<&str> = arguments.iter().map(String::as_str).collect();
    match words[..] {
        ["replay", line] => match Case::parse(line) {
            Some(case) => replay(&case),
            None => usage("this is no case"),
        },
        ["dense", seed, count, least, most] => {
            let options = least.parse().ok().zip(most.parse().ok());
            match (seed.parse(), count.parse(), options) {
                (Ok(seed), Ok(count), Some((least, most)))
                    if 6 <= least && least <= most && most <= 32 =>
                {
                    only_dense(seed, count, least..=most)
                }
                _ => usage("SEED, COUNT, LEAST and MOST are numbers, the last two from 6 to 32"),
            }
        }
        [seed, count] | [seed, count, _] => match (seed.parse(), count.parse()) {
            (Ok(seed), Ok(count)) => run(seed, count, words.len() == 3),
            _ => usage("SEED and COUNT are numbers"),
        },
        _ => usage("two arguments are missing"),
    }
}

fn usage(why: &str) -> ExitCode {
    eprintln!("library: {why}; usage: library SEED COUNT | library dense SEED COUNT LEAST MOST | library replay LINE");
    ExitCode::from(2)
}

fn replay(case: &Case) -> ExitCode {
    match compare(case) {
        Ok(_) => println!("library: no difference"),
        Err(difference) => return differs(&case.line(), &difference),
    }
    ExitCode::SUCCESS
}

fn run(seed: u64, count: usize, say: bool) -> ExitCode {
    let start = Instant::now();
    let mut tally = Tally::default();
    if let Err(code) = run_stated(&mut tally, say)
        .and_then(|()| run_nexts(seed, &mut tally, say))
        .and_then(|()| run_cases(seed, count, &mut tally, say))
        .and_then(|()| {
            run_dense(
                seed,
                count / READS_OF_DENSE,
                dense::OPTIONS,
                &mut tally,
                say,
            )
        })
        .and_then(|()| {
            run_pairs(
                Pairs::new(seed, PAIRS.max(count / READS_OF_PAIR)),
                &mut tally,
                say,
            )
        })
    {
        return code;
    }
    print!("{}", tally.table(seed));
    let (calls, seconds) = (tally.calls(), start.elapsed().as_secs_f64());
    println!("seed {seed}: {calls}, {seconds:.1} seconds");
    let missing = tally.missing();
    if !missing.is_empty() {
        println!("library: no case of {}", missing.join("; "));
        return ExitCode::from(2);
    }
    println!("library: {} cases, no difference", tally.total());
    ExitCode::SUCCESS
}

/// The cases whose answer is stated.
fn run_stated(tally: &mut Tally, say: bool) -> Result<(), ExitCode> {
    for stated in stated() {
        let line = stated.case.line();
        if say {
            println!("{line}");
        }
        if let Err(difference) = stated.holds() {
            return Err(differs(&line, &format!("{}: {difference}", stated.name)));
        }
        tally.stated += 1;
        count(&stated.case, tally)?;
    }
    Ok(())
}

/// Finding the next word, and listing.
fn run_nexts(seed: u64, tally: &mut Tally, say: bool) -> Result<(), ExitCode> {
    for case in nexts::cases(seed) {
        if say {
            println!("{}", case.line());
        }
        count(&case, tally)?;
    }
    for rule in nexts::rules(seed) {
        if let Err((case, difference)) = nexts::list(&rule, &mut tally.listed) {
            let difference = format!("listing, one word after the other: {difference}");
            return Err(differs(&case.line(), &difference));
        }
    }
    Ok(())
}

/// The cases that are compared with the walk.
fn run_cases(seed: u64, most: usize, tally: &mut Tally, say: bool) -> Result<(), ExitCode> {
    let mut draw = Draw::new(seed, most);
    let mut writes = Writes::new(seed, most / READS, draw.writes());
    let mut combines = Combines::new(seed, most / READS, draw.combines());
    let mut total = 0;
    loop {
        let case = if total < most || !draw.is_random() {
            draw.case()
        } else if let Some(case) = writes.case().or_else(|| combines.case()) {
            case
        } else {
            return Ok(());
        };
        if say {
            println!("{}", case.line());
        }
        count(&case, tally)?;
        total += 1;
    }
}

fn count(case: &Case, tally: &mut Tally) -> Result<Outcome, ExitCode> {
    match compare(case) {
        Ok(outcome) => {
            tally.count(case, &outcome);
            Ok(outcome)
        }
        Err(difference) => Err(differs(&case.line(), &difference)),
    }
}

/// Dense rules, alone and in pairs of runs.
fn run_dense(
    seed: u64,
    most: usize,
    options: RangeInclusive<u32>,
    tally: &mut Tally,
    say: bool,
) -> Result<(), ExitCode> {
    let start = Instant::now();
    let mut cases = Dense::new(seed, most, options.clone());
    while let Some(case) = cases.case() {
        if say {
            println!("{}", case.line());
        }
        let outcome = count(&case, tally)?;
        tally.dense.count(&case, &outcome);
    }
    tally.dense.seconds[0] = start.elapsed().as_secs_f64();
    run_pairs(
        Pairs::dense(seed, most / DENSE_OF_PAIR, options),
        tally,
        say,
    )
}

/// Dense rules of these option counts and nothing else.
fn only_dense(seed: u64, most: usize, options: RangeInclusive<u32>) -> ExitCode {
    let mut tally = Tally::default();
    if let Err(code) = run_dense(seed, most, options, &mut tally, false) {
        return code;
    }
    print!("{}", tally.table(seed));
    println!("library: {} cases, no difference", tally.total());
    ExitCode::SUCCESS
}

/// Pairs of runs.
fn run_pairs(mut pairs: Pairs, tally: &mut Tally, say: bool) -> Result<(), ExitCode> {
    while let Some(pair) = pairs.pair() {
        let lines = format!("{}\n{}", pair.first.line(), pair.second.line());
        if say {
            println!("{lines}");
        }
        if let Err(difference) = demand(&pair, &mut tally.pairs) {
            return Err(differs(&lines, &difference));
        }
    }
    Ok(())
}

fn differs(lines: &str, difference: &str) -> ExitCode {
    println!("library: a difference in\n{lines}\n{difference}");
    ExitCode::FAILURE
}
