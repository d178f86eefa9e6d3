//! Each call with its refusals in order, its answer and every lent slice (document 01, "Turned
//! down", "The written stream"; document 02).
//!
//! A lent work table is a row of records; one number stands for each record here, since the walk
//! needs none of them. "Past cause 6 all work table records are zero on return", those beyond
//! the least number too; before that they are left as they were.

use crate::deciding::{truth_digit, truth_table};
use crate::limits::*;
use crate::reading::{read, Reading};
use crate::refusal::Refusal;
use crate::run::{combined_text, put_out, Written};
use crate::settled::covered_by_run;
use crate::writing::write_words;

/// A lent work table.
pub type WorkTable = [u64];

/// "Checking answers the declared size (0 while unfinished), the covered count, and complete or
/// cut."
#[derive(Clone, Copy, Debug, PartialEq, Eq)]
pub struct Checked {
    pub size: u64,
    pub covered: u64,
    pub complete: bool,
}

/// "Deciding gives yes, no or not yet (word at or past the covered count)."
#[derive(Clone, Copy, Debug, PartialEq, Eq)]
pub enum Decision {
    No,
    Yes,
    NotYet,
}

/// "give the least admitted word not below w. If no covered word from w on is admitted, the answer
/// is "none" where all words are covered and "not known" otherwise" (document 02, R-1).
#[derive(Clone, Copy, Debug, PartialEq, Eq)]
pub enum Next {
    None,
    Word(u64),
    NotKnown,
}

/// Causes 1, 4, then those of the stream.
pub fn check(n: u64, stream: &[u8], table: &mut WorkTable) -> Result<Checked, Refusal> {
    let options = options_of_stream(n)?;
    enough_records(&[table])?;
    table.fill(0);
    let reading = read_stream(options, 1, stream)?;
    Ok(Checked {
        size: reading.size,
        covered: reading.covered,
        complete: reading.complete,
    })
}

/// Causes 1, 4, 5, then those of the stream.
pub fn decide(
    n: u64,
    stream: &[u8],
    word: u64,
    table: &mut WorkTable,
) -> Result<Decision, Refusal> {
    let options = options_of_stream(n)?;
    enough_records(&[table])?;
    if word >= 1u64 << options {
        return Err(Refusal::of_call(5));
    }
    table.fill(0);
    let reading = read_stream(options, 1, stream)?;
    if word >= reading.covered {
        Ok(Decision::NotYet)
    } else if reading.decision(word) {
        Ok(Decision::Yes)
    } else {
        Ok(Decision::No)
    }
}

/// "Causes 1, 4, 5 and 7 to 13 apply" (document 02, R-1).
pub fn next(n: u64, stream: &[u8], word: u64, table: &mut WorkTable) -> Result<Next, Refusal> {
    let options = options_of_stream(n)?;
    enough_records(&[table])?;
    if word >= 1u64 << options {
        return Err(Refusal::of_call(5));
    }
    table.fill(0);
    let reading = read_stream(options, 1, stream)?;
    Ok(match reading.next_admitted(word) {
        Some(word) => Next::Word(word),
        None if reading.covered == 1u64 << options => Next::None,
        None => Next::NotKnown,
    })
}

/// Causes 1, 4, 6, then those of the stream. "Filling answers the covered count." "A cut stream
/// gives 0 from its covered count on."
pub fn fill(
    n: u64,
    stream: &[u8],
    truth: &mut [u8],
    table: &mut WorkTable,
) -> Result<u64, Refusal> {
    let options = options_of_truth_table(n)?;
    enough_records(&[table])?;
    truth_table_length(options, truth)?;
    table.fill(0);
    let reading = read_stream(options, 1, stream)?;
    let filled = truth_table(options, |word| {
        word < reading.covered && reading.decision(word)
    });
    truth.copy_from_slice(&filled);
    Ok(reading.covered)
}

/// Causes 1, 3, 4, 6. "writing from a truth table covers 2^n and answers alike".
pub fn write(
    n: u64,
    size: u64,
    truth: &[u8],
    output: &mut [u8],
    table: &mut WorkTable,
) -> Result<Written, Refusal> {
    let options = options_of_truth_table(n)?;
    size_to_write(size)?;
    enough_records(&[table])?;
    truth_table_length(options, truth)?;
    table.fill(0);
    let whole = write_words(options, size, |word| truth_digit(truth, word));
    Ok(put_out(options, 1u64 << options, &whole.text, output))
}

/// Causes 1, 2, 3, 4, "then all of stream 1, then all of stream 2".
pub fn combine(
    n: u64,
    operator: u64,
    size: u64,
    streams: [&[u8]; 2],
    output: &mut [u8],
    tables: [&mut WorkTable; 3],
) -> Result<Written, Refusal> {
    let options = options_of_stream(n)?;
    if operator > MOST_OPERATOR {
        return Err(Refusal::of_call(2));
    }
    size_to_write(size)?;
    enough_records(&[&*tables[0], &*tables[1], &*tables[2]])?;
    for table in tables {
        table.fill(0);
    }
    let first = read_stream(options, 1, streams[0])?;
    let second = read_stream(options, 2, streams[1])?;
    let text = combined_text(operator, size, &first, &second, output.len());
    let covered = covered_by_run(operator, &first, &second);
    Ok(put_out(options, covered, &text, output))
}

/// Cause 1: "n above 32".
fn options_of_stream(n: u64) -> Result<u32, Refusal> {
    match u32::try_from(n) {
        Ok(options) if n <= MOST_OPTIONS => Ok(options),
        _ => Err(Refusal::of_call(1)),
    }
}

/// Cause 1: "truth table n not 3 to 16".
fn options_of_truth_table(n: u64) -> Result<u32, Refusal> {
    match u32::try_from(n) {
        Ok(options) if (LEAST_TRUTH_OPTIONS..=MOST_TRUTH_OPTIONS).contains(&n) => Ok(options),
        _ => Err(Refusal::of_call(1)),
    }
}

/// Cause 3: a size to write that is too large.
fn size_to_write(size: u64) -> Result<(), Refusal> {
    if size > MOST_SIZE {
        return Err(Refusal::of_call(3));
    }
    Ok(())
}

/// Cause 4: a work table of too few records.
fn enough_records(tables: &[&WorkTable]) -> Result<(), Refusal> {
    if tables.iter().any(|table| table.len() < LEAST_RECORDS) {
        return Err(Refusal::of_call(4));
    }
    Ok(())
}

/// Cause 6: "truth table not 2^n / 8 bytes".
fn truth_table_length(options: u32, truth: &[u8]) -> Result<(), Refusal> {
    if truth.len() != (1usize << options) / 8 {
        return Err(Refusal::of_call(6));
    }
    Ok(())
}

/// Causes 7 to 13. A call with one stream names it 1.
fn read_stream(options: u32, number: u64, stream: &[u8]) -> Result<Reading, Refusal> {
    read(options, stream).map_err(|fault| Refusal::of_stream(number, fault))
}
