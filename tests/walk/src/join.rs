//! The program `join` as a function of its input bytes (document 01, "Program").

use crate::calls::combine;
use crate::limits::{JOIN_OUTPUT, LEAST_RECORDS, MOST_JOB};
use crate::run::Ending;

/// "The named operators are NOR 1, NOT 3 (of the first), BUT 4, XOR 6, NAND 7, AND 8, XNOR 9,
/// OR 14."
pub const OPERATORS: [(&str, u64); 8] = [
    ("NOR", 1),
    ("NOT", 3),
    ("BUT", 4),
    ("XOR", 6),
    ("NAND", 7),
    ("AND", 8),
    ("XNOR", 9),
    ("OR", 14),
];

/// A job that is well formed.
#[derive(Clone, Copy, Debug, PartialEq, Eq)]
pub struct Job<'a> {
    pub n: u64,
    pub operator: u64,
    pub size: u64,
    pub streams: [&'a [u8]; 2],
}

/// What `join` prints for its standard input.
pub fn join(input: &[u8]) -> Vec<u8> {
    let Some(job) = parse(input) else {
        return b"bad job\n".to_vec();
    };
    let mut output = vec![0; JOIN_OUTPUT];
    let [mut one, mut two, mut three] = [(); 3].map(|()| vec![0; LEAST_RECORDS]);
    let tables = [&mut one[..], &mut two[..], &mut three[..]];
    match combine(
        job.n,
        job.operator,
        job.size,
        job.streams,
        &mut output,
        tables,
    ) {
        Err(refusal) => {
            let (cause, stream, byte) = (refusal.cause, refusal.stream, refusal.byte);
            format!("refused {cause} {stream} {byte}\n").into_bytes()
        }
        Ok(written) => {
            let ending = match written.ending {
                Ending::Whole => "whole",
                Ending::InputEnded => "input ended",
                Ending::OutputFull => "output full",
            };
            let (covered, all) = (written.covered, 1u64 << job.n);
            output.truncate(written.bytes);
            output.extend(format!("\nwords {covered} of {all} {ending}\n").bytes());
            output
        }
    }
}

/// "a malformed first line, another number of lines or longer input prints `bad job`".
pub fn parse(input: &[u8]) -> Option<Job<'_>> {
    if input.len() > MOST_JOB {
        return None;
    }
    let lines = five_lines(input)?;
    let (n, operator, size) = first_line(lines[0])?;
    // "Lines 2 and 3 with the LF between them are stream 1; lines 4 and 5 are stream 2."
    let start = lines[0].len() + 1;
    let end = start + lines[1].len() + 1 + lines[2].len();
    let first = &input[start..end];
    let second = &input[end + 1..end + 1 + lines[3].len() + 1 + lines[4].len()];
    Some(Job {
        n,
        operator,
        size,
        streams: [first, second],
    })
}

/// "five lines: four LFs, and a fifth only as the last byte".
fn five_lines(input: &[u8]) -> Option<[&[u8]; 5]> {
    let mut lines: Vec<&[u8]> = input.split(|&byte| byte == b'\n').collect();
    // A fifth LF as the last byte leaves nothing behind it.
    if lines.len() == 6 && lines[5].is_empty() {
        lines.pop();
    }
    lines.try_into().ok()
}

/// "Line 1 is n, operator name, size, one space between".
fn first_line(line: &[u8]) -> Option<(u64, u64, u64)> {
    let fields: Vec<&[u8]> = line.split(|&byte| byte == b' ').collect();
    let [n, name, size] = fields[..] else {
        return None;
    };
    let mut named = OPERATORS.iter();
    let (_, operator) = named.find(|(known, _)| known.as_bytes() == name)?;
    Some((number(n)?, *operator, number(size)?))
}

/// "each number 1 to 4 digits without leading zero".
fn number(field: &[u8]) -> Option<u64> {
    let digits = field.iter().all(u8::is_ascii_digit);
    let leading_zero = field.len() > 1 && field[0] == b'0';
    if !digits || leading_zero || !(1..=4).contains(&field.len()) {
        return None;
    }
    let value = |sum: u64, &digit: &u8| 10 * sum + u64::from(digit - b'0');
    Some(field.iter().fold(0, value))
}
