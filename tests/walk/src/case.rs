//! One test case: a call with its arguments as lists of numbers, and what is expected of it.
//!
//! A line reads `CALL | arg ; arg ; ... | expected`; each list has one space between numbers.
//!
//! | call | arguments | expected |
//! |---|---|---|
//! | 0 check | n; records; stream | answer, z |
//! | 1 decide | n; records; stream; word | answer, z |
//! | 2 fill | n; records; stream; truth table before | answer, z, truth table after |
//! | 3 write | n; size; records; truth table; output before | answer, z, output after |
//! | 4 combine | n; operator; size; three records; stream 1; stream 2; output before | answer, z, output after |
//! | 5 reader | stream | four numbers for each element, four at the stop |
//! | 6 join | input | output |
//! | 7 next | n; records; stream; word | answer, z |
//!
//! A refusal answers 1, cause, stream, byte. Else check answers 0, declared size, covered count,
//! 1 complete or 0 cut; decide 0 and 0 no, 1 yes, 2 not yet; next 0 and 0 none, 1 a word, 2 not
//! known, and the word (0 if there is none); fill 0, covered count; write and combine 0, bytes written, covered count, 0 whole or 1 input ended or 2 output full.
//!
//! z is 1 if all records of the lent work tables are zero on return, 0 if they were left as they
//! were (also if no record was lent). They are lent full of 7.
//!
//! The reader's four numbers are kind (0 opening, 1 number, 2 constant, 3 turn, 4 closing,
//! 5 storing, 6 end), value (0 if it has none), place after the element, 0; at the stop 7 for
//! "the bytes ran out" or 8 for a fault, cause, byte (both 0 if the bytes ran out), and the place
//! where the reader stands.

use crate::calls::{check, combine, decide, fill, next, write, Decision, Next};
use crate::join::join;
use crate::reader::{Element, Reader, Step};
use crate::refusal::Refusal;
use crate::run::{Ending, Written};

pub const NAMES: [&str; 8] = [
    "check", "decide", "fill", "write", "combine", "reader", "join", "next",
];

const GARBAGE: u64 = 7;

#[derive(Clone, Debug, PartialEq, Eq)]
pub enum Case {
    Check {
        n: u64,
        records: usize,
        stream: Vec<u8>,
    },
    Decide {
        n: u64,
        records: usize,
        stream: Vec<u8>,
        word: u64,
    },
    Fill {
        n: u64,
        records: usize,
        stream: Vec<u8>,
        truth: Vec<u8>,
    },
    Write {
        n: u64,
        size: u64,
        records: usize,
        truth: Vec<u8>,
        output: Vec<u8>,
    },
    Combine {
        n: u64,
        operator: u64,
        size: u64,
        records: [usize; 3],
        streams: [Vec<u8>; 2],
        output: Vec<u8>,
    },
    Reader {
        stream: Vec<u8>,
    },
    Join {
        input: Vec<u8>,
    },
    Next {
        n: u64,
        records: usize,
        stream: Vec<u8>,
        word: u64,
    },
}

impl Case {
    /// The number of the call, an index into `NAMES`.
    pub fn call(&self) -> usize {
        match self {
            Case::Check { .. } => 0,
            Case::Decide { .. } => 1,
            Case::Fill { .. } => 2,
            Case::Write { .. } => 3,
            Case::Combine { .. } => 4,
            Case::Reader { .. } => 5,
            Case::Join { .. } => 6,
            Case::Next { .. } => 7,
        }
    }

    /// The arguments as lists of numbers.
    pub fn arguments(&self) -> Vec<Vec<u64>> {
        let one = |number: u64| vec![number];
        match self {
            Case::Check { n, records, stream } => {
                vec![one(*n), one(*records as u64), numbers(stream)]
            }
            Case::Decide {
                n,
                records,
                stream,
                word,
            }
            | Case::Next {
                n,
                records,
                stream,
                word,
            } => vec![one(*n), one(*records as u64), numbers(stream), one(*word)],
            Case::Fill {
                n,
                records,
                stream,
                truth,
            } => vec![
                one(*n),
                one(*records as u64),
                numbers(stream),
                numbers(truth),
            ],
            Case::Write {
                n,
                size,
                records,
                truth,
                output,
            } => vec![
                one(*n),
                one(*size),
                one(*records as u64),
                numbers(truth),
                numbers(output),
            ],
            Case::Combine {
                n,
                operator,
                size,
                records,
                streams,
                output,
            } => vec![
                one(*n),
                one(*operator),
                one(*size),
                records.iter().map(|&count| count as u64).collect(),
                numbers(&streams[0]),
                numbers(&streams[1]),
                numbers(output),
            ],
            Case::Reader { stream } => vec![numbers(stream)],
            Case::Join { input } => vec![numbers(input)],
        }
    }

    /// What the call must give.
    pub fn expected(&self) -> Vec<u64> {
        match self {
            Case::Check { n, records, stream } => {
                let mut table = vec![GARBAGE; *records];
                let answer = check(*n, stream, &mut table);
                let answer = answer
                    .map(|checked| vec![checked.size, checked.covered, checked.complete.into()]);
                together(answer, &[&table], &[])
            }
            Case::Decide {
                n,
                records,
                stream,
                word,
            } => {
                let mut table = vec![GARBAGE; *records];
                let answer = decide(*n, stream, *word, &mut table);
                let answer = answer.map(|decision| match decision {
                    Decision::No => vec![0],
                    Decision::Yes => vec![1],
                    Decision::NotYet => vec![2],
                });
                together(answer, &[&table], &[])
            }
            Case::Fill {
                n,
                records,
                stream,
                truth,
            } => {
                let mut table = vec![GARBAGE; *records];
                let mut truth = truth.clone();
                let answer = fill(*n, stream, &mut truth, &mut table);
                together(answer.map(|covered| vec![covered]), &[&table], &truth)
            }
            Case::Write {
                n,
                size,
                records,
                truth,
                output,
            } => {
                let mut table = vec![GARBAGE; *records];
                let mut output = output.clone();
                let answer = write(*n, *size, truth, &mut output, &mut table);
                together(answer.map(written_numbers), &[&table], &output)
            }
            Case::Combine {
                n,
                operator,
                size,
                records,
                streams,
                output,
            } => {
                let [mut one, mut two, mut three] = records.map(|count| vec![GARBAGE; count]);
                let mut output = output.clone();
                let answer = combine(
                    *n,
                    *operator,
                    *size,
                    [&streams[0], &streams[1]],
                    &mut output,
                    [&mut one, &mut two, &mut three],
                );
                let tables = [&one[..], &two[..], &three[..]];
                together(answer.map(written_numbers), &tables, &output)
            }
            Case::Reader { stream } => elements(stream),
            Case::Join { input } => numbers(&join(input)),
            Case::Next {
                n,
                records,
                stream,
                word,
            } => {
                let mut table = vec![GARBAGE; *records];
                let answer = next(*n, stream, *word, &mut table);
                let answer = answer.map(|next| match next {
                    Next::None => vec![0, 0],
                    Next::Word(word) => vec![1, word],
                    Next::NotKnown => vec![2, 0],
                });
                together(answer, &[&table], &[])
            }
        }
    }

    /// The case as one line.
    pub fn line(&self) -> String {
        let arguments: Vec<String> = self.arguments().iter().map(|list| row(list)).collect();
        let (call, arguments, expected) =
            (self.call(), arguments.join(" ; "), row(&self.expected()));
        format!("{call} | {arguments} | {expected}")
    }
}

fn row(list: &[u64]) -> String {
    let words: Vec<String> = list.iter().map(u64::to_string).collect();
    words.join(" ")
}

fn numbers(bytes: &[u8]) -> Vec<u64> {
    bytes.iter().map(|&byte| u64::from(byte)).collect()
}

fn written_numbers(written: Written) -> Vec<u64> {
    let ending = match written.ending {
        Ending::Whole => 0,
        Ending::InputEnded => 1,
        Ending::OutputFull => 2,
    };
    vec![written.bytes as u64, written.covered, ending]
}

/// Answer, z, and the slice that a call may write.
fn together(answer: Result<Vec<u64>, Refusal>, tables: &[&[u64]], slice: &[u8]) -> Vec<u64> {
    let mut list = match answer {
        Ok(answer) => [vec![0], answer].concat(),
        Err(refusal) => vec![1, refusal.cause, refusal.stream, refusal.byte as u64],
    };
    list.push(zeroed(tables).into());
    list.extend(numbers(slice));
    list
}

/// All records are zero; otherwise all must be as they were.
fn zeroed(tables: &[&[u64]]) -> bool {
    let records = tables.concat();
    if records.iter().all(|&record| record == GARBAGE) {
        return false;
    }
    assert!(records.iter().all(|&record| record == 0));
    true
}

/// The elements of a stream as the reader gives them.
fn elements(stream: &[u8]) -> Vec<u64> {
    let mut reader = Reader::new(stream);
    let mut list = Vec::new();
    loop {
        let step = reader.step();
        let place = reader.place() as u64;
        match step {
            Step::Element { element, .. } => {
                let (kind, value) = match element {
                    Element::Opening => (0, 0),
                    Element::Number(value) => (1, value),
                    Element::Constant => (2, 0),
                    Element::Turn => (3, 0),
                    Element::Closing => (4, 0),
                    Element::Storing(value) => (5, value),
                    Element::End => (6, 0),
                };
                list.extend([kind, value, place, 0]);
            }
            Step::RanOut => {
                list.extend([7, 0, 0, place]);
                return list;
            }
            Step::Fault(fault) => {
                list.extend([8, fault.cause, fault.byte as u64, place]);
                return list;
            }
        }
    }
}
