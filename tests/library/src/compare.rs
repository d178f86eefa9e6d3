//! One case put to the library and to the plain walk.

use crate::case::{Call, Case, Combine};
use crate::foreign::{self, Checked, Decided, Filled, Found, Place, Stepped, Stream, Written};
use crate::lent::{Lent, Memory};
use std::fmt::Debug;
use std::time::{Duration, Instant};
use walk::calls::{check, combine, decide, fill, next, write, Decision, Next};
use walk::reader::{Element, Reader, Step};
use walk::refusal::Refusal;
use walk::run::Ending;

/// What the walk's records hold before a call.
const GARBAGE: u64 = 7;

/// Finding a word takes no longer, also where nodes are chained.
const SOON: Duration = Duration::from_secs(1);

/// What the walk says of a case. The cause is 0 if it is taken (for the reader: if the bytes ran out); the
/// ending is that of a call that writes and is taken, and the text what it writes; for finding the next word it is
/// which of the three answers is given. `time` is how long the library combined.
#[derive(Clone, Debug, Default)]
pub struct Outcome {
    pub cause: usize,
    pub stream: usize,
    pub ending: usize,
    pub text: Vec<u8>,
    pub time: Duration,
}

impl Outcome {
    fn of_cause(cause: u32) -> Outcome {
        let cause = cause as usize;
        Outcome {
            cause,
            ..Outcome::default()
        }
    }

    fn of_writing(answer: Written, mut output: Vec<u8>) -> Outcome {
        let [cause, stream, ending] =
            [answer.cause, answer.stream, answer.ending].map(|number| number as usize);
        output.truncate(answer.written as usize);
        Outcome {
            cause,
            stream,
            ending,
            text: output,
            time: Duration::ZERO,
        }
    }
}

/// What the walk says of the case; an error says how the library differs.
pub fn compare(case: &Case) -> Result<Outcome, String> {
    let mut memory = Memory::new(case);
    let outcome = match &case.call {
        Call::Check => Outcome::of_cause(compare_check(case, &mut memory)?),
        Call::Decide { word } => Outcome::of_cause(compare_decide(case, *word, &mut memory)?),
        Call::Fill { .. } => Outcome::of_cause(compare_fill(case, &mut memory)?),
        Call::Reader => Outcome::of_cause(compare_reader(case, &mut memory)?),
        Call::Write { size, .. } => compare_write(case, *size, &mut memory)?,
        Call::Combine(of) => compare_combine(case, of, &mut memory)?,
        Call::Next { word } => compare_next(case, *word, &mut memory)?,
    };
    if !memory.streams.iter().all(Lent::unchanged) {
        return Err("what was lent to be read or what stands beside it was changed".to_string());
    }
    Ok(outcome)
}

fn compare_check(case: &Case, memory: &mut Memory) -> Result<u32, String> {
    let mut table = vec![GARBAGE; case.records];
    let expected = match check(case.n.into(), &case.stream, &mut table) {
        Ok(checked) => Checked {
            covered: checked.covered,
            size: small(checked.size),
            extent: checked.complete.into(),
            ..Checked::default()
        },
        Err(refusal) => {
            let (cause, stream, byte) = refused(refusal);
            Checked {
                cause,
                stream,
                byte,
                ..Checked::default()
            }
        }
    };
    // SAFETY: the slices are lent as rule.h asks.
    let given = unsafe { foreign::rule_check(case.n, memory.stream(), memory.table()) };
    same(expected, given)?;
    same_memory(memory, &table, &[])?;
    Ok(expected.cause)
}

fn compare_decide(case: &Case, word: u64, memory: &mut Memory) -> Result<u32, String> {
    let mut table = vec![GARBAGE; case.records];
    let expected = match decide(case.n.into(), &case.stream, word, &mut table) {
        Ok(decision) => Decided {
            verdict: match decision {
                Decision::No => 0,
                Decision::Yes => 1,
                Decision::NotYet => 2,
            },
            ..Decided::default()
        },
        Err(refusal) => {
            let (cause, stream, byte) = refused(refusal);
            Decided {
                cause,
                stream,
                byte,
                ..Decided::default()
            }
        }
    };
    // SAFETY: the slices are lent as rule.h asks.
    let given = unsafe { foreign::rule_decide(case.n, memory.stream(), word, memory.table()) };
    same(expected, given)?;
    same_memory(memory, &table, &[])?;
    Ok(expected.cause)
}

fn compare_next(case: &Case, word: u64, memory: &mut Memory) -> Result<Outcome, String> {
    let mut table = vec![GARBAGE; case.records];
    let expected = match next(case.n.into(), &case.stream, word, &mut table) {
        Ok(next) => {
            let (answer, word) = match next {
                Next::None => (0, 0),
                Next::Word(word) => (1, word),
                Next::NotKnown => (2, 0),
            };
            Found {
                word,
                answer,
                ..Found::default()
            }
        }
        Err(refusal) => {
            let (cause, stream, byte) = refused(refusal);
            Found {
                cause,
                stream,
                byte,
                ..Found::default()
            }
        }
    };
    let start = Instant::now();
    // SAFETY: the slices are lent as rule.h asks.
    let given = unsafe { foreign::rule_next(case.n, memory.stream(), word, memory.table()) };
    let time = start.elapsed();
    same(expected, given)?;
    same_memory(memory, &table, &[])?;
    if time > SOON {
        return Err(format!(
            "the library took {:.1} seconds",
            time.as_secs_f64()
        ));
    }
    Ok(Outcome {
        ending: expected.answer as usize,
        ..Outcome::of_cause(expected.cause)
    })
}

fn compare_fill(case: &Case, memory: &mut Memory) -> Result<u32, String> {
    let mut table = vec![GARBAGE; case.records];
    let mut truths = memory.truths.was().to_vec();
    let expected = match fill(case.n.into(), &case.stream, &mut truths, &mut table) {
        Ok(covered) => Filled {
            covered,
            ..Filled::default()
        },
        Err(refusal) => {
            let (cause, stream, byte) = refused(refusal);
            Filled {
                cause,
                stream,
                byte,
                ..Filled::default()
            }
        }
    };
    let (stream, lent) = (memory.stream(), memory.truths());
    // SAFETY: the slices are lent as rule.h asks.
    let given = unsafe { foreign::rule_fill(case.n, stream, lent, memory.table()) };
    same(expected, given)?;
    same_memory(memory, &table, &truths)?;
    Ok(expected.cause)
}

fn compare_write(case: &Case, size: u32, memory: &mut Memory) -> Result<Outcome, String> {
    let mut table = vec![GARBAGE; case.records];
    let mut output = memory.output.was().to_vec();
    let answer = write(
        case.n.into(),
        size.into(),
        &case.stream,
        &mut output,
        &mut table,
    );
    let expected = written(answer);
    let (truths, lent) = (memory.stream(), memory.output());
    // SAFETY: the slices are lent as rule.h asks.
    let given = unsafe { foreign::rule_write(case.n, size, truths, lent, memory.nodes()) };
    same(expected, given)?;
    same_bytes("output", &memory.output, &output)?;
    same_table("work table", &memory.nodes, is_zero(&table))?;
    Ok(Outcome::of_writing(expected, output))
}

fn compare_combine(case: &Case, of: &Combine, memory: &mut Memory) -> Result<Outcome, String> {
    let [mut one, mut two, mut three] = case.tables().map(|records| vec![GARBAGE; records]);
    let mut output = memory.output.was().to_vec();
    let answer = combine(
        case.n.into(),
        of.op.into(),
        of.size.into(),
        [&case.stream, &of.second],
        &mut output,
        [&mut one, &mut two, &mut three],
    );
    let expected = written(answer);
    let start = Instant::now();
    let given = combined(case, of, memory);
    let time = start.elapsed();
    same(expected, given)?;
    same_bytes("output", &memory.output, &output)?;
    same_tables(memory, [one, two, three].map(|table| is_zero(&table)))?;
    let outcome = Outcome::of_writing(expected, output);
    Ok(Outcome { time, ..outcome })
}

/// What the library answers when it combines.
pub fn combined(case: &Case, of: &Combine, memory: &mut Memory) -> Written {
    let numbers = [case.n, of.op, of.size];
    let (streams, output) = (memory.both_streams(), memory.output());
    let (tables, nodes) = (memory.both_tables(), memory.nodes());
    // SAFETY: the slices are lent as rule.h asks.
    unsafe { foreign::rule_combine(numbers, streams, output, tables, nodes) }
}

/// The walk's answer of a call that writes.
fn written(answer: Result<walk::run::Written, Refusal>) -> Written {
    match answer {
        Ok(written) => Written {
            written: written.bytes as u64,
            covered: written.covered,
            ending: match written.ending {
                Ending::Whole => 0,
                Ending::InputEnded => 1,
                Ending::OutputFull => 2,
            },
            ..Written::default()
        },
        Err(refusal) => {
            let (cause, stream, byte) = refused(refusal);
            Written {
                cause,
                stream,
                byte,
                ..Written::default()
            }
        }
    }
}

/// The whole stream; then a beginning of it, and from where that ran out the whole stream again.
fn compare_reader(case: &Case, memory: &mut Memory) -> Result<u32, String> {
    let whole = memory.stream();
    // SAFETY: it takes nothing.
    let begun = unsafe { foreign::rule_begin() };
    same(0, begun.at)?;
    let (_, _, cause) = follow(Reader::new(&case.stream), begun, whole)?;
    let length = case.hash() as usize % (case.stream.len() + 1);
    let beginning = Stream { length, ..whole };
    let (place, elements, _) = follow(Reader::new(&case.stream[..length]), begun, beginning)?;
    let mut reader = Reader::new(&case.stream);
    for _ in 0..elements {
        reader.step();
    }
    follow(reader, place, whole)?;
    Ok(cause)
}

/// Step both to the stop and twice more: the place there, how many elements there were, the cause.
fn follow(
    mut reader: Reader,
    mut place: Place,
    stream: Stream,
) -> Result<(Place, usize, u32), String> {
    let (mut elements, mut stops) = (0, 0);
    loop {
        let step = reader.step();
        // SAFETY: the bytes are lent as rule.h asks, and the place comes from a beginning of them.
        let given = unsafe { foreign::rule_step(place, stream) };
        let mut expected = stepped(step, given.place);
        expected.place.at = reader.place();
        if !matches!(step, Step::Element { .. }) {
            expected.place = place;
        }
        same(expected, given)?;
        place = given.place;
        if let Step::Element { .. } = step {
            elements += 1;
            continue;
        }
        stops += 1;
        if stops == 3 {
            return Ok((place, elements, given.cause));
        }
    }
}

/// The walk's answer of one step; of a place only `at` has a meaning outside the library.
fn stepped(step: Step, place: Place) -> Stepped {
    let (outcome, element, number, cause, byte) = match step {
        Step::Element { element, .. } => {
            let (element, number) = match element {
                Element::Opening => (0, 0),
                Element::Number(number) => (1, number),
                Element::Constant => (2, 0),
                Element::Turn => (3, 0),
                Element::Closing => (4, 0),
                Element::Storing(number) => (5, number),
                Element::End => (6, 0),
            };
            let capped = u32::try_from(number).unwrap_or(u32::MAX);
            (0, element, capped, 0, 0)
        }
        Step::Fault(fault) => (1, 0, 0, small(fault.cause), fault.byte),
        Step::RanOut => (2, 0, 0, 0, 0),
    };
    Stepped {
        outcome,
        element,
        number,
        cause,
        byte,
        place,
    }
}

/// What the lent slices of a call that reads must hold.
fn same_memory(memory: &Memory, table: &[u64], truths: &[u8]) -> Result<(), String> {
    same_bytes("truth table", &memory.truths, truths)?;
    same_table("work table", &memory.tables[0], is_zero(table))
}

/// The records of all three work tables are zero, or as they were.
pub fn same_tables(memory: &Memory, zero: [bool; 3]) -> Result<(), String> {
    same_table("work table 1", &memory.tables[0], zero[0])?;
    same_table("work table 2", &memory.tables[1], zero[1])?;
    same_table("work table 3", &memory.nodes, zero[2])
}

/// Every byte of a lent slice is as it is due, those around it as they were.
pub fn same_bytes(name: &str, lent: &Lent<u8>, due: &[u8]) -> Result<(), String> {
    if !lent.guarded() {
        return Err(format!("something beside the {name} was changed"));
    }
    let mut bytes = lent.now().iter().zip(due).enumerate();
    match bytes.find(|(_, (given, due))| given != due) {
        Some((at, (given, due))) => Err(format!(
            "byte {at} of the {name} is {given:#04x}, not {due:#04x}"
        )),
        None => Ok(()),
    }
}

/// All records of the walk's table are zero.
fn is_zero(table: &[u64]) -> bool {
    table.iter().all(|&record| record == 0)
}

/// The records are zero, or as they were.
fn same_table<const CELLS: usize>(
    name: &str,
    lent: &Lent<[u32; CELLS]>,
    zero: bool,
) -> Result<(), String> {
    if !lent.guarded() {
        return Err(format!("something beside the {name} was changed"));
    }
    if !zero && lent.now() != lent.was() {
        return Err(format!("the {name} was changed"));
    }
    if zero && lent.now().iter().any(|record| record != &[0; CELLS]) {
        return Err(format!("the {name} is not all zero"));
    }
    Ok(())
}

pub fn same<T: Debug + PartialEq>(expected: T, given: T) -> Result<(), String> {
    if expected == given {
        return Ok(());
    }
    Err(format!("due: {expected:?}\nthe library: {given:?}"))
}

fn refused(refusal: Refusal) -> (u32, u32, u64) {
    let Refusal {
        cause,
        stream,
        byte,
    } = refusal;
    (small(cause), small(stream), byte as u64)
}

fn small(number: u64) -> u32 {
    u32::try_from(number).expect("a small number")
}
