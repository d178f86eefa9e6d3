//! Words that one rule settles alone (document 02, R-3): the operator's result on a word for all
//! values of what an input does not cover, and the covered count of a run.

use crate::diagrams::{constant, Diagrams, Edge};
use crate::reading::Reading;
use crate::run::{operate, PLAIN_WALK};

/// The operators "a and b", "a or b", "a or not b" and "either a or b" (document 01, "The written
/// stream").
const AND: u64 = 8;
const OR: u64 = 14;
const OR_NOT: u64 = 13;
const XOR: u64 = 6;

/// Every value that an input may have: what it decides, or both where it decides nothing.
fn values(decision: Option<bool>) -> &'static [bool] {
    match decision {
        Some(false) => &[false],
        Some(true) => &[true],
        None => &[false, true],
    }
}

/// "A word is settled when the operator gives one result for all values of what an input doesn't
/// cover": that result. "Inputs vary independently where they are not covered".
pub fn outcome(operator: u64, a: Option<bool>, b: Option<bool>) -> Option<bool> {
    let mut results = Vec::new();
    for &a in values(a) {
        for &b in values(b) {
            results.push(operate(operator, a, b));
        }
    }
    let result = results[0];
    results.iter().all(|&one| one == result).then_some(result)
}

impl Reading {
    /// Yes, no or not covered.
    pub fn covered_decision(&self, word: u64) -> Option<bool> {
        (word < self.covered).then(|| self.decision(word))
    }
}

/// What the operator decides on a word, if it is settled.
pub fn settled(operator: u64, first: &Reading, second: &Reading, word: u64) -> Option<bool> {
    outcome(
        operator,
        first.covered_decision(word),
        second.covered_decision(word),
    )
}

/// "the covered count of a run is the least word that is not settled, or 2^n". With few options
/// each word is tried, with many functions take their place. Both give the same word.
pub fn covered_by_run(operator: u64, first: &Reading, second: &Reading) -> u64 {
    if first.options > PLAIN_WALK {
        covered_by_functions(operator, first, second)
    } else {
        covered_by_words(operator, first, second)
    }
}

/// Each word is tried.
pub fn covered_by_words(operator: u64, first: &Reading, second: &Reading) -> u64 {
    let words = 1u64 << first.options;
    (0..words)
        .find(|&word| settled(operator, first, second, word).is_none())
        .unwrap_or(words)
}

/// The words on which some values of what is not covered give another result than others are a
/// function; this is its first word.
pub fn covered_by_functions(operator: u64, first: &Reading, second: &Reading) -> u64 {
    let mut diagrams = Diagrams::new();
    let ones = both_values(&mut diagrams, first);
    let twos = both_values(&mut diagrams, second);
    let result = diagrams.combine(operator, ones[0], twos[0]);
    let mut open = constant(false);
    for one in ones {
        for two in twos {
            let other = diagrams.combine(operator, one, two);
            let differs = diagrams.combine(XOR, result, other);
            open = diagrams.combine(OR, open, differs);
        }
    }
    let words = 1u64 << first.options;
    diagrams.first_word(first.options, open).unwrap_or(words)
}

/// A stream's function with no, and with yes, for what it does not cover.
fn both_values(diagrams: &mut Diagrams, reading: &Reading) -> [Edge; 2] {
    let covered = diagrams.before(reading.options, reading.covered);
    let edge = diagrams.of_reading(reading);
    [
        diagrams.combine(AND, edge, covered),
        diagrams.combine(OR_NOT, edge, covered),
    ]
}
