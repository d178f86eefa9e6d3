//! Demand 3 on pairs of runs of combining: the second run's streams begin with the first's, and its output is at least
//! as long. Both are run by the library alone; their written bytes and their streams are decided by the library too.

use crate::case::{Call, Case};
use crate::combines::combine;
use crate::compare::combined;
use crate::foreign::{self, Record, Stream, Table};
use crate::lent::Memory;
use crate::streams::valid;
use std::ops::RangeInclusive;
use walk::dense::{rule, selected, stream, stream_of_size, SIZES};
use walk::diagrams::Diagrams;
use walk::limits::LEAST_RECORDS;
use walk::random::Random;
use walk::settled::outcome;
use walk::shapes::{cut, small_size};

/// Up to this option count all words are looked at.
const ALL_WORDS: u32 = 5;

/// Words that are looked at above it.
const SOME_WORDS: u64 = 60;

/// For telling this sequence of numbers from that of the other cases of a seed.
const SALT: u64 = 0x7061_6972_7300;

pub struct Pair {
    pub first: Case,
    pub second: Case,
}

/// What was met in pairs.
#[derive(Default)]
pub struct Met {
    /// A run was refused.
    pub refused: usize,
    pub taken: usize,
    /// Of those: the second run wrote more bytes; covered more words.
    pub more_bytes: usize,
    pub more_words: usize,
    /// Words that a run's bytes decide.
    pub decided: usize,
    /// Words that the second run's bytes decide and the first's do not.
    pub not_yet: usize,
}

/// One run: what it wrote and how many words it covers.
struct Run {
    bytes: Vec<u8>,
    covered: u64,
}

// ---- The demand

/// Demand 3 on one pair; an error says what fails.
pub fn demand(pair: &Pair, met: &mut Met) -> Result<(), String> {
    let (Some(first), Some(second)) = (run(&pair.first), run(&pair.second)) else {
        met.refused += 1;
        return Ok(());
    };
    met.taken += 1;
    if !second.bytes.starts_with(&first.bytes) {
        return Err("the first run's bytes do not begin the second's".to_string());
    }
    if second.covered < first.covered {
        return Err("the second run covers fewer words".to_string());
    }
    met.more_bytes += usize::from(second.bytes.len() > first.bytes.len());
    met.more_words += usize::from(second.covered > first.covered);
    for word in words(pair, [first.covered, second.covered]) {
        let early = decided(&pair.first, &first, word)?;
        let late = decided(&pair.second, &second, word)?;
        if early.is_some() && late != early {
            return Err(format!("the second run decides word {word} otherwise"));
        }
        met.decided += usize::from(early.is_some()) + usize::from(late.is_some());
        met.not_yet += usize::from(late.is_some() && early.is_none());
    }
    Ok(())
}

/// The words to look at: all, or some by chance that only the pair decides, with the first and the last and those
/// before and behind the covered counts.
fn words(pair: &Pair, covered: [u64; 2]) -> Vec<u64> {
    let all = 1u64 << pair.first.n;
    if pair.first.n <= ALL_WORDS {
        return (0..all).collect();
    }
    let mut random = Random::new(pair.second.hash());
    let mut words = vec![0, all - 1];
    let ends = covered.map(|count| [count.saturating_sub(1), count]);
    words.extend(ends.into_iter().flatten().filter(|&word| word < all));
    // Low ones as well, which are covered sooner.
    words.extend(
        (0..SOME_WORDS).map(|place| random.below(all >> (place % u64::from(pair.first.n)))),
    );
    words
}

/// None if the library turns the run down.
fn run(case: &Case) -> Option<Run> {
    let Call::Combine(of) = &case.call else {
        return None;
    };
    let mut memory = Memory::new(case);
    let answer = combined(case, of, &mut memory);
    (answer.cause == 0).then(|| Run {
        bytes: memory.output.now()[..answer.written as usize].to_vec(),
        covered: answer.covered,
    })
}

/// What the written bytes decide for a word, which must be what the operator gives; none if they do not yet.
fn decided(case: &Case, run: &Run, word: u64) -> Result<Option<bool>, String> {
    let Call::Combine(of) = &case.call else {
        return Err("this is no case of combining".to_string());
    };
    let decision = |bytes: &[u8]| {
        verdict(case.n, bytes, word).ok_or(format!("word {word}: what was written is refused"))
    };
    let Some(given) = decision(&run.bytes)? else {
        return Ok(None);
    };
    let (a, b) = (decision(&case.stream)?, decision(&of.second)?);
    if word >= run.covered {
        return Err(format!(
            "word {word} is decided, but not answered as covered"
        ));
    }
    if outcome(of.op.into(), a, b) != Some(given) {
        return Err(format!(
            "word {word} is decided as {given} for {a:?} and {b:?}"
        ));
    }
    Ok(Some(given))
}

/// What `rule_decide` says: none if it refuses, none inside if it is not yet decided.
fn verdict(n: u32, bytes: &[u8], word: u64) -> Option<Option<bool>> {
    let mut records: Vec<Record> = vec![[0; 8]; LEAST_RECORDS];
    let stream = Stream {
        bytes: bytes.as_ptr(),
        length: bytes.len(),
    };
    let table = Table {
        records: records.as_mut_ptr(),
        length: records.len(),
    };
    // SAFETY: the slices are lent as rule.h asks.
    let answer = unsafe { foreign::rule_decide(n, stream, word, table) };
    let verdict = match answer.verdict {
        0 => Some(false),
        1 => Some(true),
        _ => None,
    };
    (answer.cause == 0).then_some(verdict)
}

// ---- Pairs

pub struct Pairs {
    random: Random,
    left: usize,
    /// The option counts of dense rules, if the pairs are of such.
    dense: Option<RangeInclusive<u32>>,
}

impl Pairs {
    pub fn new(seed: u64, count: usize) -> Pairs {
        Pairs {
            random: Random::new(seed ^ SALT),
            left: count,
            dense: None,
        }
    }

    /// Dense rules with so many options.
    pub fn dense(seed: u64, count: usize, options: RangeInclusive<u32>) -> Pairs {
        Pairs {
            random: Random::new(seed ^ SALT ^ u64::MAX),
            left: count,
            dense: Some(options),
        }
    }

    /// The next, if there is one.
    pub fn pair(&mut self) -> Option<Pair> {
        self.left = self.left.checked_sub(1)?;
        if let Some(options) = self.dense.clone() {
            return Some(self.dense_pair(options));
        }
        let (n, later) = self.streams();
        let earlier = later.each_ref().map(|stream| {
            let end = self.random.index(stream.len() + 1);
            stream[..end].to_vec()
        });
        let (op, size) = (
            self.random.below(16) as u32,
            small_size(&mut self.random) as u32,
        );
        let output = self.random.index(80);
        let more = output + self.random.index(80);
        Some(Pair {
            first: combine(n, op, size, earlier, output),
            second: combine(n, op, size, later, more),
        })
    }

    /// Dense rules: the second run's streams are whole, cut, or end in a fault; the first's are cut, both or one of them.
    fn dense_pair(&mut self, options: RangeInclusive<u32>) -> Pair {
        let (least, most) = (*options.start(), *options.end());
        let n = match self.random.below(3) {
            0 => least + self.random.below(u64::from(most - least + 1)) as u32,
            _ => most,
        };
        let mut diagrams = Diagrams::new();
        let later = [(); 2].map(|()| {
            let text = match self.random.below(2) {
                0 => {
                    let edge = rule(&mut self.random, &mut diagrams, n);
                    stream(&mut self.random, &diagrams, n, edge, 4_000)
                }
                _ => {
                    let edge = selected(&mut self.random, &mut diagrams, n, 5);
                    let size = 3 + self.random.below(40);
                    stream_of_size(&mut self.random, &diagrams, n, edge, size, 2_000)
                }
            };
            match self.random.below(12) {
                0..=1 => cut(&mut self.random, text),
                2 => {
                    let mut text = cut(&mut self.random, text);
                    let count = 1 + self.random.index(6);
                    text.extend((0..count).map(|_| self.random.pick(b"0000((()))~~:. 1123\n")));
                    text
                }
                _ => text,
            }
        });
        let mut earlier = later.clone();
        let which = self.random.below(3);
        for (index, stream) in (0..).zip(&mut earlier) {
            // Both, mostly.
            if which == 2 || which == index {
                stream.truncate(self.random.index(stream.len() + 1));
            }
        }
        let (op, size) = (
            self.random.below(16) as u32,
            self.random.pick(&SIZES) as u32,
        );
        let output = match self.random.below(3) {
            0 => self.random.index(3_000),
            _ => 8_000,
        };
        let more = output + self.random.index(3_000);
        Pair {
            first: combine(n, op, size, earlier, output),
            second: combine(n, op, size, later, more),
        }
    }

    /// The second run's streams.
    fn streams(&mut self) -> (u32, [Vec<u8>; 2]) {
        let n = match self.random.below(8) {
            0 => 6 + self.random.below(27) as u32,
            _ => self.random.below(6) as u32,
        };
        (n, [(); 2].map(|()| self.stream(n)))
    }

    /// A valid stream, one that is cut, or a cut one with any bytes behind it.
    fn stream(&mut self, n: u32) -> Vec<u8> {
        let stream = valid(&mut self.random, n);
        match self.random.below(4) {
            0..=1 => stream,
            2 => cut(&mut self.random, stream),
            _ => {
                let mut stream = cut(&mut self.random, stream);
                let count = 1 + self.random.index(6);
                stream.extend((0..count).map(|_| self.random.pick(b"0000((()))~~:. 1123\n")));
                stream
            }
        }
    }
}
