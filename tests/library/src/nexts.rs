//! Finding the next admitted word: every word of small rules, whole and cut at each byte, chains of constant nodes and
//! a few admitted words with many options; and rules that are listed, each answer asked from one past the one before.

use crate::case::{Call, Case};
use crate::compare::same;
use crate::foreign::{self, Found};
use crate::lent::Memory;
use crate::streams::{changed, valid};
use walk::cached::whole_text;
use walk::diagrams::{constant, Diagrams, Edge};
use walk::generate::constant_chain;
use walk::limits::{LEAST_RECORDS, MOST_SIZE};
use walk::random::Random;
use walk::reading::read;
use walk::shapes::cut;
use walk::writing::write_words;

/// Small streams that are asked from each word, and how many of them at each cut.
const SMALL: usize = 150;
const CUT: usize = 40;

/// Rules of many options with a few words that are admitted, or refused.
const SPARSE: usize = 120;

/// Small rules that are listed, besides the functions of three options.
const LISTED: usize = 600;

/// For telling this sequence of numbers from that of the other cases of a seed.
const SALT: u64 = 0x6e65_7874_0000;

/// The operator OR.
const OR: u64 = 14;

/// All cases of a seed.
pub fn cases(seed: u64) -> Vec<Case> {
    let mut random = Random::new(seed ^ SALT);
    let mut cases = Vec::new();
    for place in 0..SMALL {
        let n = random.below(6) as u32;
        let stream = small_stream(&mut random, n);
        let ends = if place < CUT { 0 } else { stream.len() };
        for end in ends..=stream.len() {
            cases.extend((0..=1 << n).map(|word| next(n, stream[..end].to_vec(), word)));
        }
        // A fault, which may lie behind the answer.
        let faulty = changed(&mut random, stream);
        cases.extend((0..=1 << n).map(|word| next(n, faulty.clone(), word)));
    }
    for depth in [1, 2, 16, 29, 30, 31, 32] {
        chains(&mut random, depth, &mut cases);
    }
    for _ in 0..SPARSE {
        let (n, words, stream) = sparse(&mut random);
        for word in words {
            for near in [word.saturating_sub(1), word, word + 1] {
                cases.push(next(n, stream.clone(), near));
            }
            let stream = changed(&mut random, stream.clone());
            cases.push(next(n, stream, word));
        }
    }
    cases
}

fn next(n: u32, stream: Vec<u8>, word: u64) -> Case {
    Case {
        call: Call::Next { word },
        n,
        records: LEAST_RECORDS,
        stream,
    }
}

fn small_stream(random: &mut Random, n: u32) -> Vec<u8> {
    loop {
        let stream = valid(random, n);
        if stream.len() <= 100 {
            return stream;
        }
    }
}

/// 32 options and a chain of so many stored nodes: all alike, turned about somewhere or everywhere; alone, in the other
/// half of a node, with a leading `~`, with a fault behind it, and cut at each byte.
fn chains(random: &mut Random, depth: usize, cases: &mut Vec<Case>) {
    let turned = random.draw();
    let mut texts = vec![
        constant_chain(depth, |_| false),
        constant_chain(depth, |_| true),
        constant_chain(depth, |number| turned >> number & 1 == 1),
    ];
    if depth < 32 {
        let chain = constant_chain(depth, |_| false);
        texts.push(format!("({chain}~0)"));
        texts.push(format!("(0~{chain})"));
        texts.push(format!("({chain}~{depth})"));
    }
    for text in texts {
        for before in ["", "~"] {
            let stream = format!("32\n{before}{text}.").into_bytes();
            for word in edges(random) {
                cases.push(next(32, stream.clone(), word));
                cases.push(next(32, [&stream[..], b"."].concat(), word));
            }
            for end in 0..stream.len() {
                let word = if random.chance(1, 2) {
                    0
                } else {
                    random.below(1 << 32)
                };
                cases.push(next(32, stream[..end].to_vec(), word));
            }
        }
    }
}

/// Words of 32 options at which something ends, one past the last of them, and one of them.
fn edges(random: &mut Random) -> [u64; 9] {
    let (half, all) = (1 << 31, 1 << 32);
    let any = random.below(all);
    [0, 1, half - 1, half, half + 1, all - 2, all - 1, all, any]
}

/// Many options: the words that are admitted, or refused, and the stream.
fn sparse(random: &mut Random) -> (u32, Vec<u64>, Vec<u8>) {
    let n = 17 + random.below(16) as u32;
    let (words, edge, diagrams) = few_words(random, n);
    let edge = edge.turned(random.chance(1, 3));
    (n, words, sparse_stream(random, n, &diagrams, edge))
}

/// A few words, rising, and the function that is yes for them alone.
fn few_words(random: &mut Random, n: u32) -> (Vec<u64>, Edge, Diagrams) {
    let mut words: Vec<u64> = (0..random.below(7))
        .map(|_| match random.below(6) {
            0 => 0,
            1 => (1 << n) - 1,
            2 => (1 << (n - 1)) - random.below(2),
            _ => random.below(1 << n),
        })
        .collect();
    words.sort();
    words.dedup();
    let mut diagrams = Diagrams::new();
    let mut edge = constant(false);
    for &word in &words {
        let mut one = constant(true);
        for level in (1..=n).rev() {
            let halves = match word >> (n - level) & 1 {
                0 => [one, constant(false)],
                _ => [constant(false), one],
            };
            one = diagrams.join(level, halves[0], halves[1]);
        }
        edge = diagrams.combine(OR, edge, one);
    }
    (words, edge, diagrams)
}

fn sparse_stream(random: &mut Random, n: u32, diagrams: &Diagrams, edge: Edge) -> Vec<u8> {
    let size = random.pick(&[0, 3, 40, MOST_SIZE]);
    whole_text(diagrams, n, size, edge, 1 << 16)
}

// ---- Listing

/// A rule, the words that listing it must give, and whether all words are covered.
pub struct Rule {
    n: u32,
    stream: Vec<u8>,
    words: Vec<u64>,
    whole: bool,
}

/// What was listed: rules that cover all words, others, and words.
#[derive(Default)]
pub struct Listed {
    pub whole: usize,
    pub cut: usize,
    pub words: usize,
}

impl Listed {
    pub fn line(&self) -> String {
        let Listed { whole, cut, words } = self;
        format!("listed: whole rules {whole}, cut ones {cut}, words {words}\n")
    }
}

/// The rules that are listed.
pub fn rules(seed: u64) -> Vec<Rule> {
    let mut random = Random::new(seed ^ SALT ^ 1);
    let mut rules = Vec::new();
    // Every function of three options, at some sizes.
    for truths in 0..=u8::MAX {
        for size in [0, 2, 8] {
            rules.push(Rule {
                n: 3,
                stream: write_words(3, size, |word| truths >> word & 1 == 1).text,
                words: (0..8).filter(|word| truths >> word & 1 == 1).collect(),
                whole: true,
            });
        }
    }
    for _ in 0..LISTED {
        let n = random.below(9) as u32;
        let stream = valid(&mut random, n);
        let stream = match random.below(2) {
            0 => cut(&mut random, stream),
            _ => stream,
        };
        let reading = read(n, &stream).expect("it has no fault");
        rules.push(Rule {
            n,
            words: (0..reading.covered)
                .filter(|&word| reading.decision(word))
                .collect(),
            whole: reading.covered == 1 << n,
            stream,
        });
    }
    for _ in 0..SPARSE {
        let n = 17 + random.below(16) as u32;
        let (words, edge, diagrams) = few_words(&mut random, n);
        rules.push(Rule {
            n,
            stream: sparse_stream(&mut random, n, &diagrams, edge),
            words,
            whole: true,
        });
    }
    rules
}

/// Lists a rule by the library; an error says with which case it goes wrong, and how.
pub fn list(rule: &Rule, listed: &mut Listed) -> Result<(), (Case, String)> {
    let mut case = next(rule.n, rule.stream.clone(), 0);
    let mut memory = Memory::new(&case);
    let (mut words, mut from) = (rule.words.iter(), 0);
    while from < 1 << rule.n {
        case.call = Call::Next { word: from };
        let mut due = Found {
            answer: if rule.whole { 0 } else { 2 },
            ..Found::default()
        };
        if let Some(&word) = words.next() {
            (due.answer, due.word) = (1, word);
        }
        // SAFETY: the slices are lent as rule.h asks.
        let given = unsafe { foreign::rule_next(rule.n, memory.stream(), from, memory.table()) };
        same(due, given).map_err(|difference| (case.clone(), difference))?;
        if due.answer != 1 {
            break;
        }
        from = due.word + 1;
        listed.words += 1;
    }
    match rule.whole {
        true => listed.whole += 1,
        false => listed.cut += 1,
    }
    Ok(())
}
