//! The walk over functions (`cached`) against the walk over all words (`writing`), byte by byte.

use walk::cached;
use walk::dense::{self, SIZES};
use walk::diagrams::Diagrams;
use walk::functions::{busy_function, random_function};
use walk::random::Random;
use walk::reading::{read, Reading};
use walk::run::*;
use walk::settled::*;
use walk::shapes::{cut, shaped, written};
use walk::writing::write_words;

/// The text of a run by the walk over all words.
fn plain(operator: u64, size: u64, one: &Reading, two: &Reading) -> Vec<u8> {
    let whole = combine_words(operator, size, one, two, false);
    released(
        one.options,
        size,
        covered_by_words(operator, one, two),
        whole,
    )
}

/// Both give the same text, whole and clipped.
fn same(random: &mut Random, operator: u64, size: u64, one: &Reading, two: &Reading) {
    let due = plain(operator, size, one, two);
    let covered = covered_by_words(operator, one, two);
    assert_eq!(covered_by_functions(operator, one, two), covered);
    let text = cached::combined_text(operator, size, one, two, usize::MAX);
    assert_eq!(due, text);
    let most = random.index(due.len() + 2);
    let begun = cached::combined_text(operator, size, one, two, most);
    assert!(due.starts_with(&begun) && (begun == due || begun.len() > most));
}

fn is_some_stream(random: &mut Random, n: u32, stream: &[u8]) -> Reading {
    let reading = read(n, stream).expect("taken");
    if random.chance(1, 3) && !stream.is_empty() {
        return read(n, &cut(random, stream.to_vec())).expect("a beginning is taken");
    }
    reading
}

/// All pairs of functions of two options, all operators, sizes 0 to 4.
#[test]
fn two_options() {
    let mut random = Random::new(21);
    for functions in 0..256u64 {
        let [one, two] = [functions % 16, functions / 16].map(|function| {
            let size = random.below(5);
            let text = write_words(2, size, |word| function >> word & 1 == 1).text;
            read(2, &text).expect("taken")
        });
        for operator in 0..16 {
            for size in 0..=4 {
                same(&mut random, operator, size, &one, &two);
            }
        }
    }
}

/// Two streams of three options, each cut at every byte.
#[test]
fn every_cut() {
    let mut random = Random::new(22);
    for _ in 0..40 {
        let n = 2 + random.below(3) as u32;
        let streams = [written(&mut random, n), shaped(&mut random, n, None)];
        for index in 0..2 {
            for end in 0..=streams[index].len() {
                let mut streams = streams.clone();
                streams[index].truncate(end);
                let [one, two] = [0, 1].map(|at: usize| read(n, &streams[at]).expect("taken"));
                let (operator, size) = (random.below(16), random.below(5));
                same(&mut random, operator, size, &one, &two);
            }
        }
    }
}

/// Streams of up to ten options, written or in any shape, cut or not, at all sizes.
#[test]
fn random_pairs() {
    let mut random = Random::new(23);
    for round in 0..20_000 {
        let n = if round % 20 == 0 {
            7 + random.below(4)
        } else {
            random.below(7)
        } as u32;
        let [one, two] = [(); 2].map(|()| {
            let stream = match random.below(4) {
                0 => shaped(&mut random, n, None),
                1 => written(&mut random, n),
                _ => {
                    let size = random.below(20);
                    let function = match random.below(8) {
                        0 if n < 6 => busy_function(&mut random, n, size),
                        _ => random_function(&mut random, n),
                    };
                    write_words(n, size, |word| function[word as usize]).text
                }
            };
            is_some_stream(&mut random, n, &stream)
        });
        let size = match random.below(4) {
            0 => random.pick(&SIZES),
            1 => random.below(60),
            _ => random.below(8),
        };
        same(&mut random, round % 16, size, &one, &two);
    }
}

/// The streams that are made for many options, with up to eleven: they are taken, they decide as
/// the function does, and what is combined is written alike.
#[test]
fn dense_rules() {
    let mut random = Random::new(24);
    let mut whole = 0;
    for round in 0..4_000 {
        let n = if round % 10 == 0 {
            8 + random.below(4)
        } else {
            3 + random.below(5)
        } as u32;
        let mut diagrams = Diagrams::new();
        let [one, two] = [(); 2].map(|()| {
            let edge = dense::rule(&mut random, &mut diagrams, n);
            let stream = match random.below(2) {
                0 => dense::stream(&mut random, &diagrams, n, edge, 3_000),
                _ => {
                    let size = 1 + random.below(12);
                    dense::stream_of_size(&mut random, &diagrams, n, edge, size, 3_000)
                }
            };
            let reading = read(n, &stream).expect("taken");
            for word in 0..reading.covered {
                assert_eq!(reading.decision(word), diagrams.decision(n, edge, word));
            }
            whole += u64::from(reading.complete);
            is_some_stream(&mut random, n, &stream)
        });
        let size = match random.below(2) {
            0 => random.pick(&SIZES),
            _ => random.below(20),
        };
        same(&mut random, round % 16, size, &one, &two);
    }
    assert!(whole > 4_000, "{whole}");
}

/// With 32 options: what was written is read back and decides as the operator does.
#[test]
fn many_options() {
    let mut random = Random::new(25);
    for round in 0..200 {
        let mut diagrams = Diagrams::new();
        let edges = [(); 2].map(|()| dense::rule(&mut random, &mut diagrams, 32));
        let [one, two] = edges.map(|edge| {
            let stream = dense::stream(&mut random, &diagrams, 32, edge, 20_000);
            is_some_stream(&mut random, 32, &stream)
        });
        let (operator, size) = (round % 16, random.pick(&SIZES));
        let text = cached::combined_text(operator, size, &one, &two, 65_536);
        let reading = read(32, &text).expect("what was written is taken");
        assert!(reading.covered <= covered_by_run(operator, &one, &two));
        for place in 0..200 {
            let word = random.below(reading.covered >> (place % 33));
            if word < reading.covered {
                let decision = settled(operator, &one, &two, word);
                assert_eq!(Some(reading.decision(word)), decision);
            }
        }
    }
}
