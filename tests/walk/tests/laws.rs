//! What must hold of any function and any run, on random ones: reading back what was written,
//! beginnings, both walks, and demand 3 (document 01, "What is claimed").

use std::collections::HashSet;
use walk::calls::combine;
use walk::case::Case;
use walk::functions::random_function;
use walk::generate::cases;
use walk::limits::LEAST_RECORDS;
use walk::random::Random;
use walk::reader::{Reader, Step};
use walk::reading::{read, Reading};
use walk::refusal::Fault;
use walk::run::*;
use walk::settled::*;
use walk::shapes::{cut, shaped, written};
use walk::writing::{write_words, WholeStream};

fn write_function(n: u32, size: u64, function: &[bool]) -> WholeStream {
    write_words(n, size, |word| function[word as usize])
}

/// A valid stream of an option count, written or hand-shaped.
fn valid(random: &mut Random, n: u32) -> Vec<u8> {
    if random.chance(1, 2) {
        written(random, n)
    } else {
        shaped(random, n, None)
    }
}

#[test]
fn reading_back() {
    let mut random = Random::new(1);
    for _ in 0..20_000 {
        let n = random.below(9) as u32;
        let size = random.below(12);
        let function = random_function(&mut random, n);
        let whole = write_function(n, size, &function);
        let reading = read(n, &whole.text).expect("what was written is taken");
        assert_eq!((reading.size, reading.complete), (size, true));
        assert_eq!(reading.covered, 1 << n);
        for (word, &decision) in (0..).zip(&function) {
            assert_eq!(reading.decision(word), decision);
        }
        // A beginning is taken too, and decides alike.
        let end = random.index(whole.text.len());
        let begun = read(n, &whole.text[..end]).expect("a beginning is taken");
        assert!(!begun.complete);
        for word in 0..begun.covered {
            assert_eq!(begun.decision(word), function[word as usize]);
        }
    }
}

/// All functions of three options at sizes 0 to 8: with enough numbers no part is written twice.
#[test]
fn all_of_three_options() {
    for function in 0..256u64 {
        for size in 0..=8 {
            let whole = write_words(3, size, |word| function >> word & 1 == 1);
            let reading = read(3, &whole.text).expect("taken");
            assert!((0..8).all(|word| reading.decision(word) == (function >> word & 1 == 1)));
            let stored = whole.text.iter().filter(|&&byte| byte == b':').count();
            if size == 8 {
                assert_eq!(stored, whole.nodes.len());
            }
        }
    }
}

/// All texts of a node with at most `most` bytes and digits 0 and 1, as document 01 lists them
/// ("A node is one of"), by length.
fn node_texts(most: usize) -> Vec<Vec<String>> {
    let numbers = |length: usize| match length {
        0 => Vec::new(),
        _ => (1u32 << (length - 1)..1 << length)
            .map(|number| format!("{number:b}"))
            .collect::<Vec<String>>(),
    };
    let mut texts: Vec<Vec<String>> = vec![Vec::new()];
    // Two-child nodes without a number, by length.
    let mut pairs: Vec<Vec<String>> = vec![Vec::new()];
    for length in 1..=most {
        let mut here = numbers(length);
        if length == 1 {
            here.push("0".to_string());
        }
        let inside = length.saturating_sub(2);
        here.extend(texts[inside].iter().map(|a| format!("({a})")));
        let mut pair = Vec::new();
        for first in 1..inside {
            for a in &texts[first] {
                for between in ["", " ", "~"] {
                    let Some(second) = inside.checked_sub(first + between.len()) else {
                        continue;
                    };
                    for b in &texts[second] {
                        let digit = |byte: Option<u8>| byte.is_some_and(|b| b.is_ascii_digit());
                        let due = digit(a.bytes().last()) && digit(b.bytes().next());
                        if between == "~" || due == (between == " ") {
                            pair.push(format!("({a}{between}{b})"));
                        }
                    }
                }
            }
        }
        for (before, nodes) in pairs.iter().enumerate() {
            for number in numbers((length - before).saturating_sub(1)) {
                here.extend(nodes.iter().map(|node| format!("{node}:{number}")));
            }
            if length - before == 2 {
                here.extend(nodes.iter().map(|node| format!("{node}:0")));
            }
        }
        here.extend(pair.iter().cloned());
        texts.push(here);
        pairs.push(pair);
    }
    texts
}

/// "Cause 7 is at the first byte that no stream of the shapes above could have there": against a
/// list of all short streams, for all beginnings of up to five bytes.
#[test]
fn cause_7_by_the_shapes() {
    let mut beginnings = HashSet::new();
    for node in node_texts(11).concat() {
        for turn in ["", "~"] {
            let stream = format!("{turn}{node}.");
            for end in 0..=stream.len().min(5) {
                beginnings.insert(stream[..end].to_string());
            }
        }
    }
    let mut texts = vec![String::new()];
    for _ in 0..5 {
        let bytes: Vec<char> = "()~:. 01\nx".chars().collect();
        let longer = texts.iter().flat_map(|text| {
            let bytes = bytes.iter();
            bytes.map(move |byte| format!("{text}{byte}"))
        });
        texts = longer.collect();
        for text in &texts {
            let stream = format!("0\n{text}");
            let mut reader = Reader::new(stream.as_bytes());
            let mut stop = reader.step();
            while let Step::Element { .. } = stop {
                stop = reader.step();
            }
            let wrong = (1..=text.len()).find(|&end| !beginnings.contains(&text[..end]));
            let expected = match wrong {
                Some(end) => Step::Fault(Fault {
                    cause: 7,
                    byte: end + 1,
                }),
                None => Step::RanOut,
            };
            assert_eq!(stop, expected, "{text:?}");
        }
    }
}

/// Shaped streams are valid, and each beginning of one is taken and decides alike.
#[test]
fn beginnings_of_streams() {
    let mut random = Random::new(2);
    for _ in 0..5_000 {
        let n = random.below(7) as u32;
        let stream = shaped(&mut random, n, None);
        let whole = read(n, &stream).expect("a valid stream");
        assert_eq!((whole.covered, whole.complete), (1 << n, true));
        let mut covered = 0;
        for end in 0..stream.len() {
            let begun = read(n, &stream[..end]).expect("a beginning is taken");
            assert!(covered <= begun.covered);
            covered = begun.covered;
            assert!((0..covered).all(|word| begun.decision(word) == whole.decision(word)));
        }
    }
}

/// A stream made to break one rule breaks that one.
#[test]
fn broken_streams() {
    let mut random = Random::new(3);
    for cause in 8..=13 {
        let mut met = 0;
        for _ in 0..1_000 {
            let n = 2 + random.below(4) as u32;
            let stream = shaped(&mut random, n, Some(cause));
            if let Err(fault) = read(n, &stream) {
                assert_eq!(fault.cause, cause);
                met += 1;
            }
        }
        assert!(met > 700, "cause {cause}: {met}");
    }
}

/// "later words can't change that beginning"; blocks give the text of words.
#[test]
fn later_words_and_blocks() {
    let mut random = Random::new(4);
    for _ in 0..5_000 {
        let n = random.below(7) as u32;
        let mut streams = [valid(&mut random, n), valid(&mut random, n)];
        for stream in &mut streams {
            if random.chance(1, 2) {
                *stream = cut(&mut random, stream.clone());
            }
        }
        let [one, two] = streams.map(|stream| read(n, &stream).expect("taken"));
        let (operator, size) = (random.below(16), random.below(8));
        let covered = covered_by_run(operator, &one, &two);
        let text = combined_text(operator, size, &one, &two, usize::MAX);
        let later = combine_words(operator, size, &one, &two, true);
        assert_eq!(released(n, size, covered, later), text);
        let blocks = combine_blocks(operator, size, &one, &two);
        assert_eq!(released(n, size, covered, blocks), text);
        // Any later words at all.
        let other = random_function(&mut random, n);
        let any = write_words(n, size, |word| {
            if word < covered {
                settled(operator, &one, &two, word).expect("settled")
            } else {
                other[word as usize]
            }
        });
        assert_eq!(released(n, size, covered, any), text);
    }
}

/// Above 16 options a run walks functions; where there are few blocks, they give the same text.
#[test]
fn many_options() {
    let mut random = Random::new(5);
    let mut met = 0;
    for _ in 0..400 {
        let n = random.pick(&[17, 24, 31, 32]);
        let streams = [shaped(&mut random, n, None), shaped(&mut random, n, None)];
        let [one, two] = [0, 1].map(|index: usize| read(n, &streams[index]).expect("taken"));
        let (operator, size) = (random.below(16), random.below(8));
        let text = combined_text(operator, size, &one, &two, 65_536);
        if count_blocks(operator, &one, &two, 2_000).is_some() {
            met += 1;
            let blocks = combine_blocks(operator, size, &one, &two);
            assert_eq!(blocks.text, text);
        }
        if text.len() > 65_536 {
            continue;
        }
        let reading = read(n, &text).expect("taken");
        assert_eq!((reading.covered, reading.complete), (1 << n, true));
        for _ in 0..200 {
            let word = random.below(1 << n);
            let decision = operate(operator, one.decision(word), two.decision(word));
            assert_eq!(reading.decision(word), decision);
        }
    }
    assert!(met > 100, "{met}");
}

/// One call of combining: its written bytes and its answer.
fn run(
    n: u32,
    operator: u64,
    size: u64,
    streams: [&[u8]; 2],
    length: usize,
) -> Option<(Vec<u8>, Written)> {
    let mut output = vec![170; length];
    let [mut one, mut two, mut three] = [(); 3].map(|()| vec![7; LEAST_RECORDS]);
    let tables = [&mut one[..], &mut two[..], &mut three[..]];
    let written = combine(n.into(), operator, size, streams, &mut output, tables).ok()?;
    assert!(output[written.bytes..].iter().all(|&byte| byte == 170));
    output.truncate(written.bytes);
    Some((output, written))
}

/// The written bytes, read as a stream of the run's option count, are taken, cover no more than
/// was answered, and decide as the operator does.
fn decides_as_the_operator(
    bytes: &[u8],
    written: Written,
    operator: u64,
    one: &Reading,
    two: &Reading,
) {
    let reading = read(one.options, bytes).expect("what was written is taken");
    assert!(reading.covered <= written.covered);
    assert!(reading.covered == written.covered || written.ending != Ending::Whole);
    for word in 0..reading.covered {
        let decision = settled(operator, one, two, word);
        assert_eq!(Some(reading.decision(word)), decision);
    }
}

/// Demand 3: with streams that begin with the earlier ones and an output at least as long, a run
/// only lengthens an earlier result, and both decide as the operator does from the two rules.
#[test]
fn demand_3() {
    let mut random = Random::new(6);
    for _ in 0..20_000 {
        let n = random.below(7) as u32;
        let (operator, size) = (random.below(16), random.below(8));
        let whole = [valid(&mut random, n), valid(&mut random, n)];
        let longer = whole.map(|stream| {
            if random.chance(1, 2) {
                cut(&mut random, stream)
            } else {
                stream
            }
        });
        let shorter = [0, 1].map(|index: usize| {
            let end = random.index(longer[index].len() + 1);
            longer[index][..end].to_vec()
        });
        let length = random.index(60);
        let more = length + random.index(60);
        let first = run(n, operator, size, [&shorter[0], &shorter[1]], length);
        let second = run(n, operator, size, [&longer[0], &longer[1]], more);
        let (bytes, written) = first.expect("a beginning of a valid stream is taken");
        let (more_bytes, more_written) = second.expect("a beginning of a valid stream is taken");
        assert!(more_bytes.starts_with(&bytes));
        assert!(more_written.covered >= written.covered);
        let [one, two] = shorter.map(|stream| read(n, &stream).expect("taken"));
        decides_as_the_operator(&bytes, written, operator, &one, &two);
        let [one, two] = longer.map(|stream| read(n, &stream).expect("taken"));
        decides_as_the_operator(&more_bytes, more_written, operator, &one, &two);
    }
}

/// "A cut run's text is a prefix of the whole text", at every cut of both inputs.
#[test]
fn cut_runs() {
    let mut random = Random::new(7);
    for _ in 0..300 {
        let n = random.below(5) as u32;
        let (operator, size) = (random.below(16), random.below(6));
        let streams = [valid(&mut random, n), valid(&mut random, n)];
        let whole = run(n, operator, size, [&streams[0], &streams[1]], 1000);
        let (whole, _) = whole.expect("taken");
        for end in 0..streams[0].len() {
            let cut = [&streams[0][..end], &streams[1][..]];
            let (text, _) = run(n, operator, size, cut, 1000).expect("taken");
            assert!(whole.starts_with(&text));
        }
        for end in 0..streams[1].len() {
            let cut = [&streams[0][..], &streams[1][..end]];
            let (text, _) = run(n, operator, size, cut, 1000).expect("taken");
            assert!(whole.starts_with(&text));
        }
    }
}

/// The cases are the same for the same seed, and every call and cause is among them.
#[test]
fn the_list_of_cases() {
    let list = cases(1, 5000);
    assert!(list.len() >= 5000);
    assert_eq!(list, cases(1, 5000));
    assert_ne!(list, cases(2, 5000));
    for call in 0..8 {
        assert!(list.iter().filter(|case| case.call() == call).count() >= 100);
    }
    for cause in 7..=13 {
        let faulty = |case: &&Case| case.call() < 5 && case.expected()[..2] == [1, cause];
        assert!(list.iter().filter(faulty).count() >= 40, "cause {cause}");
    }
}
