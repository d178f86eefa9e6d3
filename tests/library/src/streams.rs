//! Streams for the cases: valid ones, ones with a fault, and changes to them.

use walk::functions::random_function;
use walk::generate::{nested, staircase};
use walk::limits::MOST_SIZE;
use walk::random::Random;
use walk::reading::read;
use walk::shapes::{cut, damaged, shaped};
use walk::writing::write_words;

/// A stream meant for an option count: valid, or with one fault, or as far as a fault.
pub fn stream_of(random: &mut Random, n: u32) -> Vec<u8> {
    match random.below(20) {
        0..=5 if n <= 8 => written(random, n),
        0..=9 => shaped(random, n, None),
        10..=15 => {
            let cause = random.pick(&[7, 8, 9, 10, 11, 11, 11, 12, 12, 12, 13, 13]);
            shaped(random, n, Some(cause))
        }
        16..=18 => wandering(random, n),
        _ => deep(random, n),
    }
}

/// A stream without a fault, as it is written or in a shape that no writer would choose.
pub fn valid(random: &mut Random, n: u32) -> Vec<u8> {
    match random.below(2) {
        0 if n <= 8 => written(random, n),
        _ => shaped(random, n, None),
    }
}

/// Left as it is, cut, damaged, or with a number replaced.
pub fn changed(random: &mut Random, mut stream: Vec<u8>) -> Vec<u8> {
    let changes = match random.below(20) {
        0..=7 => 0,
        8..=17 => 1,
        _ => 2,
    };
    for _ in 0..changes {
        stream = match random.below(10) {
            0..=3 => cut(random, stream),
            4..=7 => damaged(random, stream),
            _ => renumbered(random, stream),
        };
    }
    stream
}

/// A valid stream with other numbers, alike in their order: the highest is the last of the largest table, or one
/// of those before it.
pub fn raised(random: &mut Random, stream: &[u8]) -> Vec<u8> {
    let text = String::from_utf8_lossy(stream);
    let (_, node) = text.split_once('\n').unwrap_or_default();
    let numbers = || node.split(|c: char| !c.is_ascii_digit());
    let highest = numbers().filter_map(|digits| digits.parse().ok()).max();
    let more = MOST_SIZE - highest.unwrap_or(0).min(MOST_SIZE);
    let more = more - random.below(4).min(more);
    let mut rest = node;
    let mut bytes = format!("{MOST_SIZE}\n");
    for digits in numbers() {
        bytes.push_str(&match digits.parse::<u64>() {
            Ok(number) if number > 0 => (number + more).to_string(),
            _ => digits.to_string(),
        });
        rest = &rest[digits.len()..];
        bytes.extend(rest.chars().take(1));
        rest = rest.get(1..).unwrap_or_default();
    }
    bytes.into_bytes()
}

/// A stream of some thousand bytes, with its option count.
pub fn long_stream(random: &mut Random) -> (u32, Vec<u8>) {
    let n = 8 + random.below(5) as u32;
    let function: Vec<bool> = match random.below(2) {
        0 => (0..1 << n).map(|_| random.chance(1, 2)).collect(),
        _ => random_function(random, n),
    };
    let size = random.pick(&[MOST_SIZE, MOST_SIZE, MOST_SIZE - 1, 500, 100]);
    (n, write_words(n, size, |word| function[word as usize]).text)
}

/// As it is written for a random function.
fn written(random: &mut Random, n: u32) -> Vec<u8> {
    let function = random_function(random, n);
    let size = match random.below(4) {
        0 => random.below(MOST_SIZE + 1),
        1 => random.below(40),
        _ => random.below(7),
    };
    write_words(n, size, |word| function[word as usize]).text
}

/// Bytes that go on without a fault as long as chance has it.
fn wandering(random: &mut Random, n: u32) -> Vec<u8> {
    let size = random.below(5);
    let mut bytes = format!("{size}\n").into_bytes();
    let most = 4 + random.index(60);
    while bytes.len() < most {
        bytes.push(random.pick(b"((((000~~))):::1112234 ."));
        if read(n, &bytes).is_ok() {
            continue;
        }
        if random.chance(1, 30) {
            break;
        }
        bytes.pop();
    }
    bytes
}

/// About as many brackets as there are options.
fn deep(random: &mut Random, n: u32) -> Vec<u8> {
    let count = (n + 1).saturating_sub(random.below(3) as u32).max(1);
    let count = if random.chance(1, 4) {
        30 + random.index(5)
    } else {
        count as usize
    };
    match random.below(2) {
        0 => nested(count, random.pick(&["0", "(0~0):1", "1", "(0 0)"])),
        _ => staircase(random.below(3), count),
    }
}

/// A number replaced: by one that is alike in its low bits or digits, by one at a limit, or by a row of
/// up to some thousand digits.
fn renumbered(random: &mut Random, stream: Vec<u8>) -> Vec<u8> {
    let begins =
        |at: usize| stream[at].is_ascii_digit() && (at == 0 || !stream[at - 1].is_ascii_digit());
    let places: Vec<usize> = (0..stream.len()).filter(|&at| begins(at)).collect();
    if places.is_empty() {
        return stream;
    }
    let at = random.pick(&places);
    let digits = stream[at..].iter().take_while(|byte| byte.is_ascii_digit());
    let end = at + digits.count();
    let old = String::from_utf8_lossy(&stream[at..end]).into_owned();
    let number = number(random, &old);
    [&stream[..at], number.as_bytes(), &stream[end..]].concat()
}

fn number(random: &mut Random, old: &str) -> String {
    let value: u128 = old.parse().unwrap_or(0);
    let more = 1 + u128::from(random.below(3));
    match random.below(12) {
        0..=2 => (value + (more << 32)).to_string(),
        3..=4 => (value + (more << 64)).to_string(),
        5 => (value + (more << random.pick(&[8, 10, 16, 31, 33, 63]))).to_string(),
        6 => ((1u128 << random.pick(&[10, 16, 31, 32, 64])) + more - 2).to_string(),
        7 => (1022 + more).to_string(),
        8 => format!("0{old}"),
        9 => format!("1{}{old}", "0".repeat(random.index(60))),
        10 => digits(random, 40),
        _ => digits(random, 3000),
    }
}

/// Up to so many digits.
fn digits(random: &mut Random, most: usize) -> String {
    let count = random.index(most);
    let mut digit = || char::from(random.pick(b"0123456789"));
    let row: String = (0..count).map(|_| digit()).collect();
    format!("{}{row}", 1 + random.below(9))
}
