//! Functions of the options, as the list of their decisions, for test cases.

use crate::random::Random;
use crate::writing::write_words;

/// A function of 2^n words of one of several sorts, so that constants, repeated parts and
/// reused numbers all occur.
pub fn random_function(random: &mut Random, n: u32) -> Vec<bool> {
    let words = 1usize << n;
    match random.below(16) {
        0..=1 => (0..words).map(|_| random.chance(1, 2)).collect(),
        2 => (0..words).map(|_| random.chance(1, 6)).collect(),
        3..=4 => symmetric(random, n),
        5 => vec![random.chance(1, 2); words],
        _ => from_pools(random, n),
    }
}

/// Of some random functions the one in whose stream numbers are given out most often.
pub fn busy_function(random: &mut Random, n: u32, size: u64) -> Vec<bool> {
    let functions = (0..40).map(|_| random_function(random, n));
    let storings = |function: &Vec<bool>| {
        let text = write_words(n, size, |word| function[word as usize]).text;
        text.iter().filter(|&&byte| byte == b':').count()
    };
    functions.max_by_key(storings).expect("there are some")
}

/// A function of the number of options set.
fn symmetric(random: &mut Random, n: u32) -> Vec<bool> {
    let by_count: Vec<bool> = (0..=n).map(|_| random.chance(1, 2)).collect();
    let count = |word: u32| word.count_ones() as usize;
    (0..1u32 << n).map(|word| by_count[count(word)]).collect()
}

/// Few different parts at each level, each made of two of the level below, turned or not.
fn from_pools(random: &mut Random, n: u32) -> Vec<bool> {
    let mut pool = vec![vec![false]];
    for _ in 0..n {
        let parts = 1 + random.index(4);
        pool = (0..parts)
            .map(|_| {
                let mut part = turned(random, &pool);
                part.extend(turned(random, &pool));
                part
            })
            .collect();
    }
    pool.swap_remove(0)
}

fn turned(random: &mut Random, pool: &[Vec<bool>]) -> Vec<bool> {
    let turn = random.chance(1, 2);
    let part = &pool[random.index(pool.len())];
    part.iter().map(|decision| decision ^ turn).collect()
}

/// "9sym" (n 9, three to six set).
pub fn nine_symmetric(word: u64) -> bool {
    (3..=6).contains(&word.count_ones())
}
