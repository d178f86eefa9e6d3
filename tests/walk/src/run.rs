//! A run (document 01, "The written stream"): operator, the text that is released, clipping to the
//! output, ending. `settled` has the covered count.

use crate::cached;
use crate::reading::Reading;
use crate::settled::{covered_by_run, outcome, settled};
use crate::writing::{heading, write_blocks, write_words, WholeStream};

/// Up to this option count a run walks all words; above it, functions (see `cached`). Both give the
/// same text.
pub const PLAIN_WALK: u32 = 16;

#[derive(Clone, Copy, Debug, PartialEq, Eq)]
pub enum Ending {
    Whole,
    InputEnded,
    OutputFull,
}

/// "The answer has bytes written, covered count, ending".
#[derive(Clone, Copy, Debug, PartialEq, Eq)]
pub struct Written {
    pub bytes: usize,
    pub covered: u64,
    pub ending: Ending,
}

/// "decisions a, b give binary digit 2a + b of it, digit 0 lowest".
pub fn operate(operator: u64, a: bool, b: bool) -> bool {
    (operator >> (2 * u64::from(a) + u64::from(b))) & 1 == 1
}

/// The text of combining two streams that were read with one option count; with many options, of a
/// text of more than `most` bytes at least its first `most` + 1.
pub fn combined_text(
    operator: u64,
    size: u64,
    first: &Reading,
    second: &Reading,
    most: usize,
) -> Vec<u8> {
    let options = first.options;
    if options > PLAIN_WALK {
        return cached::combined_text(operator, size, first, second, most);
    }
    let whole = combine_words(operator, size, first, second, false);
    let covered = covered_by_run(operator, first, second);
    released(options, size, covered, whole)
}

/// The walk over all words. Words that are not covered are taken as `later`: "later words can't
/// change that beginning".
pub fn combine_words(
    operator: u64,
    size: u64,
    first: &Reading,
    second: &Reading,
    later: bool,
) -> WholeStream {
    let covered = covered_by_run(operator, first, second);
    write_words(first.options, size, |word| {
        if word < covered {
            settled(operator, first, second, word).expect("the words before it are settled")
        } else {
            later
        }
    })
}

/// The same, where a block that both inputs decide at once is one step, for many options and few
/// blocks.
pub fn combine_blocks(operator: u64, size: u64, first: &Reading, second: &Reading) -> WholeStream {
    let covered = covered_by_run(operator, first, second);
    write_blocks(first.options, size, |level, word| {
        block(operator, covered, first, second, level, word)
    })
}

/// The decision of a block, if both inputs decide it at once or do not cover it; later words are
/// taken as no.
fn block(
    operator: u64,
    covered: u64,
    first: &Reading,
    second: &Reading,
    level: u32,
    word: u64,
) -> Option<bool> {
    let words = 1u64 << (first.options + 1 - level);
    if word >= covered {
        Some(false)
    } else if word + words > covered {
        None
    } else {
        let a = block_of_input(first, level, word)?;
        let b = block_of_input(second, level, word)?;
        Some(outcome(operator, a, b).expect("the words before the covered count are settled"))
    }
}

/// Yes, no or not covered for all words of a block, if one of them holds for all.
fn block_of_input(input: &Reading, level: u32, word: u64) -> Option<Option<bool>> {
    let words = 1u64 << (input.options + 1 - level);
    if word >= input.covered {
        Some(None)
    } else if word + words > input.covered {
        None
    } else {
        input.block_decision(level, word).map(Some)
    }
}

/// How many blocks the walk of `combine_blocks` has, if at most `most`.
pub fn count_blocks(operator: u64, first: &Reading, second: &Reading, most: u64) -> Option<u64> {
    let covered = covered_by_run(operator, first, second);
    let mut waiting = vec![(1u32, 0u64)];
    let mut blocks = 0;
    while let Some((level, word)) = waiting.pop() {
        if block(operator, covered, first, second, level, word).is_some() {
            blocks += 1;
            if blocks > most {
                return None;
            }
        } else {
            waiting.push((level + 1, word));
            waiting.push((level + 1, word + (1u64 << (first.options - level))));
        }
    }
    Some(blocks)
}

/// "If it is 2^n the text is the whole stream. Otherwise it is the beginning that ends with the
/// last two-child node written out (number included) whose words are all covered ...; with none,
/// size and LF."
pub fn released(options: u32, size: u64, covered: u64, whole: WholeStream) -> Vec<u8> {
    if covered == 1u64 << options {
        return whole.text;
    }
    let mut nodes = whole.nodes.iter().rev();
    match nodes.find(|node| node.words_end <= covered) {
        Some(node) => whole.text[..node.end].to_vec(),
        None => heading(size),
    }
}

/// "If the output is shorter than the text, it gets the text's first bytes and the ending is
/// "output full"; else the ending is "whole" if the covered count is 2^n, otherwise "input
/// ended". Bytes beyond those written keep their content."
pub fn put_out(options: u32, covered: u64, text: &[u8], output: &mut [u8]) -> Written {
    let bytes = text.len().min(output.len());
    output[..bytes].copy_from_slice(&text[..bytes]);
    let ending = if output.len() < text.len() {
        Ending::OutputFull
    } else if covered == 1u64 << options {
        Ending::Whole
    } else {
        Ending::InputEnded
    };
    Written {
        bytes,
        covered,
        ending,
    }
}
