//! The next admitted word (document 02, R-1).

use crate::diagrams::Diagrams;
use crate::reading::Reading;

/// As many words are tried one by one; where more could be, functions take their place. Both give
/// the same word.
pub const TRIED: u64 = 4096;

/// The operators "a and b" and "a but not b" (document 01, "The written stream").
const AND: u64 = 8;
const BUT: u64 = 4;

impl Reading {
    /// "the least admitted word not below w" among those that are covered.
    pub fn next_admitted(&self, word: u64) -> Option<u64> {
        if self.covered.saturating_sub(word) <= TRIED {
            self.next_by_words(word)
        } else {
            self.next_by_functions(word)
        }
    }

    /// Each word is tried.
    pub fn next_by_words(&self, word: u64) -> Option<u64> {
        (word..self.covered).find(|&word| self.decision(word))
    }

    /// The words that are admitted, covered and not below w are a function; this is its first word.
    pub fn next_by_functions(&self, word: u64) -> Option<u64> {
        let mut diagrams = Diagrams::new();
        let admitted = diagrams.of_reading(self);
        let covered = diagrams.before(self.options, self.covered);
        let below = diagrams.before(self.options, word);
        let words = diagrams.combine(AND, admitted, covered);
        let words = diagrams.combine(BUT, words, below);
        diagrams.first_word(self.options, words)
    }
}
