//! Deciding covered words (document 01, "A stream that stops early") and truth tables ("The
//! written stream").

use crate::reading::{Node, Reading};

impl Reading {
    /// The decision of a covered word: true is yes.
    pub fn decision(&self, word: u64) -> bool {
        self.block_decision(self.options + 1, word)
            .expect("all options are given")
    }

    /// The walk of a word that knows only the options before `level`: the decision if it comes
    /// to `0` by them alone, so that all words of that block are decided so. The block must be
    /// covered.
    pub fn block_decision(&self, level: u32, word: u64) -> Option<bool> {
        // "Begin at the outermost node." "The decision is no, turned about once for a leading
        // `~` and once for each second child gone to in an `(A~B)`."
        let mut decision = self.turn;
        let mut node = self.outermost.expect("a covered word has a node");
        loop {
            match self.nodes[node] {
                // "At `0` stop."
                Node::Constant => return Some(decision),
                // "At a number go to the node last stored under it before that place".
                Node::Number { stored } => node = stored,
                // "At a bracket of level i go to the first child if option i is no in the
                // word, else to the second, which in `(A)` is A again."
                Node::Bracket {
                    level: here,
                    first,
                    turn,
                    second,
                    closed,
                } => {
                    if here >= level {
                        return None;
                    }
                    let first = first.expect("a covered word has a first child");
                    if !option(self.options, here, word) {
                        node = first;
                    } else if let Some(second) = second {
                        decision ^= turn;
                        node = second;
                    } else {
                        assert!(closed, "a covered word is not in an open `(A`");
                        node = first;
                    }
                }
            }
        }
    }
}

/// "Option 1 is the outermost and has weight 2^(n-1) in the word; option n has weight 1."
pub fn option(options: u32, level: u32, word: u64) -> bool {
    (word >> (options - level)) & 1 == 1
}

/// "word w is binary digit w mod 8 (0 lowest) of byte w / 8".
pub fn truth_digit(truth_table: &[u8], word: u64) -> bool {
    let byte = usize::try_from(word / 8).expect("a truth table is small");
    (truth_table[byte] >> (word % 8)) & 1 == 1
}

/// The truth table of a function of 2^n words, n at least 3.
pub fn truth_table(options: u32, decision: impl Fn(u64) -> bool) -> Vec<u8> {
    let byte = |first: u64| (0..8).fold(0, |sum, i| sum | u8::from(decision(first + i)) << i);
    (0..1u64 << options).step_by(8).map(byte).collect()
}
