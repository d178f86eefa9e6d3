//! How often each kind of case was met.

use crate::buckets::{given_again, Longest};
use crate::case::{Call, Case, NAMES};
use crate::compare::Outcome;
use crate::nexts::Listed;
use crate::pairs::Met;

/// The outcomes that cases of each call must have: taken (0; for the reader: the bytes ran out) and causes.
const KINDS: [&[usize]; NAMES.len()] = [
    &[0, 1, 4, 7, 8, 9, 10, 11, 12, 13],
    &[0, 1, 4, 5, 7, 8, 9, 10, 11, 12, 13],
    &[0, 1, 4, 6, 7, 8, 9, 10, 11, 12, 13],
    &[0, 7, 9],
    &[0, 1, 3, 4, 6],
    &[0, 1, 2, 3, 4, 7, 8, 9, 10, 11, 12, 13],
    &[0, 1, 4, 5, 7, 8, 9, 10, 11, 12, 13],
];

/// Those that write, and the endings that they must have; finding the next word, and its answers.
const ENDINGS: [(usize, [&str; 3], &[usize]); 3] = [
    (4, ENDING_NAMES, &[0, 2]),
    (5, ENDING_NAMES, &[0, 1, 2]),
    (6, ["none", "a word", "not known"], &[0, 1, 2]),
];

const ENDING_NAMES: [&str; 3] = ["whole", "input ended", "output full"];

#[derive(Default)]
pub struct Tally {
    /// By call, and by cause, 0 for taken.
    outcomes: [[usize; 14]; NAMES.len()],
    /// By call, and by ending, or by answer.
    endings: [[usize; 3]; NAMES.len()],
    /// Refusals of combining by stream, and by cause.
    streams: [[usize; 14]; 3],
    pub stated: usize,
    pub dense: Dense,
    pub pairs: Met,
    pub listed: Listed,
    pub buckets: Longest,
}

/// The cases with dense rules.
#[derive(Default)]
pub struct Dense {
    pub cases: usize,
    pub refused: usize,
    /// By ending.
    pub endings: [usize; 3],
    /// How often numbers were given out again, in the streams and in what was written.
    pub again: [usize; 2],
    /// What they took in all, what the library took, and what its longest case took, in seconds.
    pub seconds: [f64; 3],
}

impl Dense {
    pub fn count(&mut self, case: &Case, outcome: &Outcome) {
        self.cases += 1;
        if outcome.cause != 0 {
            self.refused += 1;
            return;
        }
        self.endings[outcome.ending] += 1;
        self.again[0] += given_again(&case.stream) + given_again(case.second());
        self.again[1] += given_again(&outcome.text);
        let time = outcome.time.as_secs_f64();
        self.seconds[1] += time;
        self.seconds[2] = self.seconds[2].max(time);
    }

    fn line(&self) -> String {
        let Dense { cases, refused, .. } = self;
        let ([whole, ended, full], [all, library, longest]) = (self.endings, self.seconds);
        let [read, written] = self.again;
        format!(
            "dense rules: {cases}, refused {refused}, whole {whole}, input ended {ended}, output full {full}; \
             numbers given out again {read} in streams, {written} in results; \
             {all:.1} seconds, the library {library:.1}, its longest case {longest:.4}\n"
        )
    }
}

impl Tally {
    pub fn count(&mut self, case: &Case, outcome: &Outcome) {
        let call = case.number();
        self.buckets.see(&outcome.text);
        self.outcomes[call][outcome.cause] += 1;
        if outcome.cause == 0 {
            self.endings[call][outcome.ending] += 1;
        } else if matches!(case.call, Call::Combine(_)) {
            self.streams[outcome.stream][outcome.cause] += 1;
        }
    }

    /// Cases that were compared with the walk.
    pub fn total(&self) -> usize {
        self.outcomes.iter().flatten().sum()
    }

    /// A table of calls by outcome: taken (for the reader: the bytes ran out), causes 1 to 13; then how the calls that
    /// write ended and what the next word was, the listings, the cases with dense rules, the pairs of runs and the longest buckets.
    pub fn table(&self, seed: u64) -> String {
        let mut text = format!("{:8} {:>7}", "call", "taken");
        for cause in 1..=13 {
            text += &format!(" {cause:>6}");
        }
        text += "\n";
        for (name, row) in NAMES.iter().zip(self.outcomes) {
            text += &format!("{name:8} {:>7}", row[0]);
            for count in &row[1..] {
                text += &format!(" {count:>6}");
            }
            text += "\n";
        }
        text + &self.endings_line()
            + &self.listed.line()
            + &self.dense.line()
            + &self.pairs_line()
            + &self.buckets.lines(seed)
    }

    fn endings_line(&self) -> String {
        let mut text = String::new();
        for (call, names, _) in ENDINGS {
            let counts = names.iter().zip(self.endings[call]);
            let counts: Vec<String> = counts
                .map(|(name, count)| format!("{name} {count}"))
                .collect();
            let refused: usize = self.outcomes[call][1..].iter().sum();
            let (name, counts) = (NAMES[call], counts.join(", "));
            text += &format!("{name}: refused {refused}, {counts}\n");
        }
        let [_, one, two] = self.streams.map(|row| row.iter().sum::<usize>());
        text + &format!("combine: refused for stream 1 {one}, for stream 2 {two}\n")
    }

    fn pairs_line(&self) -> String {
        let Met {
            refused,
            taken,
            more_bytes,
            more_words,
            decided,
            not_yet,
        } = self.pairs;
        format!(
            "pairs of runs: {taken}, with more bytes {more_bytes}, more words {more_words}; \
             words decided {decided}, by the second alone {not_yet}; pairs refused {refused}\n"
        )
    }

    /// How many cases of each call there were.
    pub fn calls(&self) -> String {
        let calls = NAMES.iter().zip(self.outcomes);
        let calls: Vec<String> = calls
            .map(|(name, row)| format!("{name} {}", row.iter().sum::<usize>()))
            .collect();
        calls.join(", ")
    }

    /// The kinds of cases that were not met.
    pub fn missing(&self) -> Vec<String> {
        let mut missing = Vec::new();
        let mut need = |count: usize, what: String| {
            if count == 0 {
                missing.push(what);
            }
        };
        for (call, kinds) in KINDS.iter().enumerate() {
            for &kind in *kinds {
                let count = self.outcomes[call][kind];
                need(count, format!("{}, cause {kind} (0: taken)", NAMES[call]));
            }
        }
        for (call, names, endings) in ENDINGS {
            for &ending in endings {
                let count = self.endings[call][ending];
                need(count, format!("{}, {}", NAMES[call], names[ending]));
            }
        }
        for stream in 1..=2 {
            for cause in 7..=13 {
                let count = self.streams[stream][cause];
                need(count, format!("combine, cause {cause} in stream {stream}"));
            }
        }
        let Listed { whole, cut, .. } = self.listed;
        need(whole, "whole rules, listed".to_string());
        need(cut, "cut rules, listed".to_string());
        need(self.listed.words, "words, listed".to_string());
        need(self.stated, "stated cases".to_string());
        need(self.dense.refused, "dense rules, refused".to_string());
        for (name, count) in ENDING_NAMES.iter().zip(self.dense.endings) {
            need(count, format!("dense rules, {name}"));
        }
        let again = "dense rules, numbers given out again";
        need(self.dense.again[0], format!("{again} in streams"));
        need(self.dense.again[1], format!("{again} in results"));
        need(self.pairs.refused, "pairs of runs, refused".to_string());
        need(self.pairs.more_bytes, "pairs with more bytes".to_string());
        need(self.pairs.more_words, "pairs with more words".to_string());
        need(self.pairs.decided, "pairs with words decided".to_string());
        need(self.pairs.not_yet, "pairs with words not yet".to_string());
        missing
    }
}
