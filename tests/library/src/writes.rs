//! The cases of writing for a seed: those of `walk::generate`, every function of three options at low sizes
//! with outputs of every length, refusals, wide tables, then random ones.

use crate::case::{Call, Case};
use crate::combines::MOST;
use walk::deciding::{truth_digit, truth_table};
use walk::functions::{busy_function, random_function};
use walk::limits::{LEAST_RECORDS, MOST_SIZE};
use walk::random::Random;
use walk::writing::{write_words, WholeStream};

/// Of the functions of three options, sizes up to this one.
const SMALL_SIZES: u32 = 8;

/// Longer texts that are written to outputs of every length.
const EVERY_OUTPUT: usize = 20;

/// Tables of each option count from 11 on.
const WIDE: usize = 5;

/// For telling this sequence of numbers from that of the other cases of a seed.
const SALT: u64 = 0x7772_6974_6573;

pub struct Writes {
    random: Random,
    /// Cases that are always there, last first.
    ready: Vec<Case>,
    /// Random ones to come.
    left: usize,
}

impl Writes {
    /// `own`: cases of the walk. `count`: random ones.
    pub fn new(seed: u64, count: usize, own: Vec<Case>) -> Writes {
        let mut writes = Writes {
            random: Random::new(seed ^ SALT),
            ready: own,
            left: count,
        };
        for truths in 0..=u8::MAX {
            for size in 0..=SMALL_SIZES {
                writes.every_output(3, size, vec![truths]);
            }
        }
        for _ in 0..EVERY_OUTPUT {
            let (n, size) = (4 + writes.random.below(3) as u32, writes.small_size());
            let truths = writes.truths(n, size);
            writes.every_output(n, size, truths);
        }
        writes.refusals();
        for n in 11..=16 {
            writes.wide(n);
        }
        writes.ready.reverse();
        writes
    }

    /// The next, if there is one.
    pub fn case(&mut self) -> Option<Case> {
        if let Some(case) = self.ready.pop() {
            return Some(case);
        }
        self.left = self.left.checked_sub(1)?;
        Some(self.random_case())
    }

    fn random_case(&mut self) -> Case {
        let n = match self.random.below(100) {
            0..=69 => 4 + self.random.below(3) as u32,
            70..=93 => 7 + self.random.below(2) as u32,
            _ => 9 + self.random.below(2) as u32,
        };
        let mut size = self.small_size();
        let mut truths = self.truths(n, size);
        if self.random.chance(1, 4) {
            size = self.fitting_size(n, &truths);
        }
        let output = self.output(text(n, size, &truths).text.len());
        let n = match self.random.below(40) {
            0 => self.random.pick(&WRONG_OPTIONS),
            1 => n + 1,
            _ => n,
        };
        if self.random.chance(1, 30) {
            size = self.random.pick(&WRONG_SIZES);
        }
        if self.random.chance(1, 20) {
            let length = self.random.pick(&wrong_lengths(truths.len()));
            truths.resize(length, 0x5a);
        }
        let records = match self.random.below(16) {
            0 => self.random.pick(&WRONG_RECORDS),
            1 => self.random.pick(&[LEAST_RECORDS + 1, LEAST_RECORDS + 100]),
            _ => LEAST_RECORDS,
        };
        write(n, records, size, output, truths)
    }

    /// A table to outputs of every length up to the text's and two more.
    fn every_output(&mut self, n: u32, size: u32, truths: Vec<u8>) {
        let length = text(n, size, &truths).text.len();
        let case = |output| write(n, LEAST_RECORDS, size, output, truths.clone());
        self.ready.extend((0..=length + 2).map(case));
    }

    /// Every set of causes that the call can meet at once, in all sorts.
    fn refusals(&mut self) {
        for n in [&[4, 5][..], &WRONG_OPTIONS].concat() {
            for size in [&[2, MOST][..], &WRONG_SIZES].concat() {
                for records in [&[LEAST_RECORDS, LEAST_RECORDS + 1][..], &WRONG_RECORDS].concat() {
                    let right = (1 << n.min(17)) / 8;
                    for length in [&[right][..], &wrong_lengths(right)].concat() {
                        let truths = self.random.garbage(length);
                        let output = self.random.index(40);
                        let case = write(n, records, size, output, truths);
                        self.ready.push(case);
                    }
                }
            }
        }
    }

    /// Tables at which the largest size is used up or nearly so, and at some lower size.
    fn wide(&mut self, n: u32) {
        for turn in 0..WIDE {
            let (size, truths) = match turn {
                0 => (MOST, self.random.garbage((1 << n) / 8)),
                1 => (MOST, self.sparse(n)),
                2 => (MOST, self.patterns(n)),
                3 => (MOST, self.truths(n, MOST)),
                _ => (self.random.below(MOST_SIZE) as u32, self.truths(n, MOST)),
            };
            let length = text(n, size, &truths).text.len();
            let (short, records) = (
                self.output(length),
                self.random
                    .pick(&[LEAST_RECORDS, LEAST_RECORDS + 1, 2 * LEAST_RECORDS]),
            );
            for output in [length, short] {
                let case = write(n, records, size, output, truths.clone());
                self.ready.push(case);
            }
        }
    }

    // ---- Arguments

    /// 0 to 40, low ones more often, now and then the largest or some other.
    fn small_size(&mut self) -> u32 {
        let size = match self.random.below(10) {
            0 => MOST_SIZE,
            1 => self.random.below(MOST_SIZE + 1),
            2..=5 => self.random.below(8),
            _ => self.random.below(41),
        };
        size as u32
    }

    /// About as many numbers as the table has nodes, or some fewer.
    fn fitting_size(&mut self, n: u32, truths: &[u8]) -> u32 {
        let nodes = text(n, MOST, truths).nodes.len() as u64;
        let size = match self.random.below(5) {
            0 => nodes,
            1 => nodes + 1,
            2 => nodes.saturating_sub(1),
            _ => self.random.below(nodes),
        };
        size.min(MOST_SIZE) as u32
    }

    /// An output for a text of some length: empty, about as long as the size with its LF, too short, just
    /// short, exact, or longer.
    fn output(&mut self, text: usize) -> usize {
        match self.random.below(12) {
            0 => 0,
            1 => self.random.index(7),
            2..=4 => self.random.index(text),
            5 => text - 1,
            6..=7 => text,
            8 => text + 1,
            9..=10 => text + 2 + self.random.index(9),
            _ => text + 11 + self.random.index(500),
        }
    }

    // ---- Truth tables

    /// A table of one of many sorts.
    fn truths(&mut self, n: u32, size: u32) -> Vec<u8> {
        let words = 1u64 << n;
        match self.random.below(24) {
            0..=1 => self.random.garbage((1 << n) / 8),
            2..=3 => self.sparse(n),
            4..=8 => {
                let function = random_function(&mut self.random, n);
                truth_table(n, |word| function[word as usize])
            }
            9..=10 if n <= 6 => {
                let function = busy_function(&mut self.random, n, size.into());
                truth_table(n, |word| function[word as usize])
            }
            9..=13 => self.patterns(n),
            14..=15 => self.blocks(n),
            // A number of options set, or more.
            16 => {
                let least = self.random.below(u64::from(n) + 2) as u32;
                truth_table(n, |word| word.count_ones() >= least)
            }
            // A sum of weights, or more.
            17..=18 => {
                let weights: Vec<u64> = (0..n).map(|_| self.random.below(10)).collect();
                let least = self.random.below(weights.iter().sum::<u64>() + 2);
                let weight = |word: u64, at: usize| (word >> at & 1) * weights[at];
                let sum = |word: u64| (0..weights.len()).map(|at| weight(word, at)).sum::<u64>();
                truth_table(n, |word| sum(word) >= least)
            }
            // Whether the number of some options set is odd.
            19 => {
                let (mask, even) = (self.random.below(words), self.random.chance(1, 2));
                truth_table(n, |word| (word & mask).count_ones() % 2 == u32::from(!even))
            }
            // The words from one to another.
            20 => {
                let (from, to) = (self.random.below(words), self.random.below(words));
                truth_table(n, |word| from <= word && word <= to)
            }
            // Some options choose which of the others decides.
            21 => {
                let chosen = 1 + self.random.below(3) as u32;
                let shift = self.random.pick(&[0, n - chosen]);
                let rest = self.random.below(u64::from(n)) as u32;
                let number = |word: u64| (word >> shift & ((1 << chosen) - 1)) as u32;
                truth_table(n, |word| word >> ((number(word) + rest) % n) & 1 == 1)
            }
            // A constant.
            _ => vec![self.random.pick(&[0, 0xff]); (1 << n) / 8],
        }
    }

    /// A constant but for few words.
    fn sparse(&mut self, n: u32) -> Vec<u8> {
        let often = self.random.pick(&[3, 10, 50, 1 << n]);
        let all = self.random.chance(1, 2);
        let words: Vec<bool> = (0..1 << n).map(|_| self.random.chance(1, often)).collect();
        truth_table(n, |word| words[word as usize] != all)
    }

    /// Few different bytes.
    fn patterns(&mut self, n: u32) -> Vec<u8> {
        let count = 2 + self.random.index(5);
        let few = self.random.garbage(count);
        (0..(1 << n) / 8).map(|_| self.random.pick(&few)).collect()
    }

    /// Blocks of words that are constant, or turned copies of one part.
    fn blocks(&mut self, n: u32) -> Vec<u8> {
        let shift = self.random.below(u64::from(n));
        let constant = self.random.chance(1, 2);
        let mut some = |count: u64| self.random.garbage(count as usize);
        let (blocks, part) = (some(1 << n >> shift), some(1 << shift));
        truth_table(n, |word| {
            let (block, place) = (word >> shift, word & ((1 << shift) - 1));
            let turned = !constant && part[place as usize] % 2 == 1;
            (blocks[block as usize] % 2 == 1) != turned
        })
    }
}

/// Option counts that a truth table cannot have.
const WRONG_OPTIONS: [u32; 10] = [0, 1, 2, 17, 18, 32, 33, (1 << 16) + 4, 1 << 31, u32::MAX];

/// Sizes that are not written.
const WRONG_SIZES: [u32; 7] = [
    MOST + 1,
    MOST + 2,
    2048,
    (1 << 16) + 2,
    1 << 31,
    (1 << 31) + MOST,
    u32::MAX,
];

/// Work tables that are too short.
const WRONG_RECORDS: [usize; 3] = [0, 1, LEAST_RECORDS - 1];

/// Lengths beside the right one.
fn wrong_lengths(right: usize) -> [usize; 4] {
    [right.saturating_sub(1), right + 1, 0, 2 * right + 8]
}

/// What the walk writes.
fn text(n: u32, size: u32, truths: &[u8]) -> WholeStream {
    write_words(n, size.into(), |word| truth_digit(truths, word))
}

fn write(n: u32, records: usize, size: u32, output: usize, truths: Vec<u8>) -> Case {
    Case {
        call: Call::Write { size, output },
        n,
        records,
        stream: truths,
    }
}
