//! The cases of combining for a seed: those of `walk::generate`, all pairs of functions of two options with all
//! operators, whole and cut at every byte, cuts of longer streams, outputs of every length, refusals, faults in either
//! stream and in both, many options, then random ones.

use crate::case::{Call, Case, Combine};
use crate::streams::{changed, long_stream, raised, stream_of, valid};
use std::collections::BTreeSet;
use walk::limits::{LEAST_RECORDS, MOST_SIZE};
use walk::random::Random;
use walk::reading::read;
use walk::run::combined_text;
use walk::shapes::{cut, shaped, small_size};
use walk::writing::write_words;

/// Of the functions of two options, sizes to write up to this one.
const TWO_OPTION_SIZES: u32 = 4;

/// Of the functions of two options that are cut, the table size of their streams.
const CUT_SIZE: u64 = 1;

/// Pairs of streams that are cut at each place.
const EVERY_CUT: usize = 60;

/// Pairs of streams of which both are cut at each place.
const EVERY_TWO_CUTS: usize = 12;

/// Texts that are written to outputs of every length.
const EVERY_OUTPUT: usize = 60;

/// Pairs for each cause of a stream, and of streams that go on behind their point.
const FAULTS: usize = 12;

/// Pairs with more than 16 options.
const MANY_OPTIONS: usize = 400;

/// A text that is longer is written to outputs of this length.
const MOST_OUTPUT: usize = 65_536;

/// For telling this sequence of numbers from that of the other cases of a seed.
const SALT: u64 = 0x636f_6d62_696e;

pub struct Combines {
    random: Random,
    /// Cases that are always there, last first.
    ready: Vec<Case>,
    /// Random ones to come.
    left: usize,
}

impl Combines {
    /// `own`: cases of the walk. `count`: random ones.
    pub fn new(seed: u64, count: usize, own: Vec<Case>) -> Combines {
        let mut combines = Combines {
            random: Random::new(seed ^ SALT),
            ready: own,
            left: count,
        };
        combines.two_options();
        combines.two_options_cut();
        for _ in 0..EVERY_CUT {
            combines.every_cut();
        }
        for _ in 0..EVERY_TWO_CUTS {
            combines.every_two_cuts();
        }
        for _ in 0..EVERY_OUTPUT {
            combines.every_output();
        }
        combines.refusals();
        for _ in 0..FAULTS {
            combines.faults();
            combines.behind_the_point();
        }
        for n in 9..=16 {
            combines.wide(n);
        }
        for _ in 0..MANY_OPTIONS {
            combines.many_options();
        }
        combines.ready.reverse();
        combines
    }

    /// The next, if there is one.
    pub fn case(&mut self) -> Option<Case> {
        if let Some(case) = self.ready.pop() {
            return Some(case);
        }
        self.left = self.left.checked_sub(1)?;
        Some(self.random_case())
    }

    fn random_case(&mut self) -> Case {
        let (n, streams) = match self.random.below(400) {
            0 => {
                let (n, stream) = long_stream(&mut self.random);
                (n, [stream, valid(&mut self.random, n)])
            }
            _ => {
                let n = self.random.below(9) as u32;
                (n, [self.stream(n), self.stream(n)])
            }
        };
        let mut case = self.taken(n, streams);
        case.n = match self.random.below(60) {
            0 => self.random.pick(&WRONG_OPTIONS),
            1 => n + 1,
            2 => n.saturating_sub(1),
            _ => n,
        };
        if let Call::Combine(of) = &mut case.call {
            if self.random.chance(1, 50) {
                of.op = self.random.pick(&WRONG_OPERATORS);
            }
            if self.random.chance(1, 50) {
                of.size = self.random.pick(&WRONG_SIZES);
            }
        }
        self.with_tables(case)
    }

    /// Work tables of the least number of records mostly.
    fn with_tables(&mut self, mut case: Case) -> Case {
        let mut records = || match self.random.below(40) {
            0 => self.random.pick(&[0, 1, LEAST_RECORDS - 1]),
            1..=2 => self.random.pick(&[LEAST_RECORDS + 1, LEAST_RECORDS + 100]),
            _ => LEAST_RECORDS,
        };
        case.records = records();
        if let Call::Combine(of) = &mut case.call {
            of.others = [records(), records()];
        }
        case
    }

    /// Two streams with any operator, size and output.
    fn taken(&mut self, n: u32, streams: [Vec<u8>; 2]) -> Case {
        let (op, size) = (self.random.below(16) as u32, self.size());
        let output = self.output(text(n, op, size, &streams));
        combine(n, op, size, streams, output)
    }

    // ---- Cases that are always there

    /// All pairs of functions of two options with all operators, in streams written at one size or another.
    fn two_options(&mut self) {
        for functions in 0..256 {
            for op in 0..16 {
                for size in 0..=TWO_OPTION_SIZES {
                    let streams = [functions % 16, functions / 16].map(|function: u32| {
                        let own = self.random.below(5);
                        write_words(2, own, |word| function >> word & 1 == 1).text
                    });
                    self.ready.push(combine(2, op, size, streams, 40));
                }
            }
        }
    }

    /// Every beginning of every stream of a function of two options beside every other, with all operators
    /// (document 02, R-3).
    fn two_options_cut(&mut self) {
        let beginnings = beginnings_of_two_options();
        for one in &beginnings {
            for two in &beginnings {
                for op in 0..16 {
                    let (size, streams) = (self.random.below(4), [one.clone(), two.clone()]);
                    self.ready.push(combine(2, op, size as u32, streams, 40));
                }
            }
        }
    }

    /// Both streams cut at every byte, each pair of cuts with some operator.
    fn every_two_cuts(&mut self) {
        let n = 1 + self.random.below(5) as u32;
        let whole = [(); 2].map(|()| self.to_cut(n, 40));
        for one in 0..=whole[0].len() {
            for two in 0..=whole[1].len() {
                let streams = [whole[0][..one].to_vec(), whole[1][..two].to_vec()];
                let (op, size) = (self.random.below(16) as u32, self.size());
                self.ready.push(combine(n, op, size, streams, 600));
            }
        }
    }

    /// Each stream cut at every byte, the other whole or cut too.
    fn every_cut(&mut self) {
        let n = 1 + self.random.below(5) as u32;
        let whole = [(); 2].map(|()| self.to_cut(n, 90));
        for index in 0..2 {
            for end in 0..=whole[index].len() {
                let mut streams = whole.clone();
                streams[index].truncate(end);
                if self.random.chance(1, 3) {
                    streams[1 - index] = cut(&mut self.random, streams[1 - index].clone());
                }
                let (op, size) = (self.random.below(16) as u32, self.size());
                self.ready.push(combine(n, op, size, streams, 600));
            }
        }
    }

    /// Outputs of every length up to the text's and one more, of whole and of cut streams.
    fn every_output(&mut self) {
        let n = 2 + self.random.below(4) as u32;
        let mut streams = [(); 2].map(|()| self.short(n, 200));
        if self.random.chance(1, 2) {
            let index = self.random.index(2);
            streams[index] = cut(&mut self.random, streams[index].clone());
        }
        let (op, size) = (self.random.below(16) as u32, self.size());
        let length = text(n, op, size, &streams);
        let case = |output| combine(n, op, size, streams.clone(), output);
        self.ready.extend((0..=length + 1).map(case));
    }

    /// Every set of causes 1 to 4 that the call can meet at once, in all sorts, the streams faulty or not.
    fn refusals(&mut self) {
        for n in [&[3, 32][..], &WRONG_OPTIONS].concat() {
            for op in [&[0, 15][..], &WRONG_OPERATORS].concat() {
                for size in [0, MOST, MOST + 1, self.random.pick(&WRONG_SIZES)] {
                    for records in TABLES {
                        let right = n.min(3);
                        let streams = [(); 2].map(|()| self.stream(right));
                        let mut case = combine(n, op, size, streams, self.random.index(40));
                        case.records = records[0];
                        if let Call::Combine(of) = &mut case.call {
                            of.others = [records[1], records[2]];
                        }
                        self.ready.push(case);
                    }
                }
            }
        }
    }

    /// A fault of each cause in stream 1, in stream 2, and in both; the other stream whole or cut.
    fn faults(&mut self) {
        for cause in 7..=13 {
            let n = 1 + self.random.below(6) as u32;
            let mut faulty = |cause| shaped(&mut self.random, n, Some(cause));
            let (one, two) = (faulty(cause), faulty(7 + (cause + 1) % 7));
            let mut good = valid(&mut self.random, n);
            if self.random.chance(1, 2) {
                good = cut(&mut self.random, good);
            }
            for streams in [[&one, &good], [&good, &one], [&one, &two], [&two, &one]] {
                let case = self.taken(n, streams.map(Vec::clone));
                self.ready.push(case);
            }
        }
    }

    /// Streams that go on behind their point.
    fn behind_the_point(&mut self) {
        let n = self.random.below(6) as u32;
        let (mut long, good) = (valid(&mut self.random, n), valid(&mut self.random, n));
        let count = 1 + self.random.index(3);
        long.extend((0..count).map(|_| self.random.pick(b"\n.0 1(~)x")));
        for streams in [[&long, &good], [&good, &long], [&long, &long]] {
            let case = self.taken(n, streams.map(Vec::clone));
            self.ready.push(case);
        }
    }

    /// Long streams, which the walk combines word by word.
    fn wide(&mut self, n: u32) {
        let patterns = self.random.garbage(40);
        let shift = self.random.below(n.into());
        let function = |word: u64| {
            let at = (word >> shift ^ word) as usize;
            patterns[at % patterns.len()] >> (word % 8) & 1 == 1
        };
        let streams = [
            write_words(n, MOST_SIZE, function).text,
            shaped(&mut self.random, n, None),
        ];
        for size in [MOST, 30, 3] {
            let op = self.random.pick(&[6, 8, 14, 9, 3]);
            let output = self.output(text(n, op, size, &streams));
            self.ready
                .push(combine(n, op, size, streams.clone(), output));
        }
    }

    /// Streams of few nodes.
    fn many_options(&mut self) {
        let n = 17 + self.random.below(16) as u32;
        let streams = [(); 2].map(|()| match self.random.below(4) {
            0 => self.stream(n),
            1 => {
                let stream = shaped(&mut self.random, n, None);
                cut(&mut self.random, stream)
            }
            _ => shaped(&mut self.random, n, None),
        });
        let case = self.taken(n, streams);
        self.ready.push(case);
    }

    // ---- Arguments

    /// A stream that is valid, cut, damaged or faulty.
    fn stream(&mut self, n: u32) -> Vec<u8> {
        match self.random.below(10) {
            0..=4 => valid(&mut self.random, n),
            5..=7 => {
                let stream = valid(&mut self.random, n);
                cut(&mut self.random, stream)
            }
            _ => {
                let stream = stream_of(&mut self.random, n);
                changed(&mut self.random, stream)
            }
        }
    }

    /// A valid stream of at most so many bytes.
    fn short(&mut self, n: u32, most: usize) -> Vec<u8> {
        loop {
            let stream = valid(&mut self.random, n);
            if stream.len() <= most {
                return stream;
            }
        }
    }

    /// A short one that is to be cut: some have the last numbers of the largest table, where the nodes that are open at
    /// the end may find no room.
    fn to_cut(&mut self, n: u32, most: usize) -> Vec<u8> {
        let stream = self.short(n, most);
        match self.random.below(3) {
            0 => raised(&mut self.random, &stream),
            _ => stream,
        }
    }

    fn size(&mut self) -> u32 {
        let size = match self.random.below(4) {
            0 => self.random.below(41),
            _ => small_size(&mut self.random),
        };
        size as u32
    }

    fn output(&mut self, text: usize) -> usize {
        output_for(&mut self.random, text)
    }
}

/// All beginnings of the streams of the functions of two options, each once.
fn beginnings_of_two_options() -> BTreeSet<Vec<u8>> {
    let mut beginnings = BTreeSet::new();
    for function in 0..16u32 {
        let text = write_words(2, CUT_SIZE, |word| function >> word & 1 == 1).text;
        beginnings.extend((0..=text.len()).map(|end| text[..end].to_vec()));
    }
    beginnings
}

/// Option counts that no stream has.
const WRONG_OPTIONS: [u32; 5] = [33, 64, (1 << 16) + 3, 1 << 31, u32::MAX];

/// Operators that there are not.
const WRONG_OPERATORS: [u32; 6] = [16, 17, 255, (1 << 16) + 8, 1 << 31, u32::MAX];

/// The largest size that is written.
pub const MOST: u32 = MOST_SIZE as u32;

/// Sizes that are not written.
const WRONG_SIZES: [u32; 5] = [MOST + 1, MOST + 2, (1 << 16) + 2, 1 << 31, u32::MAX];

/// Work tables, one or more of them too short but for the first and the last row.
const SHORT: usize = LEAST_RECORDS - 1;
const TABLES: [[usize; 3]; 7] = [
    [LEAST_RECORDS; 3],
    [SHORT, LEAST_RECORDS, LEAST_RECORDS],
    [LEAST_RECORDS, SHORT, LEAST_RECORDS],
    [LEAST_RECORDS, LEAST_RECORDS, SHORT],
    [SHORT; 3],
    [0, 1, 0],
    [LEAST_RECORDS + 100, LEAST_RECORDS, LEAST_RECORDS + 1],
];

pub fn combine(n: u32, op: u32, size: u32, streams: [Vec<u8>; 2], output: usize) -> Case {
    let [stream, second] = streams;
    Case {
        call: Call::Combine(Combine {
            op,
            size,
            output,
            others: [LEAST_RECORDS; 2],
            second,
        }),
        n,
        records: LEAST_RECORDS,
        stream,
    }
}

/// An output for a text of some length: empty, too short, just short, exact, or longer.
pub fn output_for(random: &mut Random, text: usize) -> usize {
    match random.below(12) {
        0 => 0,
        1 => random.index(7),
        2..=3 => random.index(text + 1),
        4 => text.saturating_sub(1),
        5..=6 => text,
        7 => text + 1,
        _ => text + 2 + random.index(30),
    }
}

/// The length of what the walk writes, as far as the longest output; 20 if it turns a stream down.
fn text(n: u32, op: u32, size: u32, streams: &[Vec<u8>; 2]) -> usize {
    match (read(n, &streams[0]), read(n, &streams[1])) {
        (Ok(one), Ok(two)) => {
            let text = combined_text(op.into(), size.into(), &one, &two, MOST_OUTPUT);
            text.len().min(MOST_OUTPUT)
        }
        _ => 20,
    }
}
