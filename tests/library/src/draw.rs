//! The cases for a seed: those of `walk::generate`, every cut of some streams, then random ones until the
//! count is reached.

use crate::case::{self, Call, Case};
use crate::streams::{changed, long_stream, stream_of};
use walk::deciding::truth_digit;
use walk::generate::cases;
use walk::limits::{LEAST_RECORDS, MOST_SIZE};
use walk::random::Random;
use walk::reading::read;
use walk::writing::write_words;

/// Of so many cases, one is of the walk's own.
const OWN: usize = 10;

/// Streams that are cut at each place.
const CUT_STREAMS: usize = 200;

/// Long streams that random cases start from.
const LONG_STREAMS: usize = 40;

/// Streams in which a number has hundreds of parents.
const CROWDS: usize = 40;

pub struct Draw {
    random: Random,
    /// Cases that are always there, last first.
    ready: Vec<Case>,
    /// Option count and stream.
    long: Vec<(u32, Vec<u8>)>,
    /// Cases of writing, and of combining, among the walk's own.
    writes: Vec<Case>,
    combines: Vec<Case>,
}

impl Draw {
    pub fn new(seed: u64, count: usize) -> Draw {
        let mut draw = Draw {
            random: Random::new(seed),
            ready: Vec::new(),
            long: Vec::new(),
            writes: Vec::new(),
            combines: Vec::new(),
        };
        for case in cases(seed, count / OWN) {
            draw.take(case);
        }
        for _ in 0..CUT_STREAMS {
            draw.every_cut();
        }
        draw.long = (0..LONG_STREAMS)
            .map(|_| long_stream(&mut draw.random))
            .collect();
        for _ in 0..CROWDS {
            draw.crowd();
        }
        draw.widest();
        draw.ready.reverse();
        draw
    }

    /// The cases that are always there are all handed out.
    pub fn is_random(&self) -> bool {
        self.ready.is_empty()
    }

    /// The cases of writing that the walk has, for `Writes`.
    pub fn writes(&mut self) -> Vec<Case> {
        std::mem::take(&mut self.writes)
    }

    /// The cases of combining that the walk has, for `Combines`.
    pub fn combines(&mut self) -> Vec<Case> {
        std::mem::take(&mut self.combines)
    }

    pub fn case(&mut self) -> Case {
        if let Some(case) = self.ready.pop() {
            return case;
        }
        let call = self.random.below(12);
        let n = match call {
            0..=5 => self.options(),
            6..=7 => self.truth_options(),
            8..=9 => self.random.below(33) as u32,
            _ => self.options(),
        };
        let (n, stream) = self.stream(n);
        match call {
            0..=2 => self.check(n, stream),
            3..=5 => self.decide(n, stream),
            6..=7 => self.fill(n, stream),
            8..=9 => reader(stream),
            _ => self.next(n, stream),
        }
    }

    /// A case of the walk. Of the calls that write, the streams are checked, and what is written from a
    /// truth table is filled back; the calls themselves are kept for `Writes` and
    /// `Combines`.
    fn take(&mut self, case: walk::case::Case) {
        use walk::case::Case::*;
        let small = |number: u64| u32::try_from(number).expect("the walk's numbers are small");
        let mut push = |call: Call, n: u64, records: usize, stream: Vec<u8>| {
            let n = small(n);
            self.ready.push(Case {
                call,
                n,
                records,
                stream,
            });
        };
        match case {
            Check { n, records, stream } => push(Call::Check, n, records, stream),
            Decide {
                n,
                records,
                stream,
                word,
            } => push(Call::Decide { word }, n, records, stream),
            Fill {
                n,
                records,
                stream,
                truth,
            } => {
                let truths = truth.len();
                push(Call::Fill { truths }, n, records, stream);
            }
            Reader { stream } => push(Call::Reader, 0, 0, stream),
            Write {
                n,
                size,
                records,
                truth,
                output,
            } => {
                self.writes.push(Case {
                    call: Call::Write {
                        size: small(size),
                        output: output.len(),
                    },
                    n: small(n),
                    records,
                    stream: truth.clone(),
                });
                let mut output = vec![0; 4096];
                let written =
                    walk::calls::write(n, size, &truth, &mut output, &mut vec![0; records]);
                output.truncate(written.map_or(0, |written| written.bytes));
                let truths = truth.len();
                push(Call::Fill { truths }, n, records, output);
            }
            Combine {
                n,
                operator,
                size,
                records: [one, two, three],
                streams,
                output,
            } => {
                let [stream, second] = streams.clone();
                self.combines.push(Case {
                    call: Call::Combine(case::Combine {
                        op: small(operator),
                        size: small(size),
                        output: output.len(),
                        others: [two, three],
                        second,
                    }),
                    n: small(n),
                    records: one,
                    stream,
                });
                for stream in streams {
                    push(Call::Check, n, one, stream);
                }
            }
            Join { .. } => {}
            Next {
                n,
                records,
                stream,
                word,
            } => push(Call::Next { word }, n, records, stream),
        }
    }

    /// All cuts of a stream, each by every call.
    fn every_cut(&mut self) {
        let n = match self.random.below(4) {
            0 => self.random.below(33) as u32,
            _ => 3 + self.random.below(3) as u32,
        };
        let stream = loop {
            let stream = stream_of(&mut self.random, n);
            if stream.len() <= 150 {
                break stream;
            }
        };
        for end in 0..=stream.len() {
            let cut = stream[..end].to_vec();
            let check = self.check(n, cut.clone());
            let decide = self.decide(n, cut.clone());
            let next = self.next(n, cut.clone());
            self.ready
                .extend([check, decide, next, reader(cut.clone())]);
            if n <= 10 {
                let fill = self.fill(n, cut);
                self.ready.push(fill);
            }
        }
    }

    /// Number 1 becomes a child of many stored nodes; the numbers of these are given out again, but for some
    /// that are left; then 1 is.
    fn crowd(&mut self) {
        let n = 12;
        let left = self.random.pick(&[0, 0, 1, 2, 128, 256]);
        let parents = left + 1 + self.random.index(500 - left);
        let given = parents - left;
        let seconds = [&[" 1", "~1"][..], &[" 0", "~0"], &[" 0", "~0", " 1", "~1"]];
        let seconds = self.random.pick(&seconds);
        let mut nodes: Vec<String> = Vec::new();
        for number in 0..parents {
            let first = if number == 0 { "(0~0):1" } else { "1" };
            let rest = self.random.pick(seconds);
            nodes.push(format!("({first}{rest}):{}", number + 2));
        }
        nodes.extend((0..given).map(|number| format!("(0 0):{}", number + 2)));
        nodes.push("(0 0):1".to_string());
        // In pairs, up to the outermost.
        for _ in 1..n - 1 {
            let pair = |two: &[String]| match two {
                [one] if one.ends_with(')') => format!("({one}0)"),
                [one] => format!("({one} 0)"),
                _ => format!("({})", two.concat()),
            };
            nodes = nodes.chunks(2).map(pair).collect();
        }
        let text = format!("{MOST_SIZE}\n{}.", nodes.concat()).into_bytes();
        let check = self.check(n, text.clone());
        let decide = self.decide(n, text.clone());
        let next = self.next(n, text.clone());
        let fill = self.fill(n, text);
        self.ready.extend([check, decide, next, fill]);
    }

    /// The stream of a random truth table of 16 options, by every call.
    fn widest(&mut self) {
        let truth = self.random.garbage(1 << 13);
        let stream = write_words(16, MOST_SIZE, |word| truth_digit(&truth, word)).text;
        for end in [stream.len(), stream.len() / 2] {
            let cut = stream[..end].to_vec();
            let check = self.check(16, cut.clone());
            let decide = self.decide(16, cut.clone());
            let fill = self.fill(16, cut.clone());
            let next = self.next(16, cut.clone());
            self.ready.extend([check, decide, next, fill, reader(cut)]);
        }
    }

    // ---- Arguments

    /// Option counts 0 to 32, low ones more often.
    fn options(&mut self) -> u32 {
        match self.random.below(2) {
            0 => self.random.below(7) as u32,
            _ => self.random.below(33) as u32,
        }
    }

    /// Option counts of truth tables, low ones more often.
    fn truth_options(&mut self) -> u32 {
        match self.random.below(100) {
            0..=69 => 3 + self.random.below(4) as u32,
            70..=97 => 6 + self.random.below(5) as u32,
            _ => 11 + self.random.below(6) as u32,
        }
    }

    /// Mostly the option count that the stream is for.
    fn near(&mut self, n: u32) -> u32 {
        match self.random.below(40) {
            0 => n + 1,
            1 => n.saturating_sub(1),
            2 => self.random.below(33) as u32,
            3 => self.random.pick(&[
                33,
                33,
                34,
                64,
                255,
                256,
                65536 + n,
                1 << 31,
                u32::MAX - 1,
                u32::MAX,
            ]),
            _ => n,
        }
    }

    fn records(&mut self) -> usize {
        match self.random.below(16) {
            0 => self.random.pick(&[0, 1, LEAST_RECORDS - 1]),
            1 => self.random.pick(&[LEAST_RECORDS + 1, LEAST_RECORDS + 100]),
            _ => LEAST_RECORDS,
        }
    }

    fn check(&mut self, n: u32, stream: Vec<u8>) -> Case {
        Case {
            call: Call::Check,
            n: self.near(n),
            records: self.records(),
            stream,
        }
    }

    fn decide(&mut self, n: u32, stream: Vec<u8>) -> Case {
        let n = self.near(n);
        let word = self.word(n, &stream);
        Case {
            call: Call::Decide { word },
            n,
            records: self.records(),
            stream,
        }
    }

    fn next(&mut self, n: u32, stream: Vec<u8>) -> Case {
        let n = self.near(n);
        let word = self.word(n, &stream);
        Case {
            call: Call::Next { word },
            n,
            records: self.records(),
            stream,
        }
    }

    /// Words below, at and past the covered count and 2^n.
    fn word(&mut self, n: u32, stream: &[u8]) -> u64 {
        let all = 1u64 << n.min(32);
        let covered = read(n.min(32), stream).map_or(0, |reading| reading.covered);
        match self.random.below(40) {
            0 => all,
            1 => all + self.random.below(all),
            2 => all - 1,
            3 => (1 << 32) + self.random.below(all),
            4 => (1 << 63) + self.random.below(all),
            5 => u64::MAX - self.random.below(3),
            6..=11 => (covered + 1).saturating_sub(self.random.below(3)),
            12..=29 => self.random.below(covered),
            _ => self.random.below(all),
        }
    }

    /// Truth tables of the right length mostly.
    fn fill(&mut self, n: u32, stream: Vec<u8>) -> Case {
        let n = match self.random.below(40) {
            0 => self.random.pick(&[0, 1, 2, 17, 19, 32, 33, u32::MAX]),
            _ => self.near(n),
        };
        let right = (1usize << n.min(16)) / 8;
        let truths = match self.random.below(20) {
            0 => self
                .random
                .pick(&[0, 1, right.saturating_sub(1), right + 1, 2 * right]),
            _ => right,
        };
        Case {
            call: Call::Fill { truths },
            n,
            records: self.records(),
            stream,
        }
    }

    // ---- Streams

    /// A stream meant for an option count, or a long one with its own option count; left as it is or changed.
    fn stream(&mut self, n: u32) -> (u32, Vec<u8>) {
        let (n, stream) = if self.random.chance(1, 50) {
            let chosen = self.random.index(self.long.len());
            self.long[chosen].clone()
        } else {
            (n, stream_of(&mut self.random, n))
        };
        (n, changed(&mut self.random, stream))
    }
}

fn reader(stream: Vec<u8>) -> Case {
    Case {
        call: Call::Reader,
        n: 0,
        records: 0,
        stream,
    }
}
