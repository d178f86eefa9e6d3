//! Cases of combining with many options and dense rules (`walk::dense`): every operator with every one of some sizes,
//! a stream with itself, runs whose result is read by the next one, tables in which numbers are given out again and
//! again, cuts of both streams, outputs of any length up to 65,536 bytes, faults.

use crate::case::Case;
use crate::combines::{combine, output_for, MOST};
use crate::streams::changed;
use std::ops::RangeInclusive;
use walk::dense::{remainder_of_count, rule, selected, stream, stream_of_size, SIZES};
use walk::diagrams::{Diagrams, Edge};
use walk::limits::MOST_SIZE;
use walk::random::Random;
use walk::reading::read;
use walk::run::combined_text;
use walk::shapes::cut;

/// The option counts of these cases.
pub const OPTIONS: RangeInclusive<u32> = 17..=32;

/// An output has at most so many bytes.
const MOST_OUTPUT: usize = 65_536;

/// The bytes that an input has at most.
const INPUTS: [usize; 4] = [600, 3_000, 9_000, 24_000];

/// Runs of a chain.
const LINKS: usize = 6;

/// For telling this sequence of numbers from that of the other cases of a seed.
const SALT: u64 = 0x6465_6e73_6500;

pub struct Dense {
    random: Random,
    options: RangeInclusive<u32>,
    /// How many cases there have been, and how many there are.
    done: usize,
    count: usize,
    /// The result of the run before, with its option count, and how many runs of the chain are to come.
    chain: Option<(u32, Vec<u8>, usize)>,
}

impl Dense {
    /// At least one case for each operator and size and for each stream with itself.
    pub fn new(seed: u64, count: usize, options: RangeInclusive<u32>) -> Dense {
        Dense {
            random: Random::new(seed ^ SALT),
            options,
            done: 0,
            count: count.max(GRID + TWICE),
            chain: None,
        }
    }

    /// The next, if there is one.
    pub fn case(&mut self) -> Option<Case> {
        if self.done == self.count {
            return None;
        }
        let place = self.done;
        self.done += 1;
        Some(match place {
            0..GRID => self.of_grid(place),
            place if place < GRID + TWICE => self.twice((place - GRID) as u32),
            _ => self.random_case(),
        })
    }

    fn random_case(&mut self) -> Case {
        if let Some((n, result, left)) = self.chain.take() {
            return self.link(n, result, left);
        }
        match self.random.below(16) {
            0 => {
                let op = self.random.below(16) as u32;
                self.twice(op)
            }
            1..=2 => {
                let n = self.n();
                let first = self.stream(n);
                self.link(n, first, LINKS)
            }
            3..=8 => self.recycled(),
            9 => self.related(),
            _ => self.any(),
        }
    }

    // ---- Sorts of cases

    /// An operator and a size, by place.
    fn of_grid(&mut self, place: usize) -> Case {
        let (op, size) = ((place % 16) as u32, SIZES[place / 16] as u32);
        let n = *self.options.end();
        let streams = [(); 2].map(|()| self.stream(n));
        self.of_streams(n, op, size, streams)
    }

    /// A stream with itself, or with another stream of the same function.
    fn twice(&mut self, op: u32) -> Case {
        let (n, size) = (self.n(), self.size());
        let mut diagrams = Diagrams::new();
        let edge = rule(&mut self.random, &mut diagrams, n);
        let first = self.stream_of(&diagrams, n, edge);
        let second = match self.random.below(3) {
            0 => self.stream_of(&diagrams, n, edge),
            _ => first.clone(),
        };
        self.of_streams(n, op, size, [first, second])
    }

    /// The result of the run before with another stream.
    fn link(&mut self, n: u32, result: Vec<u8>, left: usize) -> Case {
        let (op, size) = (
            self.random.pick(&[1, 3, 4, 6, 7, 8, 9, 14]),
            self.random.pick(&[64, 256, MOST - 1, MOST]),
        );
        let mut streams = [result, self.stream(n)];
        if self.random.chance(1, 2) {
            streams.reverse();
        }
        let text = text(n, op, size, &streams);
        if left > 1 && text.len() <= INPUTS[3] {
            self.chain = Some((n, text, left - 1));
        }
        let output = self.output(n, op, size, &streams);
        combine(n, op, size, streams, output)
    }

    /// Small tables, of the streams and of the result.
    fn recycled(&mut self) -> Case {
        let n = self.n();
        let most = self.random.pick(&INPUTS);
        let mut diagrams = Diagrams::new();
        let streams = [(); 2].map(|()| loop {
            let edge = match self.random.below(6) {
                0 => remainder_of_count(&mut self.random, &mut diagrams, n),
                _ => selected(&mut self.random, &mut diagrams, n, 7),
            };
            let size = match self.random.below(4) {
                0 => 16 + self.random.below(50),
                _ => 3 + self.random.below(12),
            };
            let stream = stream_of_size(&mut self.random, &diagrams, n, edge, size, most);
            if stream.ends_with(b".") || self.random.chance(1, 4) {
                break stream;
            }
        });
        let size = match self.random.below(4) {
            0 => self.size(),
            _ => 2 + self.random.below(30) as u32,
        };
        let op = self.random.below(16) as u32;
        self.of_streams(n, op, size, streams)
    }

    /// Streams of two functions of which one is made of the other.
    fn related(&mut self) -> Case {
        let (n, op, size) = (self.n(), self.random.below(16) as u32, self.size());
        let mut diagrams = Diagrams::new();
        let one = rule(&mut self.random, &mut diagrams, n);
        let other = selected(&mut self.random, &mut diagrams, n, 4);
        let two = diagrams.combine(self.random.below(16), one, other);
        let streams = [one, two].map(|edge| self.stream_of(&diagrams, n, edge));
        self.of_streams(n, op, size, streams)
    }

    fn any(&mut self) -> Case {
        let (n, op, size) = (self.n(), self.random.below(16) as u32, self.size());
        let streams = [(); 2].map(|()| self.stream(n));
        self.of_streams(n, op, size, streams)
    }

    /// The streams as they are, cut or with a fault.
    fn of_streams(&mut self, n: u32, op: u32, size: u32, mut streams: [Vec<u8>; 2]) -> Case {
        match self.random.below(20) {
            0..=2 => streams = streams.map(|stream| cut(&mut self.random, stream)),
            3..=5 => {
                let index = self.random.index(2);
                streams[index] = cut(&mut self.random, streams[index].clone());
            }
            6..=7 => {
                let index = self.random.index(2);
                streams[index] = changed(&mut self.random, streams[index].clone());
            }
            _ => (),
        }
        let output = self.output(n, op, size, &streams);
        combine(n, op, size, streams, output)
    }

    // ---- Arguments

    fn n(&mut self) -> u32 {
        let (least, most) = (*self.options.start(), *self.options.end());
        match self.random.below(2) {
            0 => most,
            _ => least + self.random.below(u64::from(most - least + 1)) as u32,
        }
    }

    fn size(&mut self) -> u32 {
        let size = match self.random.below(4) {
            0 => self.random.below(MOST_SIZE + 1),
            1 => self.random.pick(&SIZES),
            _ => self.random.pick(&[64, 256, MOST_SIZE - 1, MOST_SIZE]),
        };
        size as u32
    }

    fn output(&mut self, n: u32, op: u32, size: u32, streams: &[Vec<u8>; 2]) -> usize {
        if self.random.chance(1, 2) {
            return MOST_OUTPUT;
        }
        let length = text(n, op, size, streams).len();
        output_for(&mut self.random, length).min(MOST_OUTPUT)
    }

    /// A stream of some rule, whole mostly.
    fn stream(&mut self, n: u32) -> Vec<u8> {
        loop {
            let mut diagrams = Diagrams::new();
            let edge = rule(&mut self.random, &mut diagrams, n);
            let stream = self.stream_of(&diagrams, n, edge);
            if stream.ends_with(b".") || self.random.chance(1, 4) {
                return stream;
            }
        }
    }

    fn stream_of(&mut self, diagrams: &Diagrams, n: u32, edge: Edge) -> Vec<u8> {
        let most = self.random.pick(&INPUTS);
        stream(&mut self.random, diagrams, n, edge, most)
    }
}

/// Cases for each operator and each size.
const GRID: usize = 16 * SIZES.len();

/// Cases of a stream with itself, one for each operator.
const TWICE: usize = 16;

/// What the walk writes, up to a little more than the longest output; nothing if it turns a stream down.
fn text(n: u32, op: u32, size: u32, streams: &[Vec<u8>; 2]) -> Vec<u8> {
    match (read(n, &streams[0]), read(n, &streams[1])) {
        (Ok(one), Ok(two)) => combined_text(op.into(), size.into(), &one, &two, MOST_OUTPUT),
        _ => Vec::new(),
    }
}
