//! How long the buckets of the writer's unique table become: a model of its hash, put to the nodes that are stored in
//! the written texts, at every moment of each, and to families of nodes that could be stored at one time.
//!
//! Nothing depends on it but time; it is only printed.

use std::collections::HashSet;
use walk::limits::MOST_SIZE;
use walk::random::Random;
use walk::reader::{Element, Reader, Step};

/// The number of buckets.
const BUCKETS: usize = MOST_SIZE as usize;

/// Families by chance that are searched.
const FAMILIES: usize = 40_000;

/// A stored node: level, the numbers of its children (0 for the constant), complement.
#[derive(Clone, Copy, Debug, PartialEq, Eq)]
pub struct Node {
    pub level: u64,
    pub first: u64,
    pub second: u64,
    pub turn: u64,
}

/// The bucket of a node, from 1 on: the library's `bucket_of`.
pub fn bucket(node: Node) -> usize {
    let x = ((node.first * 2048 + node.second) * 64 + node.level) * 2 + node.turn;
    let y = stir(2_246_822_519, stir(2_654_435_769, x)) % (1 << 32);
    (y * MOST_SIZE / (1 << 32) + 1) as usize
}

/// One round of mixing: the library's `stir`.
fn stir(k: u64, v: u64) -> u64 {
    let x = v % (1 << 32);
    let p = x * ((x + k) % (1 << 32));
    p / (1 << 32) + p % (1 << 32)
}

/// The longest buckets that were seen.
#[derive(Default)]
pub struct Longest {
    /// In texts, and how many nodes were stored then.
    texts: (usize, usize),
    /// Nodes stored in all texts.
    nodes: usize,
}

impl Longest {
    /// A text that was written, or the beginning of one.
    pub fn see(&mut self, text: &[u8]) {
        let mut buckets = Buckets::default();
        for (number, node) in stored(text) {
            self.nodes += 1;
            let length = buckets.put(number, node);
            if length > self.texts.0 {
                self.texts = (length, buckets.nodes.iter().flatten().count());
            }
        }
    }

    pub fn lines(&self, seed: u64) -> String {
        let Longest { texts, nodes } = self;
        let (length, stored) = texts;
        let [one, all] = searched(seed).map(|Family { length, of }| format!("{length} ({of})"));
        format!(
            "longest bucket: {length} with {stored} nodes stored, of {nodes} in texts; nodes in steps (level, first, \
             second, complement): at one level {one}, over levels {all}\n"
        )
    }
}

#[derive(Default)]
struct Buckets {
    /// By number.
    nodes: Vec<Option<Node>>,
    lengths: Vec<usize>,
}

impl Buckets {
    /// The node is stored under a number from now on; the length of its bucket.
    fn put(&mut self, number: usize, node: Node) -> usize {
        self.lengths.resize(BUCKETS + 1, 0);
        if self.nodes.len() <= number {
            self.nodes.resize(number + 1, None);
        }
        if let Some(old) = self.nodes[number].replace(node) {
            self.lengths[bucket(old)] -= 1;
        }
        self.lengths[bucket(node)] += 1;
        self.lengths[bucket(node)]
    }
}

/// How often a text gives a number out that it has given out before.
pub fn given_again(text: &[u8]) -> usize {
    let mut seen = HashSet::new();
    let stored = stored(text).into_iter();
    stored.filter(|&(number, _)| !seen.insert(number)).count()
}

/// The nodes that a text stores, each with its number.
fn stored(text: &[u8]) -> Vec<(usize, Node)> {
    /// An open bracket: its children so far, and the complement of the second.
    #[derive(Default)]
    struct Open {
        children: Vec<u64>,
        turn: u64,
    }
    let mut found = Vec::new();
    let mut reader = Reader::new(text);
    reader.step();
    let mut open: Vec<Open> = vec![Open::default()];
    let mut closed = Open::default();
    while let Step::Element { element, .. } = reader.step() {
        let last = open.len() - 1;
        match element {
            Element::Opening => open.push(Open::default()),
            Element::Constant => open[last].children.push(0),
            Element::Number(number) => open[last].children.push(number),
            Element::Turn => open[last].turn = 1,
            Element::Closing => {
                closed = open.pop().expect("a node is open");
                // `(A)` stands for A; what a two-child node stands for is said by what follows it.
                open[last - 1].children.push(closed.children[0]);
            }
            Element::Storing(number) => {
                let node = Node {
                    level: open.len() as u64,
                    first: closed.children[0],
                    second: closed.children[1],
                    turn: closed.turn,
                };
                found.push((number as usize, node));
                *open[last].children.last_mut().expect("it was closed") = number;
            }
            Element::End => break,
        }
    }
    found
}

/// Nodes in arithmetic progression: their longest bucket, and what they are.
#[derive(Default)]
struct Family {
    length: usize,
    of: String,
}

/// Of the families at one level and over levels those with the longest buckets.
fn searched(seed: u64) -> [Family; 2] {
    let mut random = Random::new(seed);
    let mut worst = [Family::default(), Family::default()];
    // Low steps and powers of two in all ways, then any.
    let low = [0, 1, 2, 3, 4, 5, 8, 16, 31, 32, 64, 128, 256, 512];
    for first in low {
        for second in low {
            for level in [0, 1, 2, 5] {
                for turn in 0..2 {
                    for start in [[1, 0, 0, 0], [17, 1, 2, 1], [32, MOST_SIZE, 512, 0]] {
                        family(&mut worst, start, [level, first, second, turn]);
                    }
                }
            }
        }
    }
    for place in 0..FAMILIES {
        let most = random.pick(&[4, 33, MOST_SIZE + 1]);
        let level = if place % 2 == 0 { 0 } else { random.below(32) };
        let [first, second] = [(); 2].map(|()| random.below(most));
        let step = [level, first, second, random.below(2)];
        let start = [32, MOST_SIZE + 1, MOST_SIZE + 1, 2].map(|most| random.below(most));
        family(&mut worst, start, step);
    }
    worst
}

/// Nodes from one on in steps, round at the ends of what there is.
fn family(worst: &mut [Family; 2], start: [u64; 4], step: [u64; 4]) {
    let worst = &mut worst[usize::from(step[0] != 0)];
    let mut lengths = [0; BUCKETS + 1];
    let mut seen = None;
    for index in 0..BUCKETS as u64 {
        let [level, first, second, turn] =
            [0, 1, 2, 3].map(|at: usize| start[at] + index * step[at]);
        let node = Node {
            level: level % 32 + 1,
            first: first % (MOST_SIZE + 1),
            second: second % (MOST_SIZE + 1),
            turn: turn % 2,
        };
        if *seen.get_or_insert(node) == node && index > 0 {
            break;
        }
        let length = &mut lengths[bucket(node)];
        *length += 1;
        if *length > worst.length {
            let (length, of) = (*length, format!("from {start:?} by {step:?}"));
            *worst = Family { length, of };
        }
    }
}
