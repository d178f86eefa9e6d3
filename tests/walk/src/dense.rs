//! Rules with many options whose words are not few blocks: counts, sums, remainders, random
//! diagrams; and streams of them, as they are written or in shapes that no writer would choose.

use crate::cached::whole_text;
use crate::diagrams::{constant, Diagrams, Edge, Function, CONSTANT};
use crate::limits::MOST_SIZE;
use crate::random::Random;
use crate::table::Standing;
use crate::writing::{ends_in_digit, heading};
use std::collections::HashMap;

/// A rule of some family.
pub fn rule(random: &mut Random, diagrams: &mut Diagrams, n: u32) -> Edge {
    let turn = random.chance(1, 3);
    let edge = match random.below(16) {
        0..=1 => at_least(diagrams, n, n / 2),
        2 => symmetric(random, diagrams, n),
        3..=4 => remainder_of_count(random, diagrams, n),
        5 => parity(random, diagrams, n),
        6 => carry(random, diagrams, n),
        7 => remainder_of_word(random, diagrams, n),
        8..=9 => machine(random, diagrams, n),
        10..=11 => layers(random, diagrams, n),
        12 => interval(random, diagrams, n),
        13..=14 => selected(random, diagrams, n, 6),
        _ => {
            let (one, two) = (
                remainder_of_count(random, diagrams, n),
                carry(random, diagrams, n),
            );
            diagrams.combine(random.below(16), one, two)
        }
    };
    edge.turned(turn)
}

/// What a machine comes to that is given the options from the outermost on; its states are 0 to
/// `states` - 1 and it begins in 0.
fn decided_by(
    diagrams: &mut Diagrams,
    n: u32,
    states: usize,
    step: impl Fn(u32, usize, bool) -> usize,
    decision: impl Fn(usize) -> bool,
) -> Edge {
    let mut later: Vec<Edge> = (0..states).map(|state| constant(decision(state))).collect();
    for level in (1..=n).rev() {
        let now = (0..states).map(|state| {
            let [no, yes] = [false, true].map(|option| later[step(level, state, option)]);
            diagrams.join(level, no, yes)
        });
        later = now.collect();
    }
    later[0]
}

/// At least so many options set.
pub fn at_least(diagrams: &mut Diagrams, n: u32, least: u32) -> Edge {
    by_count(diagrams, n, |count| count as u32 >= least)
}

/// A function of the number of options set.
fn by_count(diagrams: &mut Diagrams, n: u32, decision: impl Fn(usize) -> bool) -> Edge {
    let most = n as usize;
    let step = |_, count: usize, option| most.min(count + usize::from(option));
    decided_by(diagrams, n, most + 1, step, decision)
}

fn symmetric(random: &mut Random, diagrams: &mut Diagrams, n: u32) -> Edge {
    let decisions: Vec<bool> = (0..=n).map(|_| random.chance(1, 2)).collect();
    by_count(diagrams, n, |count| decisions[count])
}

/// A function of the number of options set, divided by 2 to 9.
pub fn remainder_of_count(random: &mut Random, diagrams: &mut Diagrams, n: u32) -> Edge {
    let divisor = 2 + random.index(8);
    let decisions: Vec<bool> = (0..divisor).map(|_| random.chance(1, 2)).collect();
    let step = |_, count, option| (count + usize::from(option)) % divisor;
    decided_by(diagrams, n, divisor, step, |count| decisions[count])
}

/// An odd number of some of the options set, of all of them mostly.
fn parity(random: &mut Random, diagrams: &mut Diagrams, n: u32) -> Edge {
    let mask = match random.below(2) {
        0 => u64::MAX,
        _ => random.draw(),
    };
    let step = |level, state, option| state ^ usize::from(option && mask >> level & 1 == 1);
    decided_by(diagrams, n, 2, step, |state| state == 1)
}

/// The carry of two numbers whose digits take turns, the lowest first; or whether one is lower.
fn carry(random: &mut Random, diagrams: &mut Diagrams, n: u32) -> Edge {
    let odd = random.chance(1, 2);
    // The carry so far, and the first digit if it is there: 0 none, 1 no, 2 yes.
    let step = |_, state: usize, option: bool| {
        let (carry, first) = (state % 2, state / 2);
        if first == 0 {
            return carry + 2 * (1 + usize::from(option));
        }
        let first = (first == 2) != odd;
        usize::from(carry + usize::from(first) + usize::from(option) >= 2)
    };
    decided_by(diagrams, n, 6, step, |state| state % 2 == 1)
}

/// The word divided by 3 to 13.
fn remainder_of_word(random: &mut Random, diagrams: &mut Diagrams, n: u32) -> Edge {
    let divisor = 3 + random.index(11);
    let remainder = random.index(divisor);
    let step = |_, value, option| (2 * value + usize::from(option)) % divisor;
    decided_by(diagrams, n, divisor, step, |value| value == remainder)
}

/// A machine with any steps, the same at all levels or not.
fn machine(random: &mut Random, diagrams: &mut Diagrams, n: u32) -> Edge {
    let states = 2 + random.index(15);
    let rows = random.pick(&[1, 3, 32]);
    let steps = random.garbage(2 * states * rows);
    let decisions: Vec<bool> = (0..states).map(|_| random.chance(1, 2)).collect();
    let step = |level: u32, state: usize, option| {
        let row = level as usize % rows;
        usize::from(steps[2 * (row * states + state) + usize::from(option)]) % states
    };
    decided_by(diagrams, n, states, step, |state| decisions[state])
}

/// Some functions at each level, each of two of those below, of the next level mostly.
fn layers(random: &mut Random, diagrams: &mut Diagrams, n: u32) -> Edge {
    let width = 2 + random.index(16);
    let mut pool = vec![constant(false)];
    for level in (1..=n).rev() {
        let below = pool.len();
        for _ in 0..width {
            let [first, second] = [(); 2].map(|()| {
                let near = below.saturating_sub(width + 2);
                let least = if random.chance(1, 12) { 0 } else { near };
                let edge = pool[least + random.index(below - least)];
                edge.turned(random.chance(1, 2))
            });
            pool.push(diagrams.join(level, first, second));
        }
    }
    pool[pool.len() - 1]
}

/// The words from one to another.
fn interval(random: &mut Random, diagrams: &mut Diagrams, n: u32) -> Edge {
    let [one, two] = [(); 2].map(|()| {
        let end = random.below((1 << n) + 1);
        diagrams.before(n, end)
    });
    diagrams.combine(6, one, two)
}

/// The first options select one of some functions of few options each, so that little of a table is
/// in use at a time.
pub fn selected(random: &mut Random, diagrams: &mut Diagrams, n: u32, most: u32) -> Edge {
    let first = 1 + random.below(u64::from(most.min(n / 2))) as u32;
    let kinds = 2 + random.index(6);
    let pool: Vec<Edge> = (0..kinds)
        .map(|_| few_options(random, diagrams, first + 1, n))
        .collect();
    let mut later: Vec<Edge> = (0..1 << first)
        .map(|_| match random.below(8) {
            0..=2 => few_options(random, diagrams, first + 1, n),
            3 => constant(random.chance(1, 2)),
            _ => random.pick(&pool).turned(random.chance(1, 2)),
        })
        .collect();
    for level in (1..=first).rev() {
        let pairs = later.chunks(2);
        later = pairs
            .map(|pair| diagrams.join(level, pair[0], pair[1]))
            .collect();
    }
    later[0]
}

/// A function of two to seven options from a level on.
fn few_options(random: &mut Random, diagrams: &mut Diagrams, least: u32, n: u32) -> Edge {
    let count = 2 + random.index(6);
    let mut levels: Vec<u32> = (0..count)
        .map(|_| least + random.below(u64::from(n + 1 - least)) as u32)
        .collect();
    levels.sort_unstable();
    levels.dedup();
    let mut pool = [constant(false), constant(true)];
    for level in levels.into_iter().rev() {
        let one = random.pick(&pool);
        let two = random.pick(&pool).turned(random.chance(1, 3));
        let edge = diagrams.join(level, one, two);
        pool = [pool[usize::from(random.chance(1, 2))], edge];
    }
    pool[1]
}

// ---- Streams

/// The sizes that are written and declared.
pub const SIZES: [u64; 7] = [0, 1, 5, 64, 256, MOST_SIZE - 1, MOST_SIZE];

/// A valid stream of a function of at most so many bytes; one that would be longer is cut there.
pub fn stream(
    random: &mut Random,
    diagrams: &Diagrams,
    n: u32,
    edge: Edge,
    most: usize,
) -> Vec<u8> {
    let functions = diagrams.count(edge.function) as u64;
    let size = match random.below(8) {
        0 => random.pick(&SIZES),
        1 => functions.saturating_sub(random.below(8)),
        2 => functions / 2,
        3 => functions + random.below(20),
        _ => MOST_SIZE,
    };
    stream_of_size(random, diagrams, n, edge, size.min(MOST_SIZE), most)
}

/// The same with a size.
pub fn stream_of_size(
    random: &mut Random,
    diagrams: &Diagrams,
    n: u32,
    edge: Edge,
    size: u64,
    most: usize,
) -> Vec<u8> {
    let mut text = match random.below(2) {
        0 => whole_text(diagrams, n, size, edge, most),
        _ => loose_text(random, diagrams, n, size, edge, most),
    };
    text.truncate(most);
    text
}

/// A stream of a function as no writer would choose it: numbers in any order, given out again too
/// soon, not at all, or to a function that has one; halves that are alike in two texts.
pub fn loose_text(
    random: &mut Random,
    diagrams: &Diagrams,
    n: u32,
    size: u64,
    edge: Edge,
    most: usize,
) -> Vec<u8> {
    let churn = random.pick(&[0, 0, 1, 5, 20]);
    let mut maker = Loose {
        random,
        diagrams,
        n,
        most,
        churn,
        text: heading(size),
        slots: vec![None; size as usize + 1],
        givings: vec![0; size as usize + 1],
        parents: vec![0; size as usize + 1],
        numbers: HashMap::new(),
        fresh: 1,
    };
    if edge.turn {
        maker.text.push(b'~');
    }
    if maker.node(1, edge.function).is_some() {
        maker.text.push(b'.');
    }
    maker.text
}

#[derive(Clone, Copy)]
struct Loosely {
    level: u32,
    function: Function,
    children: [usize; 2],
}

struct Loose<'a> {
    random: &'a mut Random,
    diagrams: &'a Diagrams,
    n: u32,
    most: usize,
    /// So often of a hundred times something is done that need not be.
    churn: u64,
    text: Vec<u8>,
    slots: Vec<Option<Loosely>>,
    givings: Vec<u64>,
    parents: Vec<u64>,
    /// The numbers of a function at a level.
    numbers: HashMap<(u32, Function), Vec<usize>>,
    fresh: usize,
}

impl Loose<'_> {
    /// A node; none if the text is long enough.
    fn node(&mut self, level: u32, function: Function) -> Option<Standing> {
        if self.text.len() > self.most {
            return None;
        }
        let odd = self.random.chance(self.churn, 100);
        let numbers = self.numbers.get(&(level, function));
        if let Some(numbers) = numbers.filter(|numbers| !numbers.is_empty() && !odd) {
            let number = self.random.pick(numbers);
            self.text.extend(number.to_string().bytes());
            return Some(self.standing(number));
        }
        if level > self.n || (function == CONSTANT && !odd) {
            self.text.push(b'0');
            return Some(Standing::Constant);
        }
        self.bracket(level, function)
    }

    fn bracket(&mut self, level: u32, function: Function) -> Option<Standing> {
        let node = self.diagrams.node(function);
        let (first, second, turn) = match node.level == level {
            true => (node.first, node.second, node.turn),
            false => (function, function, false),
        };
        self.text.push(b'(');
        let a = self.node(level + 1, first)?;
        let odd = self.random.chance(self.churn, 100);
        if first == second && !turn && a.kept() && !odd {
            self.text.push(b')');
            return Some(a);
        }
        let start = self.text.len();
        if turn {
            self.text.push(b'~');
        }
        let b = self.node(level + 1, second)?;
        let digits = ends_in_digit(&self.text[..start]) && self.text[start].is_ascii_digit();
        if digits && !turn {
            self.text.insert(start, b' ');
        }
        self.text.push(b')');
        let barred = |child: Standing| !child.kept() || self.given_again(child);
        if barred(a) || barred(b) || self.random.chance(self.churn, 100) {
            return Some(Standing::Temporary);
        }
        let children = [a, b].map(|child| child.number().unwrap_or(0) as usize);
        let node = Loosely {
            level,
            function,
            children,
        };
        match self.number(children) {
            Some(number) => {
                self.put(number, node);
                self.text.extend(format!(":{number}").bytes());
                Some(self.standing(number))
            }
            None => Some(Standing::Temporary),
        }
    }

    /// A number that has not been given out, or any that may be.
    fn number(&mut self, children: [usize; 2]) -> Option<usize> {
        let count = self.slots.len() - 1;
        let odd = self.random.chance(self.churn, 100);
        if self.fresh <= count && !odd {
            self.fresh += 1;
            let number = self.fresh - 1;
            if self.slots[number].is_none() {
                return Some(number);
            }
        }
        for _ in 0..20 {
            let number = 1 + self.random.index(count.max(1));
            if number <= count && self.parents[number] == 0 && !children.contains(&number) {
                return Some(number);
            }
        }
        None
    }

    fn put(&mut self, number: usize, node: Loosely) {
        if let Some(old) = self.slots[number] {
            for child in old.children {
                self.parents[child] = self.parents[child].saturating_sub(1);
            }
            let numbers = self.numbers.entry((old.level, old.function)).or_default();
            numbers.retain(|&other| other != number);
        }
        for child in node.children {
            self.parents[child] += 1;
        }
        self.slots[number] = Some(node);
        self.givings[number] += 1;
        let numbers = self.numbers.entry((node.level, node.function)).or_default();
        numbers.push(number);
    }

    fn standing(&self, number: usize) -> Standing {
        Standing::Number {
            number: number as u64,
            giving: self.givings[number],
        }
    }

    fn given_again(&self, part: Standing) -> bool {
        let now = |number| self.standing(number as usize);
        part.number().is_some_and(|number| now(number) != part)
    }
}
