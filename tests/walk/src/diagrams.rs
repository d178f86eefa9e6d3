//! Functions of the options as shared diagrams in Rust's own memory: each function there once, so
//! that two parts are the same function exactly when they are the same edge.
//!
//! Nothing here knows numbers, tables or texts. A node stands for a function that is no at its
//! first word, an edge for such a function or its opposite, so that a turn of document 01 is the
//! turn of an edge.

use crate::reading::{Node as Read, NodeId, Reading};
use crate::run::operate;
use std::collections::HashMap;
use std::hash::{BuildHasherDefault, Hasher};

/// A function that is no at its first word, by its index; the constant no is 0.
pub type Function = usize;

pub const CONSTANT: Function = 0;

/// A function, turned about or not.
#[derive(Clone, Copy, Debug, PartialEq, Eq, Hash, PartialOrd, Ord)]
pub struct Edge {
    pub function: Function,
    pub turn: bool,
}

/// The constant of a decision.
pub fn constant(turn: bool) -> Edge {
    let function = CONSTANT;
    Edge { function, turn }
}

impl Edge {
    pub fn turned(self, turn: bool) -> Edge {
        Edge {
            turn: self.turn != turn,
            ..self
        }
    }

    pub fn is_constant(self) -> bool {
        self.function == CONSTANT
    }
}

/// The outermost option on which a function depends, and its halves by that option: the first is no
/// at its first word, the second is turned if `turn`. They differ.
#[derive(Clone, Copy, Debug, PartialEq, Eq, Hash)]
pub struct Node {
    pub level: u32,
    pub first: Function,
    pub second: Function,
    pub turn: bool,
}

#[derive(Clone, Debug)]
pub struct Diagrams {
    nodes: Vec<Node>,
    known: HashMap<Node, Function, Quick>,
}

impl Default for Diagrams {
    fn default() -> Diagrams {
        Diagrams::new()
    }
}

impl Diagrams {
    pub fn new() -> Diagrams {
        // The constant depends on no option.
        let constant = Node {
            level: u32::MAX,
            first: CONSTANT,
            second: CONSTANT,
            turn: false,
        };
        Diagrams {
            nodes: vec![constant],
            known: HashMap::default(),
        }
    }

    pub fn node(&self, function: Function) -> Node {
        self.nodes[function]
    }

    /// How many functions there are.
    pub fn functions(&self) -> usize {
        self.nodes.len()
    }

    /// The function with these halves by the option of a level, on which and on those before it
    /// they do not depend.
    pub fn join(&mut self, level: u32, first: Edge, second: Edge) -> Edge {
        if first == second {
            return first;
        }
        let node = Node {
            level,
            first: first.function,
            second: second.function,
            turn: first.turn != second.turn,
        };
        let next = self.nodes.len();
        let function = *self.known.entry(node).or_insert(next);
        if function == next {
            self.nodes.push(node);
        }
        Edge {
            function,
            turn: first.turn,
        }
    }

    /// The halves of a function by the option of a level; it does not depend on those before.
    pub fn halves(&self, level: u32, edge: Edge) -> [Edge; 2] {
        let node = self.nodes[edge.function];
        if node.level != level {
            return [edge; 2];
        }
        let first = Edge {
            function: node.first,
            turn: edge.turn,
        };
        let second = Edge {
            function: node.second,
            turn: edge.turn != node.turn,
        };
        [first, second]
    }

    /// What the operator gives of two functions.
    pub fn combine(&mut self, operator: u64, one: Edge, two: Edge) -> Edge {
        let mut done = HashMap::default();
        self.combined(operator, one, two, &mut done)
    }

    fn combined(
        &mut self,
        operator: u64,
        one: Edge,
        two: Edge,
        done: &mut HashMap<(Edge, Edge), Edge, Quick>,
    ) -> Edge {
        // With one of them fixed the operator gives a constant, the other one, or its opposite.
        if one.is_constant() {
            let [no, yes] = [false, true].map(|b| operate(operator, one.turn, b));
            return if no == yes {
                constant(no)
            } else {
                two.turned(no)
            };
        }
        if two.is_constant() {
            let [no, yes] = [false, true].map(|a| operate(operator, a, two.turn));
            return if no == yes {
                constant(no)
            } else {
                one.turned(no)
            };
        }
        if let Some(&edge) = done.get(&(one, two)) {
            return edge;
        }
        let level = self.nodes[one.function]
            .level
            .min(self.nodes[two.function].level);
        let [one_no, one_yes] = self.halves(level, one);
        let [two_no, two_yes] = self.halves(level, two);
        let first = self.combined(operator, one_no, two_no, done);
        let second = self.combined(operator, one_yes, two_yes, done);
        let edge = self.join(level, first, second);
        done.insert((one, two), edge);
        edge
    }

    /// The decision of a word.
    pub fn decision(&self, options: u32, mut edge: Edge, word: u64) -> bool {
        while !edge.is_constant() {
            let level = self.nodes[edge.function].level;
            let yes = word >> (options - level) & 1;
            edge = self.halves(level, edge)[yes as usize];
        }
        edge.turn
    }

    /// The first word at which a function is yes. Of two halves that differ one at least has such a
    /// word, so only a constant no is passed by.
    pub fn first_word(&self, options: u32, mut edge: Edge) -> Option<u64> {
        let mut word = 0;
        while !edge.is_constant() {
            let level = self.nodes[edge.function].level;
            let [first, second] = self.halves(level, edge);
            edge = first;
            if first == constant(false) {
                word += 1 << (options - level);
                edge = second;
            }
        }
        edge.turn.then_some(word)
    }

    /// The words before `end`, which is at most 2^n.
    pub fn before(&mut self, options: u32, end: u64) -> Edge {
        self.before_from(options, 1, end)
    }

    fn before_from(&mut self, options: u32, level: u32, end: u64) -> Edge {
        if end == 0 || end == 1u64 << (options + 1 - level) {
            return constant(end != 0);
        }
        let half = 1u64 << (options - level);
        if end <= half {
            let first = self.before_from(options, level + 1, end);
            self.join(level, first, constant(false))
        } else {
            let second = self.before_from(options, level + 1, end - half);
            self.join(level, constant(true), second)
        }
    }

    /// The function that a stream decides; words that it does not cover are decided somehow.
    pub fn of_reading(&mut self, reading: &Reading) -> Edge {
        let mut done = vec![None; reading.nodes.len()];
        match reading.outermost {
            Some(outermost) => self
                .of_node(reading, outermost, &mut done)
                .turned(reading.turn),
            None => constant(false),
        }
    }

    fn of_node(&mut self, reading: &Reading, id: NodeId, done: &mut Vec<Option<Edge>>) -> Edge {
        if let Some(edge) = done[id] {
            return edge;
        }
        let edge = match reading.nodes[id] {
            Read::Constant => constant(false),
            Read::Number { stored } => self.of_node(reading, stored, done),
            Read::Bracket {
                level,
                first,
                turn,
                second,
                ..
            } => {
                // What is not there covers no word.
                let first =
                    first.map_or(constant(false), |first| self.of_node(reading, first, done));
                let second = second.map_or(first, |second| {
                    self.of_node(reading, second, done).turned(turn)
                });
                self.join(level, first, second)
            }
        };
        done[id] = Some(edge);
        edge
    }

    /// How many functions a function has as its parts, itself among them, the constant not.
    pub fn count(&self, function: Function) -> usize {
        let mut seen = vec![false; self.nodes.len()];
        let mut waiting = vec![function];
        let mut count = 0;
        while let Some(function) = waiting.pop() {
            if function != CONSTANT && !std::mem::replace(&mut seen[function], true) {
                count += 1;
                waiting.extend([self.nodes[function].first, self.nodes[function].second]);
            }
        }
        count
    }
}

/// A quick way to hash small numbers.
pub type Quick = BuildHasherDefault<QuickHasher>;

#[derive(Clone, Copy, Default)]
pub struct QuickHasher {
    state: u64,
}

impl Hasher for QuickHasher {
    fn finish(&self) -> u64 {
        self.state ^ self.state >> 32
    }

    fn write(&mut self, bytes: &[u8]) {
        for &byte in bytes {
            self.write_u64(byte.into());
        }
    }

    fn write_u8(&mut self, number: u8) {
        self.write_u64(number.into());
    }

    fn write_u32(&mut self, number: u32) {
        self.write_u64(number.into());
    }

    fn write_u64(&mut self, number: u64) {
        self.state = (self.state.rotate_left(5) ^ number).wrapping_mul(0x9e37_79b9_7f4a_7c15);
    }

    fn write_usize(&mut self, number: usize) {
        self.write_u64(number as u64);
    }
}
