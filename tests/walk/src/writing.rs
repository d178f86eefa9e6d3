//! The written stream (document 01, "The written stream"): "Walk all words from 0 up; halves
//! meet at each level."

use crate::table::{Standing, Stored, Table};

/// A two-child node that was written out.
#[derive(Clone, Copy, Debug, PartialEq, Eq)]
pub struct WrittenNode {
    /// Where its text ends, number included.
    pub end: usize,
    /// The first word after its words, at the place where it is written.
    pub words_end: u64,
}

/// The whole stream with its two-child nodes in the order of their ends.
#[derive(Clone, Debug)]
pub struct WholeStream {
    pub text: Vec<u8>,
    pub nodes: Vec<WrittenNode>,
}

/// Write a function of 2^n words, word by word.
pub fn write_words(options: u32, size: u64, decision: impl Fn(u64) -> bool) -> WholeStream {
    write_blocks(options, size, |level, word| {
        (level == options + 1).then(|| decision(word))
    })
}

/// Write a function that may say of a whole block at once that all its words have one decision.
///
/// `block(level, word)` is asked for the words that share with `word` the options before `level`;
/// at level n + 1 that is the word alone and it must answer. Such a block is a constant part:
/// its words are constants, by rule 1 their halves are, and rule 1 moves nothing in the table.
pub fn write_blocks(
    options: u32,
    size: u64,
    block: impl Fn(u32, u64) -> Option<bool>,
) -> WholeStream {
    let mut writer = Writer {
        options,
        size,
        block,
        table: Table::new(),
        fresh: 0,
        queue: Vec::new(),
    };
    let part = writer.part(1, 0);
    // "A stream is the table size, one LF, an optional `~`, one node, and `.` as last byte."
    let mut text = heading(size);
    if part.turn {
        text.push(b'~');
    }
    let mut nodes = Vec::new();
    append(&mut text, &mut nodes, &part);
    text.push(b'.');
    WholeStream { text, nodes }
}

/// Size and LF.
pub fn heading(size: u64) -> Vec<u8> {
    format!("{size}\n").into_bytes()
}

/// A part that is done: its normal function (no at its first word) as text, its turn, and what
/// it stands as.
struct Part {
    standing: Standing,
    turn: bool,
    text: Vec<u8>,
    nodes: Vec<WrittenNode>,
}

struct Writer<F> {
    options: u32,
    size: u64,
    block: F,
    table: Table,
    /// The numbers 1 to `fresh` have been given out.
    fresh: u64,
    /// "the stored nodes that are no stored node's child, in the order in which they became so".
    queue: Vec<u64>,
}

impl<F: Fn(u32, u64) -> Option<bool>> Writer<F> {
    /// The part at a level that begins with a word.
    fn part(&mut self, level: u32, word: u64) -> Part {
        if let Some(decision) = (self.block)(level, word) {
            return constant(decision);
        }
        let half = 1u64 << (self.options - level);
        let first = self.part(level + 1, word);
        let second = self.part(level + 1, word + half);
        self.meet(level, word + 2 * half, first, second)
    }

    /// Both halves are done. "Every part is written as its normal function, no at its first
    /// word, with the turn passed upward; the second child has `~` if its turn differs from the
    /// first's."
    fn meet(&mut self, level: u32, words_end: u64, first: Part, second: Part) -> Part {
        let turn = first.turn != second.turn;
        let (a, b) = (first.standing, second.standing);
        let given_again = self.table.given_again(a) || self.table.given_again(b);

        // 1. "Both constant, no `~`: constant."
        if a == Standing::Constant && b == Standing::Constant && !turn {
            return constant(first.turn);
        }
        // 2. "Same number, no `~`, not given out again since either half got it: `(A)`, standing
        //    for that number."
        if a.number().is_some() && a.number() == b.number() && !turn && !given_again {
            // What is left out here has no node of its own.
            assert!(second.nodes.is_empty());
            let mut text = vec![b'('];
            let mut nodes = Vec::new();
            append(&mut text, &mut nodes, &first);
            text.push(b')');
            return Part {
                standing: a,
                turn: first.turn,
                text,
                nodes,
            };
        }
        // 3. "A half temporary, or its number given out again since: temporary node."
        let mut standing = Standing::Temporary;
        if a.kept() && b.kept() && !given_again {
            let node = Stored {
                level,
                first: a.number(),
                second: b.number(),
                turn,
            };
            // 4. "The table has this level, these children, this `~`: that number, in place of
            //    the text."
            if let Some(number) = self.look_up(node) {
                assert!(first.nodes.is_empty() && second.nodes.is_empty());
                return Part {
                    standing: self.table.standing(number),
                    turn: first.turn,
                    text: number.to_string().into_bytes(),
                    nodes: Vec::new(),
                };
            }
            // 5. "Otherwise the node gets a number".
            if let Some(given) = self.give_number(node) {
                standing = given;
            }
        }
        write_out(standing, turn, words_end, &first, &second)
    }

    /// "Looking up moves nothing."
    fn look_up(&self, node: Stored) -> Option<u64> {
        let mut all = self.table.all();
        all.find(|&(_, stored)| stored == node)
            .map(|(number, _)| number)
    }

    /// Rule 5: "1, 2, ... in turn up to the size; after that, the first in the queue that is not
    /// its own child; if there is none, it is temporary."
    fn give_number(&mut self, node: Stored) -> Option<Standing> {
        let number = if self.fresh < self.size {
            self.fresh += 1;
            self.fresh
        } else {
            let mut queue = self.queue.iter().copied();
            let number = queue.find(|&number| !node.has_child(number))?;
            self.release(number);
            number
        };
        // "then, as with a fresh number, the new node's children leave the queue; then the new
        // node joins at the end."
        self.queue.retain(|&waiting| !node.has_child(waiting));
        let standing = self.table.put(number, node);
        self.queue.push(number);
        Some(standing)
    }

    /// "When a number is reused, it leaves the queue; its old children lose a parent, first
    /// child first, and join the queue if they have none left".
    fn release(&mut self, number: u64) {
        self.queue.retain(|&waiting| waiting != number);
        let old = self.table.take(number).expect("the queue has stored nodes");
        for child in [old.first, old.second].into_iter().flatten() {
            // An old `(k~k)` puts k in the queue once.
            if !self.table.is_child(child) && !self.queue.contains(&child) {
                self.queue.push(child);
            }
        }
    }
}

/// The constant; its normal function is no.
fn constant(turn: bool) -> Part {
    Part {
        standing: Standing::Constant,
        turn,
        text: vec![b'0'],
        nodes: Vec::new(),
    }
}

/// `(A B)` or `(A~B)`, with `:` and a number if it was given one.
fn write_out(standing: Standing, turn: bool, words_end: u64, first: &Part, second: &Part) -> Part {
    let mut text = vec![b'('];
    let mut nodes = Vec::new();
    append(&mut text, &mut nodes, first);
    if turn {
        text.push(b'~');
    } else if ends_in_digit(&text) && second.text[0].is_ascii_digit() {
        text.push(b' ');
    }
    append(&mut text, &mut nodes, second);
    text.push(b')');
    if let Some(number) = standing.number() {
        text.extend(format!(":{number}").bytes());
    }
    let end = text.len();
    nodes.push(WrittenNode { end, words_end });
    Part {
        standing,
        turn: first.turn,
        text,
        nodes,
    }
}

pub fn ends_in_digit(text: &[u8]) -> bool {
    text.last().is_some_and(u8::is_ascii_digit)
}

/// Put a part's text, and its nodes with it, at the end of a text.
fn append(text: &mut Vec<u8>, nodes: &mut Vec<WrittenNode>, part: &Part) {
    let start = text.len();
    nodes.extend(part.nodes.iter().map(|node| WrittenNode {
        end: start + node.end,
        ..*node
    }));
    text.extend(&part.text);
}
