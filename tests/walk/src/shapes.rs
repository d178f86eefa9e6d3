//! Random streams for test cases: valid ones in shapes that no writer would choose, ones that
//! break one rule, damaged ones, cut ones.

use crate::functions::random_function;
use crate::limits::MOST_SIZE;
use crate::random::Random;
use crate::table::{Standing, Stored, Table};
use crate::writing::write_words;

/// A valid stream, or one with a single fault of the given cause (7 to 13) at a random place.
/// Now and then no place for the fault is found and the stream is valid.
pub fn shaped(random: &mut Random, n: u32, breaking: Option<u64>) -> Vec<u8> {
    for _ in 0..20 {
        let size = declared_size(random, breaking);
        let mut maker = Maker::new(random, n, size, breaking);
        maker.stream();
        if maker.breaking.is_none() {
            return maker.bytes;
        }
    }
    shaped(random, n, None)
}

/// A stream as it is written for a random function; n is small.
pub fn written(random: &mut Random, n: u32) -> Vec<u8> {
    let function = random_function(random, n);
    let size = small_size(random);
    write_words(n, size, |word| function[word as usize]).text
}

/// One byte changed, inserted or deleted.
pub fn damaged(random: &mut Random, mut bytes: Vec<u8>) -> Vec<u8> {
    let byte = if random.chance(5, 6) {
        random.pick(b"()~:. 0123456789\n")
    } else {
        random.byte()
    };
    match random.below(3) {
        0 if !bytes.is_empty() => {
            let at = random.index(bytes.len());
            bytes[at] = byte;
        }
        1 if !bytes.is_empty() => {
            let at = random.index(bytes.len());
            bytes.remove(at);
        }
        _ => {
            let at = random.index(bytes.len() + 1);
            bytes.insert(at, byte);
        }
    }
    bytes
}

/// The first bytes, at least one fewer if there are any.
pub fn cut(random: &mut Random, mut bytes: Vec<u8>) -> Vec<u8> {
    let keep = random.index(bytes.len());
    bytes.truncate(keep);
    bytes
}

/// 0 to 10, low ones more often, now and then the largest.
pub fn small_size(random: &mut Random) -> u64 {
    match random.below(12) {
        0 => MOST_SIZE,
        1..=6 => random.below(5),
        _ => random.below(11),
    }
}

/// The size that the stream declares.
fn declared_size(random: &mut Random, breaking: Option<u64>) -> u64 {
    match breaking {
        Some(8) if random.chance(1, 2) => MOST_SIZE + 1,
        Some(8) => MOST_SIZE + 1 + random.below(100_000),
        // These need numbers.
        Some(11..=13) => 1 + random.below(5),
        _ => small_size(random),
    }
}

struct Maker<'a> {
    random: &'a mut Random,
    n: u32,
    size: u64,
    /// The cause of the fault that is still to be made.
    breaking: Option<u64>,
    bytes: Vec<u8>,
    table: Table,
    /// About how many more nodes there shall be.
    budget: i64,
    /// Brackets down to this level come first.
    deep: u32,
}

impl<'a> Maker<'a> {
    fn new(random: &'a mut Random, n: u32, size: u64, breaking: Option<u64>) -> Maker<'a> {
        let budget = 3 + random.below(18) as i64;
        let deep = if n > 6 && random.chance(2, 3) {
            n - random.below(4) as u32
        } else {
            0
        };
        Maker {
            random,
            n,
            size,
            breaking,
            bytes: Vec::new(),
            table: Table::new(),
            budget,
            deep,
        }
    }

    /// The fault of this cause is wanted and this is the time for it.
    fn break_now(&mut self, cause: u64) -> bool {
        let now = self.breaking == Some(cause) && self.random.chance(1, 3);
        if now {
            self.breaking = None;
        }
        now
    }

    fn push(&mut self, text: &str) {
        self.bytes.extend(text.bytes());
    }

    fn stream(&mut self) {
        if self.break_now(7) {
            // A size that is none.
            let text = self
                .random
                .pick(&["00", "01", "+1", " 1", "1 ", "", "-", "1."]);
            self.push(text);
        } else {
            self.push(&self.size.to_string());
        }
        if self.breaking == Some(8) {
            self.breaking = None;
        }
        self.push("\n");
        if self.random.chance(1, 3) {
            self.push("~");
        }
        self.node(1);
        self.push(".");
        if self.break_now(7) {
            let text = self.random.pick(&["\n", ".", "0", " ", "("]);
            self.push(text);
        }
    }

    /// A node at a level; what it stands as.
    fn node(&mut self, level: u32) -> Standing {
        self.budget -= 1;
        if self.break_now(7) {
            self.wrong_bytes();
        }
        if self.breaking == Some(9) && level > self.n && self.break_now(9) {
            let text = self.random.pick(&["(0~0)", "(0)", "(0 0)", "((0~0)"]);
            self.push(text);
            return Standing::Temporary;
        }
        if self.break_now(10) {
            if let Some(number) = self.number_not_in_table() {
                self.push(&number.to_string());
                return Standing::Constant;
            }
            self.breaking = Some(10);
        }
        if self.break_now(11) {
            if let Some(number) = self.number_elsewhere(level) {
                self.push(&number.to_string());
                return Standing::Constant;
            }
            self.breaking = Some(11);
        }
        // Cause 9 wants to go deep; a long way down is given by `deep`.
        let down = self.budget > 0 && self.random.chance(if level == 1 { 19 } else { 14 }, 20);
        if level <= self.n && (down || level < self.deep || self.breaking == Some(9)) {
            self.bracket(level)
        } else {
            self.leaf(level)
        }
    }

    /// The constant, or a number that may be used here.
    fn leaf(&mut self, level: u32) -> Standing {
        let here = |(number, stored): (u64, Stored)| (stored.level == level).then_some(number);
        let numbers: Vec<u64> = self.table.all().filter_map(here).collect();
        if numbers.is_empty() || self.random.chance(1, 3) {
            self.push("0");
            return Standing::Constant;
        }
        let number = self.random.pick(&numbers);
        self.push(&number.to_string());
        self.table.standing(number)
    }

    fn bracket(&mut self, level: u32) -> Standing {
        self.push("(");
        let went_down = level < self.deep;
        let first = if went_down && self.random.chance(1, 3) {
            self.leaf(level + 1)
        } else {
            self.node(level + 1)
        };
        let alone = self.random.chance(1, if went_down { 3 } else { 6 });
        if !first.kept() && self.break_now(12) {
            self.push(")");
            return Standing::Temporary;
        }
        if first.kept() && alone {
            self.push(")");
            if self.break_now(7) {
                self.push(":1");
            }
            return first;
        }
        let turn = self.random.chance(1, 2);
        if turn {
            self.push("~");
        }
        let start = self.bytes.len();
        // One long way down is enough.
        let deep = std::mem::replace(&mut self.deep, 0);
        let down_second = went_down && first == Standing::Constant && self.bytes[start - 1] != b')';
        if down_second {
            self.deep = deep;
        }
        let second = self.node(level + 1);
        self.space(start, turn);
        self.push(")");
        let node = Stored {
            level,
            first: first.number(),
            second: second.number(),
            turn,
        };
        self.storing(node, first, second)
    }

    /// The space between `(A` and `B)`, where it belongs.
    fn space(&mut self, start: usize, turn: bool) {
        let digit_before = self.bytes[start - 1].is_ascii_digit();
        let begins = self.bytes.get(start).copied().unwrap_or(b')');
        let due = !turn && digit_before && begins.is_ascii_digit();
        let wrong = self.break_now(7);
        if due != wrong {
            self.bytes.insert(start, b' ');
        }
    }

    /// A number for a two-child node, or none.
    fn storing(&mut self, node: Stored, first: Standing, second: Standing) -> Standing {
        let barred = |child: Standing| !child.kept() || self.table.given_again(child);
        if barred(first) || barred(second) {
            if self.break_now(12) {
                let number = 1 + self.random.below(self.size);
                self.push(&format!(":{number}"));
            }
            return Standing::Temporary;
        }
        if self.break_now(13) {
            let number = self.number_not_to_give(node);
            self.push(&format!(":{number}"));
            return Standing::Temporary;
        }
        if self.size == 0 || self.random.chance(1, 5) {
            return Standing::Temporary;
        }
        for _ in 0..8 {
            // Low numbers, so that they are soon given out again.
            let number = 1 + self.random.below(self.size.min(6));
            if !self.table.is_child(number) && !node.has_child(number) {
                self.push(&format!(":{number}"));
                return self.table.put(number, node);
            }
        }
        Standing::Temporary
    }

    fn number_not_in_table(&mut self) -> Option<u64> {
        if self.random.chance(1, 4) {
            return Some(self.size + 1 + self.random.below(3));
        }
        let number = 1 + self.random.below(self.size + 2);
        self.table.get(number).is_none().then_some(number)
    }

    fn number_elsewhere(&mut self, level: u32) -> Option<u64> {
        let there = |(number, stored): (u64, Stored)| (stored.level != level).then_some(number);
        let numbers: Vec<u64> = self.table.all().filter_map(there).collect();
        (!numbers.is_empty()).then(|| self.random.pick(&numbers))
    }

    /// 0, above the size, a child of a stored node, or a child of this one.
    fn number_not_to_give(&mut self, node: Stored) -> u64 {
        let children = |stored: Stored| [stored.first, stored.second].into_iter().flatten();
        let taken = self.table.all().flat_map(|(_, stored)| children(stored));
        let mut numbers: Vec<u64> = taken.chain(children(node)).collect();
        if numbers.is_empty() || self.random.chance(1, 4) {
            let above = self.size + 1 + self.random.below(3);
            numbers = vec![0, self.size + 1, above, 5000];
        }
        self.random.pick(&numbers)
    }

    /// Bytes that do not belong before a node.
    fn wrong_bytes(&mut self) {
        const WRONG: [&str; 18] = [
            "~", "~~", " ", "  ", ")", ":", ":1", ".", "\n", "00", "01", "x", "()", "*", "1.5",
            "(~0)", "\r", "/",
        ];
        let text = self.random.pick(&WRONG);
        self.push(text);
    }
}
