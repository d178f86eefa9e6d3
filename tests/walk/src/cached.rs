//! The written stream (document 01, "The written stream") by a walk over functions in place of
//! words, for many options.
//!
//! `writing` walks all words and compares what stands in the table. Here the combined function is
//! known as a diagram before a byte is written, and of each function it is known whether a node for
//! it is in the table now. Such a node's children are in the table too, since a number is not given
//! out again while a stored node has it as a child; so the walk over the words of that part would
//! come to that number by rules 1, 2 and 4 alone, which move nothing, and it is written at once as
//! the number in its brackets. A function with no node in the table is walked half by half. Each
//! step thus writes a byte or more, and the time is that of the text.

use crate::diagrams::{Diagrams, Edge, Function, CONSTANT};
use crate::reading::Reading;
use crate::settled::covered_by_run;
use crate::table::Standing;
use crate::writing::{ends_in_digit, heading};
use std::collections::BTreeMap;

/// The text of combining two streams that were read with one option count, as `run::combined_text`;
/// of a text of more than `most` bytes it is enough to have more than `most`.
pub fn combined_text(
    operator: u64,
    size: u64,
    first: &Reading,
    second: &Reading,
    most: usize,
) -> Vec<u8> {
    let mut diagrams = Diagrams::new();
    let (one, two) = (diagrams.of_reading(first), diagrams.of_reading(second));
    let both = diagrams.combine(operator, one, two);
    // Words that are not covered are taken as no: "later words can't change that beginning".
    let covered = covered_by_run(operator, first, second);
    let before = diagrams.before(first.options, covered);
    let both = diagrams.combine(8, both, before);
    text(&diagrams, first.options, size, both, covered, most)
}

/// The whole stream of a function; of one of more than `most` bytes a beginning with more than
/// `most`.
pub fn whole_text(
    diagrams: &Diagrams,
    options: u32,
    size: u64,
    edge: Edge,
    most: usize,
) -> Vec<u8> {
    text(diagrams, options, size, edge, 1u64 << options, most)
}

/// The text of a run that covers so many words.
pub fn text(
    diagrams: &Diagrams,
    options: u32,
    size: u64,
    edge: Edge,
    covered: u64,
    most: usize,
) -> Vec<u8> {
    let text = heading(size);
    let mut walk = Walk {
        diagrams,
        options,
        size,
        covered,
        most,
        whole: covered == 1u64 << options,
        released: text.len(),
        text,
        number_of: vec![None; diagrams.functions()],
        slots: vec![Slot::default()],
        queue: BTreeMap::new(),
        joined: 0,
    };
    if edge.turn {
        walk.text.push(b'~');
    }
    let done = walk.part(1, edge.function, 0).is_some();
    if !walk.whole {
        walk.text.truncate(walk.released);
    } else if done {
        walk.text.push(b'.');
    }
    walk.text
}

/// What a number stands for.
#[derive(Clone, Copy, Default)]
struct Slot {
    function: Function,
    children: [u64; 2],
    /// How often it was given out.
    givings: u64,
    /// How many stored nodes have it as a child.
    parents: u64,
    /// Its place in the queue, if it is there.
    place: Option<u64>,
}

struct Walk<'a> {
    diagrams: &'a Diagrams,
    options: u32,
    size: u64,
    covered: u64,
    most: usize,
    /// All words are covered.
    whole: bool,
    text: Vec<u8>,
    /// Where the last two-child node ends whose words are all covered.
    released: usize,
    /// The number under which a function is stored now.
    number_of: Vec<Option<u64>>,
    /// By number; the first is none.
    slots: Vec<Slot>,
    /// Numbers by their places, which grow.
    queue: BTreeMap<u64, u64>,
    joined: u64,
}

impl Walk<'_> {
    /// Write a part; none if nothing after it counts.
    fn part(&mut self, level: u32, function: Function, word: u64) -> Option<Standing> {
        let enough = if self.whole {
            self.text.len()
        } else {
            self.released
        };
        if word >= self.covered || enough > self.most {
            return None;
        }
        // Rule 1.
        if function == CONSTANT {
            self.text.push(b'0');
            return Some(Standing::Constant);
        }
        let node = self.diagrams.node(function);
        // Rules 2 and 4: "A kept part met by number is written as the number inside as many
        // brackets as there are levels skipped."
        if let Some(number) = self.number_of[function] {
            let skipped = (node.level - level) as usize;
            self.text.extend(vec![b'('; skipped]);
            self.text.extend(number.to_string().bytes());
            self.text.extend(vec![b')'; skipped]);
            return Some(self.standing(number));
        }
        let skips = node.level > level;
        let (first, second, turn) = match skips {
            true => (function, function, false),
            false => (node.first, node.second, node.turn),
        };
        let half = 1u64 << (self.options - level);
        self.text.push(b'(');
        let a = self.part(level + 1, first, word)?;
        // Rule 2: the second half is the same function, which has this number now.
        if skips && a.kept() {
            self.text.push(b')');
            return Some(a);
        }
        if turn {
            self.text.push(b'~');
        } else if ends_in_digit(&self.text) && self.begins_with_digit(level + 1, second) {
            self.text.push(b' ');
        }
        let b = self.part(level + 1, second, word + half)?;
        self.text.push(b')');
        // Rule 3. Of two halves that are the same function the first is temporary here.
        let mut standing = Standing::Temporary;
        if a.kept() && b.kept() && !self.given_again(a) && !self.given_again(b) {
            // Rule 5. By rule 4 there would be a number for the function already.
            if let Some(number) = self.give_number([a, b], function) {
                self.text.extend(format!(":{number}").bytes());
                standing = self.standing(number);
            }
        }
        if word + 2 * half <= self.covered {
            self.released = self.text.len();
        }
        Some(standing)
    }

    /// The text of a part that is to be written now begins with a digit.
    fn begins_with_digit(&self, level: u32, function: Function) -> bool {
        let here = self.diagrams.node(function).level == level;
        function == CONSTANT || (here && self.number_of[function].is_some())
    }

    fn standing(&self, number: u64) -> Standing {
        let giving = self.slots[number as usize].givings;
        Standing::Number { number, giving }
    }

    fn given_again(&self, part: Standing) -> bool {
        part.number()
            .is_some_and(|number| self.standing(number) != part)
    }

    /// "1, 2, ... in turn up to the size; after that, the first in the queue that is not its own
    /// child".
    fn give_number(&mut self, children: [Standing; 2], function: Function) -> Option<u64> {
        let children = children.map(|child| child.number().unwrap_or(0));
        let number = if (self.slots.len() as u64) <= self.size {
            self.slots.push(Slot::default());
            self.slots.len() as u64 - 1
        } else {
            let mut queue = self.queue.values().copied();
            let number = queue.find(|number| !children.contains(number))?;
            self.release(number);
            number
        };
        for child in distinct(children) {
            self.leave(child);
            self.slots[child as usize].parents += 1;
        }
        self.number_of[function] = Some(number);
        let slot = &mut self.slots[number as usize];
        slot.function = function;
        slot.children = children;
        slot.givings += 1;
        self.join(number);
        Some(number)
    }

    /// "it leaves the queue; its old children lose a parent, first child first, and join the queue
    /// if they have none left".
    fn release(&mut self, number: u64) {
        self.leave(number);
        let Slot {
            function, children, ..
        } = self.slots[number as usize];
        self.number_of[function] = None;
        for child in distinct(children) {
            self.slots[child as usize].parents -= 1;
            if self.slots[child as usize].parents == 0 {
                self.join(child);
            }
        }
    }

    fn join(&mut self, number: u64) {
        self.joined += 1;
        self.queue.insert(self.joined, number);
        self.slots[number as usize].place = Some(self.joined);
    }

    fn leave(&mut self, number: u64) {
        if let Some(place) = self.slots[number as usize].place.take() {
            self.queue.remove(&place);
        }
    }
}

/// The children that are numbers, each once, the first first.
fn distinct([first, second]: [u64; 2]) -> impl Iterator<Item = u64> {
    let second = (second != first).then_some(second);
    let children = [Some(first), second].into_iter().flatten();
    children.filter(|&child| child != 0)
}
