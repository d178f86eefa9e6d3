//! Elements of a stream, one at a time (document 01, "The stream", "A stream that stops early"
//! and, for the reader of the firmware's engineers, "The written stream").
//!
//! The reader knows the shapes of a stream and nothing of option counts, levels or tables. It
//! finds cause 7, and cause 9 at a 33rd open bracket, and no other.

use crate::limits::MOST_OPEN;
use crate::refusal::Fault;

/// "An element is one of: opening, number, constant, turn, closing, storing, end."
///
/// The size with its LF is a number. Values saturate at the largest u64; such a number is above
/// every limit, so that nothing else depends on it.
#[derive(Clone, Copy, Debug, PartialEq, Eq)]
pub enum Element {
    Opening,
    Number(u64),
    Constant,
    Turn,
    Closing,
    Storing(u64),
    End,
}

/// The answer of one step.
#[derive(Clone, Copy, Debug, PartialEq, Eq)]
pub enum Step {
    /// An element; `at` is the place of its own first byte, after a space that belongs to it.
    Element { element: Element, at: usize },
    /// The bytes ran out before the next element was complete.
    RanOut,
    /// A fault of cause 7 or 9.
    Fault(Fault),
}

/// What the shapes of a stream allow next.
#[derive(Clone, Copy, Debug, PartialEq, Eq)]
enum Awaited {
    /// The size and its LF.
    Size,
    /// "an optional `~`, one node".
    TurnOrNode,
    /// A node and nothing else: after `(`, after a `~`.
    Node,
    /// A node has just ended. `digit`: its text ends in a digit. `storable`: it is a two-child
    /// node that has not been given a number, so that `:` may follow.
    AfterNode { digit: bool, storable: bool },
    /// The point was there, "as last byte".
    Nothing,
}

/// How far an open node has come.
#[derive(Clone, Copy, Debug, PartialEq, Eq)]
enum Child {
    First,
    Second,
}

/// "a rule's bytes with how far they have been read".
#[derive(Clone, Debug)]
pub struct Reader<'a> {
    bytes: &'a [u8],
    place: usize,
    awaited: Awaited,
    /// The open nodes, outermost first, each with the child that it is in.
    open: Vec<Child>,
}

const LF: u8 = b'\n';

impl<'a> Reader<'a> {
    pub fn new(bytes: &'a [u8]) -> Reader<'a> {
        Reader {
            bytes,
            place: 0,
            awaited: Awaited::Size,
            open: Vec::new(),
        }
    }

    /// Where the reader stands: the end of the last element given.
    pub fn place(&self) -> usize {
        self.place
    }

    /// A `:` is the next byte and the shapes allow it there.
    pub fn at_storing(&self) -> bool {
        let storable = matches!(self.awaited, Awaited::AfterNode { storable: true, .. });
        storable && self.byte(self.place) == Some(b':')
    }

    /// One element on. At a fault, or when the bytes run out, nothing moves: the next step says
    /// the same again.
    pub fn step(&mut self) -> Step {
        match self.awaited {
            Awaited::Size => self.step_size(),
            Awaited::TurnOrNode if self.byte(self.place) == Some(b'~') => {
                self.give(Element::Turn, self.place, self.place + 1, Awaited::Node)
            }
            Awaited::TurnOrNode | Awaited::Node => self.step_node(self.place),
            Awaited::AfterNode { digit, .. } => {
                if self.at_storing() {
                    return self.step_storing();
                }
                match self.open.last() {
                    None => self.step_after_outermost(),
                    Some(Child::First) => self.step_after_first(digit),
                    Some(Child::Second) => self.step_after_second(),
                }
            }
            Awaited::Nothing => match self.byte(self.place) {
                None => Step::RanOut,
                Some(_) => not_allowed(self.place),
            },
        }
    }

    fn byte(&self, place: usize) -> Option<u8> {
        self.bytes.get(place).copied()
    }

    /// Hand out an element that ends before `place`, and await what follows it.
    fn give(&mut self, element: Element, at: usize, place: usize, awaited: Awaited) -> Step {
        self.place = place;
        self.awaited = awaited;
        Step::Element { element, at }
    }

    /// The digits from `at` on: their value and the place after them. `at` holds 1 to 9.
    fn digits(&self, at: usize) -> (u64, usize) {
        let mut value: u64 = 0;
        let mut place = at;
        while let Some(byte @ b'0'..=b'9') = self.byte(place) {
            value = value
                .saturating_mul(10)
                .saturating_add(u64::from(byte - b'0'));
            place += 1;
        }
        (value, place)
    }

    /// "the size only when its LF does": an unfinished size is not an element yet.
    fn step_size(&mut self) -> Step {
        let (value, end) = match self.byte(0) {
            None => return Step::RanOut,
            Some(b'0') => (0, 1),
            Some(b'1'..=b'9') => self.digits(0),
            Some(_) => return not_allowed(0),
        };
        match self.byte(end) {
            None => Step::RanOut,
            Some(LF) => self.give(Element::Number(value), 0, end + 1, Awaited::TurnOrNode),
            Some(_) => not_allowed(end),
        }
    }

    /// The first element of a node that begins at `at`.
    fn step_node(&mut self, at: usize) -> Step {
        let after_digit = Awaited::AfterNode {
            digit: true,
            storable: false,
        };
        match self.byte(at) {
            None => Step::RanOut,
            Some(b'(') if self.open.len() == MOST_OPEN => Step::Fault(Fault { cause: 9, byte: at }),
            Some(b'(') => {
                self.open.push(Child::First);
                self.give(Element::Opening, at, at + 1, Awaited::Node)
            }
            // "a `0` that begins a node ... is complete with that digit".
            Some(b'0') => self.give(Element::Constant, at, at + 1, after_digit),
            Some(b'1'..=b'9') => {
                let (value, end) = self.digits(at);
                // "A number at its end is not yet read".
                if end == self.bytes.len() {
                    return Step::RanOut;
                }
                self.give(Element::Number(value), at, end, after_digit)
            }
            Some(_) => not_allowed(at),
        }
    }

    /// "a storing is `:` with its number".
    fn step_storing(&mut self) -> Step {
        let colon = self.place;
        let after_digit = Awaited::AfterNode {
            digit: true,
            storable: false,
        };
        match self.byte(colon + 1) {
            None => Step::RanOut,
            // "a `0` that begins ... a number to store is complete with that digit".
            Some(b'0') => self.give(Element::Storing(0), colon, colon + 2, after_digit),
            Some(b'1'..=b'9') => {
                let (value, end) = self.digits(colon + 1);
                if end == self.bytes.len() {
                    return Step::RanOut;
                }
                self.give(Element::Storing(value), colon, end, after_digit)
            }
            Some(_) => not_allowed(colon + 1),
        }
    }

    /// The outermost node has ended: only the point may follow.
    fn step_after_outermost(&mut self) -> Step {
        match self.byte(self.place) {
            None => Step::RanOut,
            Some(b'.') => self.give(Element::End, self.place, self.place + 1, Awaited::Nothing),
            Some(_) => not_allowed(self.place),
        }
    }

    /// A first child has ended: `)`, or `~`, or the second child, with "one space ... exactly
    /// when A's text ends in a digit and B's begins with one".
    fn step_after_first(&mut self, digit: bool) -> Step {
        let at = self.place;
        match self.byte(at) {
            None => Step::RanOut,
            Some(b')') => self.close(false),
            Some(b'~') => {
                let innermost = self.open.len() - 1;
                self.open[innermost] = Child::Second;
                self.give(Element::Turn, at, at + 1, Awaited::Node)
            }
            Some(b' ') if digit => match self.byte(at + 1) {
                None => Step::RanOut,
                Some(b'0'..=b'9') => self.step_second(at + 1),
                Some(_) => not_allowed(at + 1),
            },
            Some(b'(') => self.step_second(at),
            Some(b'0'..=b'9') if !digit => self.step_second(at),
            Some(_) => not_allowed(at),
        }
    }

    /// The first element of a second child without `~`. The open node is in its second child
    /// only once that element was given.
    fn step_second(&mut self, at: usize) -> Step {
        let parent = self.open.len() - 1;
        let step = self.step_node(at);
        if let Step::Element { .. } = step {
            self.open[parent] = Child::Second;
        }
        step
    }

    /// A second child has ended: only `)` may follow.
    fn step_after_second(&mut self) -> Step {
        match self.byte(self.place) {
            None => Step::RanOut,
            Some(b')') => self.close(true),
            Some(_) => not_allowed(self.place),
        }
    }

    /// A `)`; only a two-child node is "optionally followed by `:` and a number".
    fn close(&mut self, two_children: bool) -> Step {
        self.open.pop();
        let awaited = Awaited::AfterNode {
            digit: false,
            storable: two_children,
        };
        self.give(Element::Closing, self.place, self.place + 1, awaited)
    }
}

/// "Cause 7 is at the first byte that no stream of the shapes above could have there, numbers
/// and depth aside."
fn not_allowed(byte: usize) -> Step {
    Step::Fault(Fault { cause: 7, byte })
}
