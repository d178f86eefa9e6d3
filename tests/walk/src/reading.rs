//! A stream read with an option count (document 01, "The stream", "A stream that stops early",
//! "Turned down" causes 7 to 13).
//!
//! Elements are taken in the order of the text. Each fault lies within the element that shows
//! it, so the first one met is the one at the lowest place.

use crate::limits::MOST_SIZE;
use crate::reader::{Element, Reader, Step};
use crate::refusal::Fault;
use crate::table::{Standing, Stored, Table};

/// A node of the parsed text, by its index in `Reading::nodes`.
pub type NodeId = usize;

/// The text as a tree. A cut stream leaves brackets that are not closed.
#[derive(Clone, Copy, Debug, PartialEq, Eq)]
pub enum Node {
    /// `0`.
    Constant,
    /// A number; `stored` is "the node last stored under it before that place in the text".
    Number { stored: NodeId },
    /// `(A)`, `(A B)`, `(A~B)`, or the beginning of one.
    Bracket {
        level: u32,
        first: Option<NodeId>,
        turn: bool,
        second: Option<NodeId>,
        closed: bool,
    },
}

/// What was read.
#[derive(Clone, Debug)]
pub struct Reading {
    pub options: u32,
    /// The declared size, 0 while it is unfinished.
    pub size: u64,
    /// The number of covered words.
    pub covered: u64,
    /// The point was read; otherwise the stream is cut.
    pub complete: bool,
    /// A leading `~`.
    pub turn: bool,
    pub outermost: Option<NodeId>,
    pub nodes: Vec<Node>,
}

/// Read a stream with option count `options`, which is at most 32.
pub fn read(options: u32, bytes: &[u8]) -> Result<Reading, Fault> {
    let mut state = State::new(options);
    let mut reader = Reader::new(bytes);
    // The size is read with its LF and is cause 8 at its first digit.
    match reader.step() {
        Step::Element {
            element: Element::Number(size),
            at,
        } => {
            if size > MOST_SIZE {
                return Err(Fault { cause: 8, byte: at });
            }
            state.reading.size = size;
        }
        Step::Element { .. } => unreachable!("a stream begins with its size"),
        Step::RanOut => return Ok(state.reading),
        Step::Fault(fault) => return Err(fault),
    }
    loop {
        // Cause 12 at a `:` is given as soon as the `:` is there, whatever follows it.
        if reader.at_storing() && state.storing_barred() {
            let byte = reader.place();
            return Err(Fault { cause: 12, byte });
        }
        match reader.step() {
            Step::Element { element, at } => state.take(element, at)?,
            Step::RanOut => return Ok(state.reading),
            Step::Fault(fault) => return Err(fault),
        }
    }
}

struct State {
    reading: Reading,
    /// What each node of `reading.nodes` stands as; open nodes are temporary so far.
    standings: Vec<Standing>,
    /// The open brackets, outermost first.
    open: Vec<NodeId>,
    /// The node that ended last.
    last: Option<NodeId>,
    table: Table,
    /// For each number the node that is stored under it.
    stored_nodes: Vec<Option<NodeId>>,
}

impl State {
    fn new(options: u32) -> State {
        State {
            reading: Reading {
                options,
                size: 0,
                covered: 0,
                complete: false,
                turn: false,
                outermost: None,
                nodes: Vec::new(),
            },
            standings: Vec::new(),
            open: Vec::new(),
            last: None,
            table: Table::new(),
            stored_nodes: Vec::new(),
        }
    }

    fn take(&mut self, element: Element, at: usize) -> Result<(), Fault> {
        match element {
            Element::Opening => self.take_opening(at),
            Element::Constant => {
                self.cover(self.open.len());
                self.begin(Node::Constant, Standing::Constant);
                Ok(())
            }
            Element::Number(number) => self.take_number(number, at),
            Element::Turn => {
                self.take_turn();
                Ok(())
            }
            Element::Closing => self.take_closing(at),
            Element::Storing(number) => self.take_storing(number, at + 1),
            Element::End => {
                self.reading.complete = true;
                Ok(())
            }
        }
    }

    /// The level of a node that begins now: "The outermost bracket is level 1, its children are
    /// at level 2, and so on."
    fn level(&self) -> u32 {
        u32::try_from(self.open.len()).expect("at most 32 nodes are open") + 1
    }

    /// Cause 9: bracket deeper than n.
    fn take_opening(&mut self, at: usize) -> Result<(), Fault> {
        let level = self.level();
        if level > self.reading.options {
            return Err(Fault { cause: 9, byte: at });
        }
        let bracket = Node::Bracket {
            level,
            first: None,
            turn: false,
            second: None,
            closed: false,
        };
        let id = self.begin(bracket, Standing::Temporary);
        self.open.push(id);
        Ok(())
    }

    /// Cause 10: number not in the table. Cause 11: number at another level.
    fn take_number(&mut self, number: u64, at: usize) -> Result<(), Fault> {
        let Some(stored) = self.table.get(number) else {
            let cause = 10;
            return Err(Fault { cause, byte: at });
        };
        if stored.level != self.level() {
            let cause = 11;
            return Err(Fault { cause, byte: at });
        }
        self.cover(self.open.len());
        let stored = self.stored_node(number);
        self.begin(Node::Number { stored }, self.table.standing(number));
        Ok(())
    }

    /// A `~`: the leading one, or that of the innermost open node.
    fn take_turn(&mut self) {
        match self.open.last() {
            None => self.reading.turn = true,
            Some(&id) => match &mut self.reading.nodes[id] {
                Node::Bracket { turn, .. } => *turn = true,
                _ => unreachable!("open nodes are brackets"),
            },
        }
    }

    /// A `)`. Of `(A)` it covers the second half, and it is cause 12 if A is temporary.
    fn take_closing(&mut self, at: usize) -> Result<(), Fault> {
        let id = self.open.pop().expect("the reader closes only open nodes");
        let Node::Bracket {
            first,
            second,
            closed,
            ..
        } = &mut self.reading.nodes[id]
        else {
            unreachable!("open nodes are brackets");
        };
        *closed = true;
        let first = first.expect("the reader closes no empty bracket");
        if second.is_none() {
            if !self.standings[first].kept() {
                let cause = 12;
                return Err(Fault { cause, byte: at });
            }
            self.standings[id] = self.standings[first];
            // The second half of a bracket is as large as a child of it.
            self.cover(self.open.len() + 1);
        }
        self.last = Some(id);
        Ok(())
    }

    /// The standings of both children of the two-child node that ended last.
    fn last_children(&self) -> (NodeId, Standing, Standing) {
        let id = self.last.expect("a `:` follows a node");
        match self.reading.nodes[id] {
            Node::Bracket {
                first: Some(first),
                second: Some(second),
                ..
            } => (id, self.standings[first], self.standings[second]),
            _ => unreachable!("a `:` follows a two-child node"),
        }
    }

    /// Cause 12 at a `:`: "A two-child node may be given a number only if both children are kept
    /// and no number of theirs has been given out again since they were read."
    fn storing_barred(&self) -> bool {
        let (_, first, second) = self.last_children();
        let barred = |child: Standing| !child.kept() || self.table.given_again(child);
        barred(first) || barred(second)
    }

    /// Cause 13: "number to store 0, above the size, a child of a stored node or its own child".
    fn take_storing(&mut self, number: u64, at: usize) -> Result<(), Fault> {
        let (id, first, second) = self.last_children();
        let own_child = first.number() == Some(number) || second.number() == Some(number);
        let above = number > self.reading.size;
        if number == 0 || above || self.table.is_child(number) || own_child {
            let cause = 13;
            return Err(Fault { cause, byte: at });
        }
        let Node::Bracket { level, turn, .. } = self.reading.nodes[id] else {
            unreachable!("a `:` follows a two-child node");
        };
        let node = Stored {
            level,
            first: first.number(),
            second: second.number(),
            turn,
        };
        self.standings[id] = self.table.put(number, node);
        let index = usize::try_from(number).expect("a number in the table is small");
        if self.stored_nodes.len() <= index {
            self.stored_nodes.resize(index + 1, None);
        }
        self.stored_nodes[index] = Some(id);
        Ok(())
    }

    fn stored_node(&self, number: u64) -> NodeId {
        let index = usize::try_from(number).expect("a number in the table is small");
        self.stored_nodes[index].expect("the number is in the table")
    }

    /// Put a node where it stands in the text: outermost, or the next child of the innermost
    /// open node.
    fn begin(&mut self, node: Node, standing: Standing) -> NodeId {
        let id = self.reading.nodes.len();
        self.reading.nodes.push(node);
        self.standings.push(standing);
        self.last = Some(id);
        match self.open.last() {
            None => self.reading.outermost = Some(id),
            Some(&parent) => match &mut self.reading.nodes[parent] {
                Node::Bracket { first, second, .. } => {
                    let child = if first.is_none() { first } else { second };
                    *child = Some(id);
                }
                _ => unreachable!("open nodes are brackets"),
            },
        }
        id
    }

    /// Words passed by a part inside `depth` brackets.
    fn cover(&mut self, depth: usize) {
        self.reading.covered += (1u64 << self.reading.options) >> depth;
    }
}
