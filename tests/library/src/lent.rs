//! Memory that is lent to a call: garbage in it and guards around it, which only the case decides.

use crate::case::{Call, Case};
use crate::foreign::{Bytes, Node, Nodes, Record, Stream, Table};
use walk::random::Random;

/// Guards on each side of a lent slice.
const GUARDS: usize = 4;

/// A lent slice with guards before and after it, and what it was.
pub struct Lent<T> {
    all: Vec<T>,
    was: Vec<T>,
    null: bool,
}

impl<T: Copy + PartialEq> Lent<T> {
    /// Lend what stands between the guards; an empty slice goes as a null pointer if `null`.
    fn new(all: Vec<T>, null: bool) -> Lent<T> {
        let (was, null) = (all.clone(), null && all.len() == 2 * GUARDS);
        Lent { all, was, null }
    }

    fn pointer(&mut self) -> *mut T {
        if self.null {
            return std::ptr::null_mut();
        }
        self.all[GUARDS..].as_mut_ptr()
    }

    pub fn length(&self) -> usize {
        self.all.len() - 2 * GUARDS
    }

    pub fn now(&self) -> &[T] {
        &self.all[GUARDS..self.all.len() - GUARDS]
    }

    pub fn was(&self) -> &[T] {
        &self.was[GUARDS..self.was.len() - GUARDS]
    }

    /// The guards are as they were.
    pub fn guarded(&self) -> bool {
        let end = self.all.len() - GUARDS;
        self.all[..GUARDS] == self.was[..GUARDS] && self.all[end..] == self.was[end..]
    }

    /// Guards and content are as they were.
    pub fn unchanged(&self) -> bool {
        self.all == self.was
    }
}

/// All that a case lends.
pub struct Memory {
    pub streams: [Lent<u8>; 2],
    pub truths: Lent<u8>,
    pub output: Lent<u8>,
    pub tables: [Lent<Record>; 2],
    pub nodes: Lent<Node>,
}

impl Memory {
    pub fn new(case: &Case) -> Memory {
        let mut random = Random::new(case.hash());
        let null = random.chance(1, 2);
        let mut lend = |bytes: &[u8]| Lent::new(between(&mut random, case, bytes), null);
        let streams = [lend(&case.stream), lend(case.second())];
        let truths = random.garbage(case.truths() + 2 * GUARDS);
        let mut cells = Cells::new(&mut random);
        let [first, second, nodes] = case.tables().map(|records| records + 2 * GUARDS);
        let tables = [first, second].map(|count| (0..count).map(|_| cells.record()).collect());
        let nodes = (0..nodes).map(|_| cells.record()).collect();
        let output = random.garbage(case.output() + 2 * GUARDS);
        Memory {
            streams,
            truths: Lent::new(truths, null),
            output: Lent::new(output, null),
            tables: tables.map(|table| Lent::new(table, null)),
            nodes: Lent::new(nodes, null),
        }
    }

    pub fn stream(&mut self) -> Stream {
        self.both_streams()[0]
    }

    pub fn both_streams(&mut self) -> [Stream; 2] {
        self.streams.each_mut().map(|stream| Stream {
            bytes: stream.pointer(),
            length: stream.length(),
        })
    }

    pub fn truths(&mut self) -> Bytes {
        Bytes {
            bytes: self.truths.pointer(),
            length: self.truths.length(),
        }
    }

    pub fn output(&mut self) -> Bytes {
        Bytes {
            bytes: self.output.pointer(),
            length: self.output.length(),
        }
    }

    pub fn table(&mut self) -> Table {
        self.both_tables()[0]
    }

    pub fn both_tables(&mut self) -> [Table; 2] {
        self.tables.each_mut().map(|table| Table {
            records: table.pointer(),
            length: table.length(),
        })
    }

    pub fn nodes(&mut self) -> Nodes {
        Nodes {
            records: self.nodes.pointer(),
            length: self.nodes.length(),
        }
    }
}

/// Bytes to be read between guards: bytes that could go on where a stream ends, so that reading past it shows;
/// beside a truth table that is any byte.
fn between(random: &mut Random, case: &Case, bytes: &[u8]) -> Vec<u8> {
    let writes = matches!(case.call, Call::Write { .. });
    let mut around = || match writes {
        true => random.byte(),
        false => random.pick(b"0123456789()~:. \n"),
    };
    let mut all: Vec<u8> = (0..GUARDS).map(|_| around()).collect();
    all.extend(bytes);
    all.extend((0..GUARDS).map(|_| around()));
    all
}

/// Garbage for records: anything, or all ones, or numbers that a table in use could have.
struct Cells {
    state: u64,
    mask: u32,
    least: u32,
}

impl Cells {
    fn new(random: &mut Random) -> Cells {
        let (mask, least) = random.pick(&[(u32::MAX, 0), (0, u32::MAX), (3, 0), (3, 1), (1, 0)]);
        let state = random.draw() | 1;
        Cells { state, mask, least }
    }

    fn record<const CELLS: usize>(&mut self) -> [u32; CELLS] {
        [(); CELLS].map(|()| {
            self.state ^= self.state << 13;
            self.state ^= self.state >> 7;
            self.state ^= self.state << 17;
            ((self.state >> 32) as u32 & self.mask).wrapping_add(self.least)
        })
    }
}
