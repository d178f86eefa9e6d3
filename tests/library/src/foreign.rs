//! `include/rule.h` in Rust: the same types, field by field, and the calls.

use std::fmt::{Debug, Formatter};

/// Bytes that are lent to be read: a stream, or a truth table to write from.
#[derive(Clone, Copy)]
pub struct Stream {
    pub bytes: *const u8,
    pub length: usize,
}

/// Bytes that are lent to be written: a truth table to fill, or an output.
#[derive(Clone, Copy)]
pub struct Bytes {
    pub bytes: *mut u8,
    pub length: usize,
}

/// `rule_record`.
pub type Record = [u32; 8];

/// `rule_node`.
pub type Node = [u32; 12];

/// A work table that is lent.
#[derive(Clone, Copy)]
pub struct Table {
    pub records: *mut Record,
    pub length: usize,
}

/// A work table that is lent for writing.
#[derive(Clone, Copy)]
pub struct Nodes {
    pub records: *mut Node,
    pub length: usize,
}

/// `rule_checked`.
#[repr(C)]
#[derive(Clone, Copy, Debug, Default, PartialEq, Eq)]
pub struct Checked {
    pub cause: u32,
    pub stream: u32,
    pub byte: u64,
    pub covered: u64,
    pub size: u32,
    pub extent: u32,
}

/// `rule_decided`.
#[repr(C)]
#[derive(Clone, Copy, Debug, Default, PartialEq, Eq)]
pub struct Decided {
    pub cause: u32,
    pub stream: u32,
    pub byte: u64,
    pub verdict: u32,
    pub spare: u32,
}

/// `rule_found`.
#[repr(C)]
#[derive(Clone, Copy, Debug, Default, PartialEq, Eq)]
pub struct Found {
    pub cause: u32,
    pub stream: u32,
    pub byte: u64,
    pub word: u64,
    pub answer: u32,
    pub spare: u32,
}

/// `rule_filled`.
#[repr(C)]
#[derive(Clone, Copy, Debug, Default, PartialEq, Eq)]
pub struct Filled {
    pub cause: u32,
    pub stream: u32,
    pub byte: u64,
    pub covered: u64,
}

/// `rule_written`.
#[repr(C)]
#[derive(Clone, Copy, Debug, Default, PartialEq, Eq)]
pub struct Written {
    pub cause: u32,
    pub stream: u32,
    pub byte: u64,
    pub written: u64,
    pub covered: u64,
    pub ending: u32,
    pub spare: u32,
}

/// `rule_ref`.
#[repr(C)]
#[derive(Clone, Copy, PartialEq, Eq)]
pub struct Ref {
    number: u32,
    stamp: u32,
}

/// `rule_open`.
#[repr(C)]
#[derive(Clone, Copy, PartialEq, Eq)]
pub struct Open {
    first: Ref,
    second: bool,
    complement: bool,
}

impl Debug for Open {
    fn fmt(&self, formatter: &mut Formatter) -> std::fmt::Result {
        let Open {
            first: Ref { number, stamp },
            second,
            complement,
        } = self;
        write!(formatter, "{number}/{stamp}/{second}/{complement}")
    }
}

/// `rule_opens`.
#[repr(C)]
#[derive(Clone, Copy)]
pub struct Opens {
    nodes: [Open; 32],
    depth: usize,
}

/// `rule_place`.
#[repr(C)]
#[derive(Clone, Copy)]
pub struct Place {
    pub at: usize,
    context: u32,
    last: Ref,
    opens: Opens,
}

impl Place {
    /// The open nodes; entries behind them count for nothing.
    fn open(&self) -> &[Open] {
        &self.opens.nodes[..self.opens.nodes.len().min(self.opens.depth)]
    }
}

impl PartialEq for Place {
    fn eq(&self, other: &Place) -> bool {
        (self.at, self.context, self.last) == (other.at, other.context, other.last)
            && self.open() == other.open()
    }
}

impl Eq for Place {}

impl Debug for Place {
    fn fmt(&self, formatter: &mut Formatter) -> std::fmt::Result {
        let Place {
            at, context, last, ..
        } = self;
        let Ref { number, stamp } = last;
        let open = self.open();
        write!(
            formatter,
            "at {at}, context {context}, last {number} {stamp}, open {open:?}"
        )
    }
}

/// `rule_stepped`.
#[repr(C)]
#[derive(Clone, Copy, Debug, PartialEq, Eq)]
pub struct Stepped {
    pub outcome: u32,
    pub element: u32,
    pub number: u32,
    pub cause: u32,
    pub byte: usize,
    pub place: Place,
}

mod calls {
    use super::{Checked, Decided, Filled, Found, Node, Place, Record, Stepped, Written};

    extern "C" {
        pub fn rule_check(
            n: u32,
            stream: *const u8,
            stream_bytes: usize,
            table: *mut Record,
            records: usize,
        ) -> Checked;
        pub fn rule_decide(
            n: u32,
            stream: *const u8,
            stream_bytes: usize,
            word: u64,
            table: *mut Record,
            records: usize,
        ) -> Decided;
        pub fn rule_next(
            n: u32,
            stream: *const u8,
            stream_bytes: usize,
            word: u64,
            table: *mut Record,
            records: usize,
        ) -> Found;
        pub fn rule_fill(
            n: u32,
            stream: *const u8,
            stream_bytes: usize,
            truths: *mut u8,
            truth_bytes: usize,
            table: *mut Record,
            records: usize,
        ) -> Filled;
        pub fn rule_write(
            n: u32,
            size: u32,
            truths: *const u8,
            truth_bytes: usize,
            output: *mut u8,
            output_bytes: usize,
            table: *mut Node,
            records: usize,
        ) -> Written;
        pub fn rule_combine(
            n: u32,
            op: u32,
            size: u32,
            stream1: *const u8,
            stream1_bytes: usize,
            stream2: *const u8,
            stream2_bytes: usize,
            output: *mut u8,
            output_bytes: usize,
            table1: *mut Record,
            records1: usize,
            table2: *mut Record,
            records2: usize,
            table3: *mut Node,
            records3: usize,
        ) -> Written;
        pub fn rule_begin() -> Place;
        pub fn rule_step(place: Place, stream: *const u8, stream_bytes: usize) -> Stepped;
    }
}

/// # Safety
/// What is lent is there, and nothing else refers to it.
pub unsafe fn rule_check(n: u32, s: Stream, t: Table) -> Checked {
    calls::rule_check(n, s.bytes, s.length, t.records, t.length)
}

/// # Safety
/// What is lent is there, and nothing else refers to it.
pub unsafe fn rule_decide(n: u32, s: Stream, word: u64, t: Table) -> Decided {
    calls::rule_decide(n, s.bytes, s.length, word, t.records, t.length)
}

/// # Safety
/// What is lent is there, and nothing else refers to it.
pub unsafe fn rule_next(n: u32, s: Stream, word: u64, t: Table) -> Found {
    calls::rule_next(n, s.bytes, s.length, word, t.records, t.length)
}

/// # Safety
/// What is lent is there, and nothing else refers to it.
pub unsafe fn rule_fill(n: u32, s: Stream, v: Bytes, t: Table) -> Filled {
    calls::rule_fill(n, s.bytes, s.length, v.bytes, v.length, t.records, t.length)
}

/// # Safety
/// What is lent is there, and nothing else refers to it.
pub unsafe fn rule_write(n: u32, size: u32, v: Stream, o: Bytes, t: Nodes) -> Written {
    let (truths, output) = (v.bytes, o.bytes);
    calls::rule_write(
        n, size, truths, v.length, output, o.length, t.records, t.length,
    )
}

/// # Safety
/// What is lent is there, and nothing else refers to it.
pub unsafe fn rule_combine(
    [n, op, size]: [u32; 3],
    [x, y]: [Stream; 2],
    o: Bytes,
    [t1, t2]: [Table; 2],
    t3: Nodes,
) -> Written {
    calls::rule_combine(
        n, op, size, x.bytes, x.length, y.bytes, y.length, o.bytes, o.length, t1.records,
        t1.length, t2.records, t2.length, t3.records, t3.length,
    )
}

/// # Safety
/// None is needed.
pub unsafe fn rule_begin() -> Place {
    calls::rule_begin()
}

/// # Safety
/// The stream is there.
pub unsafe fn rule_step(place: Place, s: Stream) -> Stepped {
    calls::rule_step(place, s.bytes, s.length)
}

/// The sizes and offsets that `layout.c` finds in the header.
const _: () = {
    use std::mem::{offset_of, size_of};
    assert!(size_of::<Record>() == 32 && size_of::<Node>() == 48);
    assert!(size_of::<Checked>() == 32 && offset_of!(Checked, stream) == 4);
    assert!(offset_of!(Checked, byte) == 8 && offset_of!(Checked, covered) == 16);
    assert!(offset_of!(Checked, size) == 24 && offset_of!(Checked, extent) == 28);
    assert!(size_of::<Decided>() == 24 && offset_of!(Decided, stream) == 4);
    assert!(offset_of!(Decided, byte) == 8 && offset_of!(Decided, verdict) == 16);
    assert!(size_of::<Found>() == 32 && offset_of!(Found, stream) == 4);
    assert!(offset_of!(Found, byte) == 8 && offset_of!(Found, word) == 16);
    assert!(offset_of!(Found, answer) == 24 && offset_of!(Found, spare) == 28);
    assert!(size_of::<Filled>() == 24 && offset_of!(Filled, stream) == 4);
    assert!(offset_of!(Filled, byte) == 8 && offset_of!(Filled, covered) == 16);
    assert!(size_of::<Written>() == 40 && offset_of!(Written, stream) == 4);
    assert!(offset_of!(Written, byte) == 8 && offset_of!(Written, written) == 16);
    assert!(offset_of!(Written, covered) == 24 && offset_of!(Written, ending) == 32);
    assert!(offset_of!(Written, spare) == 36);
    assert!(size_of::<Place>() == 416 && offset_of!(Place, context) == 8);
    assert!(offset_of!(Place, last) == 12 && offset_of!(Place, opens) == 24);
    assert!(size_of::<Opens>() == 392 && offset_of!(Opens, depth) == 384);
    assert!(size_of::<Open>() == 12 && offset_of!(Open, second) == 8);
    assert!(size_of::<Stepped>() == 440 && offset_of!(Stepped, element) == 4);
    assert!(offset_of!(Stepped, number) == 8 && offset_of!(Stepped, cause) == 12);
    assert!(offset_of!(Stepped, byte) == 16 && offset_of!(Stepped, place) == 24);
};
