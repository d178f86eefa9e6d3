//! Cases of combining whose answer is stated here: the examples of document 01 and its "Plausible but false", the
//! settled readings of document 02, R-3, and such with more words than can be walked.

use crate::case::{Call, Case};
use crate::combines::{combine, MOST};
use crate::compare::{combined, same, same_bytes, same_tables};
use crate::foreign::Written;
use crate::lent::Memory;
use walk::generate::{shown, staircase};

pub struct Stated {
    pub name: &'static str,
    pub case: Case,
    answer: Written,
    text: Vec<u8>,
}

impl Stated {
    /// The answer, all of the output and the work tables are as they are stated.
    pub fn holds(&self) -> Result<(), String> {
        let Call::Combine(of) = &self.case.call else {
            return Err("this is no case of combining".to_string());
        };
        let mut memory = Memory::new(&self.case);
        same(self.answer, combined(&self.case, of, &mut memory))?;
        let mut output = memory.output.was().to_vec();
        output[..self.text.len()].copy_from_slice(&self.text);
        same_bytes("output", &memory.output, &output)?;
        let zero = !(1..=4).contains(&self.answer.cause);
        same_tables(&memory, [zero; 3])
    }
}

/// All of them.
pub fn stated() -> Vec<Stated> {
    let mut all: Vec<Stated> = WRITTEN.into_iter().map(written).collect();
    all.extend(REFUSED.into_iter().map(refused));
    all.extend(last_numbers());
    all.extend(many_options());
    all
}

const WHOLE: u32 = 0;
const INPUT_ENDED: u32 = 1;
const OUTPUT_FULL: u32 = 2;

/// Name; n, operator, size; both streams; the text, covered words, ending. LF is shown as `/`. AND is 8, OR is 14, XOR
/// is 6; 12 gives stream 1's decisions and 10 stream 2's.
type Row = (
    &'static str,
    [u32; 3],
    [&'static str; 2],
    &'static str,
    u64,
    u32,
);

const WRITTEN: [Row; 33] = [
    ("P1", [0, 8, 0], ["0/0.", "0/0."], "0/0.", 1, WHOLE),
    (
        "P2",
        [1, 8, 1],
        ["1/(0~0):1.", "0/~0."],
        "1/(0~0):1.",
        2,
        WHOLE,
    ),
    (
        "P3, of option 1 and of the others",
        [3, 6, 3],
        ["0/(0~0).", "2/(((0~0):1~1):2)."],
        "3/(((0~0):1~1):2~2):3.",
        8,
        WHOLE,
    ),
    (
        "P4, of ab and c(a + b)",
        [3, 14, 4],
        ["0/(0(0~0)).", "1/((0(0~0):1)(1))."],
        "4/((0(0~0):1):2(1~0):3):4.",
        8,
        WHOLE,
    ),
    (
        "P5, of ab and c(a + b)",
        [3, 14, 2],
        ["0/(0(0~0)).", "1/((0(0~0):1)(1))."],
        "2/((0(0~0):1):2(1~0):2).",
        8,
        WHOLE,
    ),
    (
        "P6, of ab and c(a + b)",
        [3, 14, 1],
        ["0/(0(0~0)).", "1/((0(0~0):1)(1))."],
        "1/((0(0~0):1)(1~0)).",
        8,
        WHOLE,
    ),
    (
        "P7, of ab and c(a + b)",
        [3, 14, 0],
        ["0/(0(0~0)).", "1/((0(0~0):1)(1))."],
        "0/((0(0~0))((0~0)~0)).",
        8,
        WHOLE,
    ),
    (
        "P8",
        [3, 12, 4],
        ["4/((0(0~0):1):2", "0/0."],
        "4/((0(0~0):1):2",
        4,
        INPUT_ENDED,
    ),
    (
        "P8 as stream 2",
        [3, 10, 4],
        ["0/0.", "4/((0(0~0):1):2"],
        "4/((0(0~0):1):2",
        4,
        INPUT_ENDED,
    ),
    (
        "the example of the program",
        [3, 14, 4],
        ["4/(0(0~0):1):2.", "4/(((0~0):1))."],
        "4/(((0~0):1)(1~0):2):3.",
        8,
        WHOLE,
    ),
    (
        "false: two halves written as alike because they show one number (P5)",
        [3, 12, 2],
        ["4/((0(0~0):1):2(1~0):3):4.", "0/0."],
        "2/((0(0~0):1):2(1~0):2).",
        8,
        WHOLE,
    ),
    (
        "false: two halves read as alike because they show one number (P5)",
        [3, 12, 4],
        ["2/((0(0~0):1):2(1~0):2).", "0/0."],
        "4/((0(0~0):1):2(1~0):3):4.",
        8,
        WHOLE,
    ),
    (
        "false: two halves of stream 2 read as alike because they show one number (P5)",
        [3, 10, 4],
        ["0/0.", "2/((0(0~0):1):2(1~0):2)."],
        "4/((0(0~0):1):2(1~0):3):4.",
        8,
        WHOLE,
    ),
    (
        "false: passing over stream 2's text where stream 1 fixes the result",
        [2, 8, 2],
        ["0/(0~0).", "1/((0~0):1 1)."],
        "2/(0(0~0):1):2.",
        4,
        WHOLE,
    ),
    (
        "false: passing over stream 2's text where stream 1 fixes the result, by OR",
        [2, 14, 2],
        ["0/~(0~0).", "1/((0~0):1 1)."],
        "2/~(0~(0~0):1):2.",
        4,
        WHOLE,
    ),
    (
        "false: passing over stream 1's text where stream 2 fixes the result",
        [2, 8, 2],
        ["1/((0~0):1 1).", "0/(0~0)."],
        "2/(0(0~0):1):2.",
        4,
        WHOLE,
    ),
    (
        "false: reusing a number that the new node has as child (P6)",
        [3, 12, 1],
        ["4/((0(0~0):1):2(1~0):3):4.", "0/0."],
        "1/((0(0~0):1)(1~0)).",
        8,
        WHOLE,
    ),
    (
        "false: the last digits of a cut stream, some of a number's",
        [2, 12, 4],
        ["12/((0~0):12 1", "0/0."],
        "4/((0~0):1",
        2,
        INPUT_ENDED,
    ),
    (
        "false: the last digits of a cut stream, all of a number's",
        [2, 12, 4],
        ["12/((0~0):12 12", "0/0."],
        "4/((0~0):1",
        2,
        INPUT_ENDED,
    ),
    (
        "false: the last digits of a cut stream 2",
        [2, 10, 4],
        ["0/0.", "12/((0~0):12 12"],
        "4/((0~0):1",
        2,
        INPUT_ENDED,
    ),
    (
        "false: the last digits of a cut stream, a number to store",
        [1, 12, 1],
        ["1/(0~0):2", "0/0."],
        "1/(0~0):1.",
        2,
        WHOLE,
    ),
    (
        "false: the last digits of a cut stream, its size",
        [1, 12, 1],
        ["2000", "0/0."],
        "1/",
        0,
        INPUT_ENDED,
    ),
    (
        "the end of an outer bracket waits for its last word",
        [3, 12, 4],
        ["1/(((0~0):1)", "0/0."],
        "4/(((0~0):1",
        4,
        INPUT_ENDED,
    ),
    (
        "no turn without a node",
        [3, 12, 4],
        ["1/~((0~", "0/0."],
        "4/",
        2,
        INPUT_ENDED,
    ),
    (
        "R-3: the same bytes vary independently",
        [2, 6, 0],
        ["0/(0", "0/(0"],
        "0/",
        2,
        INPUT_ENDED,
    ),
    (
        "R-3: operator 0 asks nothing",
        [2, 0, 0],
        ["", ""],
        "0/0.",
        4,
        WHOLE,
    ),
    (
        "R-3: operator 15 asks nothing",
        [2, 15, 0],
        ["", ""],
        "0/~0.",
        4,
        WHOLE,
    ),
    (
        "R-3: NOT never waits for stream 2",
        [1, 3, 1],
        ["0/(0~0).", ""],
        "1/~(0~0):1.",
        2,
        WHOLE,
    ),
    (
        "R-3: AND, refused by stream 1",
        [2, 8, 4],
        ["0/(0~0).", ""],
        "4/",
        2,
        INPUT_ENDED,
    ),
    (
        "R-3: AND, refused by stream 2",
        [2, 8, 4],
        ["0/(0", "0/0."],
        "4/0.",
        4,
        WHOLE,
    ),
    (
        "R-3: OR, admitted by stream 2",
        [2, 14, 4],
        ["", "0/~(0~0)."],
        "4/",
        2,
        INPUT_ENDED,
    ),
    (
        "R-3: later words that are settled do not count",
        [2, 8, 0],
        ["0/~((0~0)~0).", ""],
        "0/",
        0,
        INPUT_ENDED,
    ),
    (
        "R-3: the text follows the count",
        [3, 8, 4],
        ["1/(((0~0):1 0)(0~0)).", "1/(((0~0):1"],
        "4/(((0~0):1 0):2",
        6,
        INPUT_ENDED,
    ),
];

/// Name; n, operator, size; both streams; cause, stream, byte.
type Refused = (&'static str, [u32; 3], [&'static str; 2], [u32; 3]);

const REFUSED: [Refused; 10] = [
    (
        "R-3: a fault in a stream that is not asked",
        [1, 3, 0],
        ["0/(0~0).", "0/)"],
        [7, 2, 2],
    ),
    ("33 options", [33, 16, MOST + 1], ["x", "x"], [1, 0, 0]),
    ("operator 16", [32, 16, MOST + 1], ["x", "x"], [2, 0, 0]),
    ("size too large", [32, 15, MOST + 1], ["x", "x"], [3, 0, 0]),
    ("P9", [1, 8, 1], ["1/(1~0).", "x"], [10, 1, 3]),
    (
        "P10 as stream 2",
        [2, 8, 1],
        ["0/0.", "1/((0~0):1 0):1."],
        [13, 2, 14],
    ),
    (
        "P11 as stream 2",
        [2, 8, 1],
        ["", "1/((0~0)0):1."],
        [12, 2, 10],
    ),
    ("P12", [1, 8, 1], ["1/((0~0):1).", ""], [9, 1, 3]),
    ("behind the point", [0, 8, 1], ["0/0..", "0/0.x"], [7, 1, 4]),
    (
        "behind the point of stream 2",
        [0, 8, 1],
        ["0/0.", "0/0./"],
        [7, 2, 4],
    ),
];

fn written((name, [n, op, size], streams, text, covered, ending): Row) -> Stated {
    let (streams, text) = (streams.map(shown), shown(text));
    let case = combine(n, op, size, streams, text.len() + 3);
    whole_answer(name, case, text, covered, ending)
}

fn refused((name, [n, op, size], streams, [cause, stream, byte]): Refused) -> Stated {
    let case = combine(n, op, size, streams.map(shown), 9);
    let byte = byte.into();
    Stated {
        name,
        case,
        answer: Written {
            cause,
            stream,
            byte,
            ..Written::default()
        },
        text: Vec::new(),
    }
}

fn whole_answer(
    name: &'static str,
    case: Case,
    text: Vec<u8>,
    covered: u64,
    ending: u32,
) -> Stated {
    Stated {
        name,
        case,
        answer: Written {
            written: text.len() as u64,
            covered,
            ending,
            ..Written::default()
        },
        text,
    }
}

/// The last number of the largest table, in either stream.
fn last_numbers() -> [Stated; 2] {
    let last = format!("{MOST}/((0~0):{MOST} {MOST}).");
    let state = |name, op, streams: [&str; 2]| {
        let text = shown(&format!("{MOST}/((0~0):1)."));
        let case = combine(2, op, MOST, streams.map(shown), text.len() + 3);
        whole_answer(name, case, text, 4, WHOLE)
    };
    [
        state("the last number of stream 1", 12, [&last, "0/0."]),
        state("the last number of stream 2", 10, ["0/0.", &last]),
    ]
}

/// With 32 options, where the word-by-word walk would not come to an end.
fn many_options() -> Vec<Stated> {
    let (no, yes) = (shown("0/0."), shown("0/~0."));
    let all = 1 << 32;
    let state = |name, [op, size]: [u32; 2], streams: [&[u8]; 2], text: Vec<u8>| {
        let case = combine(32, op, size, streams.map(<[u8]>::to_vec), text.len() + 3);
        whole_answer(name, case, text, all, WHOLE)
    };
    let odd = odd(32);
    let mut stated = vec![
        state("odd AND no", [8, 5], [&odd, &no], shown("5/0.")),
        state("no AND odd", [8, 5], [&no, &odd], shown("5/0.")),
        state("odd OR yes", [14, 5], [&odd, &yes], shown("5/~0.")),
        state("odd BUT yes", [4, 5], [&odd, &yes], shown("5/0.")),
        state(
            "no IMP odd, at the largest size",
            [11, MOST],
            [&no, &odd],
            shown(&format!("{MOST}/~0.")),
        ),
        state(
            "all set, at size 0",
            [12, 0],
            [&staircase(3, 32), &no],
            staircase(0, 32),
        ),
        state(
            "all set, at size 32",
            [8, 32],
            [&yes, &staircase(3, 32)],
            stored_staircase(),
        ),
    ];
    for length in [0, 1, 2, 3, 40, 300] {
        let case = combine(32, 6, 0, [odd.clone(), no.clone()], length);
        let mut text = shown("0/");
        odd_text(&mut text, 32, length);
        text.truncate(length);
        let name = "odd at size 0, to a short output";
        stated.push(whole_answer(name, case, text, all, OUTPUT_FULL));
    }
    stated
}

/// The stream of "an odd number of options set", every level stored.
fn odd(n: usize) -> Vec<u8> {
    let mut text = format!("{n}\n{}0~0):1", "(".repeat(n)).into_bytes();
    for number in 1..n {
        text.extend(format!("~{number}):{}", number + 1).bytes());
    }
    text.push(b'.');
    text
}

/// The text of the same at size 0, as far as so many bytes are needed.
fn odd_text(text: &mut Vec<u8>, options: u32, most: usize) {
    if text.len() >= most {
        return;
    }
    if options == 0 {
        text.push(b'0');
        return;
    }
    text.push(b'(');
    odd_text(text, options - 1, most);
    text.push(b'~');
    odd_text(text, options - 1, most);
    text.push(b')');
}

/// `(0(0(0~0):1):2)...` with 32 brackets: yes for the last word alone.
fn stored_staircase() -> Vec<u8> {
    let mut text = format!("32\n{}(0~0):1", "(0".repeat(31)).into_bytes();
    for number in 2..=32 {
        text.extend(format!("):{number}").bytes());
    }
    text.push(b'.');
    text
}
