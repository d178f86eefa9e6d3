//! The list of test cases for a seed: first those of document 01 and those that are always
//! there, then random ones until the count is reached.

use crate::case::Case;
use crate::deciding::truth_table;
use crate::functions::{busy_function, nine_symmetric, random_function};
use crate::join::{parse, OPERATORS};
use crate::limits::{LEAST_RECORDS, MOST_JOB, MOST_SIZE};
use crate::random::Random;
use crate::reading::read;
use crate::shapes::{cut, damaged, shaped, small_size, written};
use crate::writing::write_words;

/// At least `count` cases, the same for the same seed.
pub fn cases(seed: u64, count: usize) -> Vec<Case> {
    let mut draw = Draw {
        random: Random::new(seed),
        wide_left: 8 + count / 150,
    };
    let mut cases = paper_cases();
    cases.extend(settled_cases());
    cases.extend(limit_cases());
    cases.extend(order_cases());
    cases.extend(queue_cases());
    cases.extend(next_cases());
    cases.extend(alone_cases());
    cases.extend(job_cases());
    cases.extend(draw.every_cut());
    cases.extend(draw.every_output());
    cases.extend(draw.busy_tables());
    cases.push(draw.long_job());
    while cases.len() < count {
        let case = draw.case();
        if draw.fits(&case) {
            cases.push(case);
        }
    }
    cases
}

/// Document 01 shows LF as `/`.
pub fn shown(text: &str) -> Vec<u8> {
    text.replace('/', "\n").into_bytes()
}

/// P1 to P12: option count and stream ("Marked P").
pub const MARKED: [(u64, &str); 12] = [
    (0, "0/0."),
    (1, "1/(0~0):1."),
    (3, "3/(((0~0):1~1):2~2):3."),
    (3, "4/((0(0~0):1):2(1~0):3):4."),
    (3, "2/((0(0~0):1):2(1~0):2)."),
    (3, "1/((0(0~0):1)(1~0))."),
    (3, "0/((0(0~0))((0~0)~0))."),
    (3, "4/((0(0~0):1):2"),
    (1, "1/(1~0)."),
    (2, "1/((0~0):1 0):1."),
    (2, "1/((0~0)0):1."),
    (1, "1/((0~0):1)."),
];

/// The example of "Program".
pub const JOB: &str = "3 OR 4/4/(0(0~0):1):2./4/(((0~0):1))./";

/// The same, of which the second stream has come as far as four words.
const CUT_JOB: &str = "3 OR 4/4/(0(0~0):1):2./4/(((0~0):1)";

/// The readings of document 01 that are settled, and their neighbours: option count and stream.
pub const SETTLED: [(u64, &str); 60] = [
    // Cause 12 at a `:` waits for nothing.
    (2, "1/((0~0)0):"),
    (2, "1/((0~0)0):x"),
    (2, "1/((0~0)0):1"),
    (2, "1/((0~0)0):0"),
    (2, "1/((0~0):1(0~0):1):"),
    // `(A)` stands for A's number wherever children are meant.
    (3, "2/(((0~0):1)~0):1."),
    (3, "2/(((0~0):1)~0):2."),
    (3, "2/(((0~0):1)~0):3."),
    (3, "3/((((0~0):1)(1)):2(0~0):1)."),
    // A parent whose number was given out again no longer bars.
    (3, "2/(((0~0):1 0):2((0 0):2(0 0):1))."),
    (3, "2/(((0~0):1 0):2((0 0):1 0))."),
    (3, "2/(((0~0):1 0):2(0(0 0):1))."),
    // A number followed by any byte but a digit is read.
    (1, "1/(1x"),
    (1, "1/(1"),
    (1, "1/(1)"),
    (1, "1/(12"),
    (1, "1/(1.5"),
    // The size is read only with its LF.
    (1, ""),
    (1, "0"),
    (1, "4"),
    (1, "2000"),
    (1, "2000x"),
    (1, "2000/"),
    (1, "02000/"),
    (1, "00/"),
    (1, "/0."),
    (1, "~"),
    // A number to store.
    (1, "1/(0~0):01"),
    (1, "1/(0~0):0"),
    (1, "1/(0~0):"),
    (1, "1/(0~0):1"),
    (1, "1/(0~0):2"),
    (1, "1/(0~0):2."),
    (1, "1/(0~0):1x"),
    (1, "1/(0~0):x"),
    (1, "1/(0~0):1:1."),
    (1, "1/(0):1."),
    (1, "1/0:1."),
    // Spaces.
    (1, "0/(0 )"),
    (1, "0/(0 "),
    (1, "0/(0 0)."),
    (1, "0/(00)."),
    (1, "0/(0  0)."),
    (1, "0/(0 ~0)."),
    (1, "0/(0~ 0)."),
    (1, "0/( 0~0)."),
    (1, "0/ 0."),
    (1, "0/0 ."),
    (2, "0/((0~0) 0)."),
    (2, "0/((0~0)0)."),
    (2, "0/(0 (0~0))."),
    (2, "2/((0~0):1 0):2."),
    (2, "2/((0~0):1 1):2."),
    (2, "2/((0~0):1(0~0):2)."),
    // A bracket both out of place and too deep; a second point; a leading `~`.
    (1, "1/(0~0)("),
    (0, "0/0("),
    (0, "0/0.."),
    (0, "0/~~0."),
    (1, "1/~(0~0):1."),
    // All words covered but no point.
    (0, "0/0"),
];

/// Streams for which "Passing over stream 2's text where stream 1 already fixes the result" goes
/// wrong: the number used in the second half is stored in the first.
pub const PASSED_OVER: (u64, &str, &str) = (2, "0/(0~0).", "1/((0~0):1 1).");

/// A row of `count` brackets around a stream's node: `(A)` each.
pub fn nested(count: usize, node: &str) -> Vec<u8> {
    let (open, close) = ("(".repeat(count), ")".repeat(count));
    shown(&format!("1/{open}{node}{close}."))
}

/// `(0(0(0~0)...))`: `count` brackets, yes only for the last word.
pub fn staircase(size: u64, count: usize) -> Vec<u8> {
    let (open, close) = ("(0".repeat(count - 1), ")".repeat(count));
    shown(&format!("{size}/{open}(0~0{close}."))
}

fn check(n: u64, stream: Vec<u8>) -> Case {
    let records = LEAST_RECORDS;
    Case::Check { n, records, stream }
}

fn decide(n: u64, stream: Vec<u8>, word: u64) -> Case {
    Case::Decide {
        n,
        records: LEAST_RECORDS,
        stream,
        word,
    }
}

fn next(n: u64, stream: Vec<u8>, word: u64) -> Case {
    Case::Next {
        n,
        records: LEAST_RECORDS,
        stream,
        word,
    }
}

fn fill(n: u64, stream: Vec<u8>) -> Case {
    Case::Fill {
        n,
        records: LEAST_RECORDS,
        stream,
        truth: vec![85; (1 << n) / 8],
    }
}

fn write(n: u64, size: u64, truth: Vec<u8>, output: usize) -> Case {
    Case::Write {
        n,
        size,
        records: LEAST_RECORDS,
        truth,
        output: vec![170; output],
    }
}

fn combine(n: u64, operator: u64, size: u64, one: Vec<u8>, two: Vec<u8>, output: usize) -> Case {
    Case::Combine {
        n,
        operator,
        size,
        records: [LEAST_RECORDS; 3],
        streams: [one, two],
        output: vec![170; output],
    }
}

/// The examples of document 01.
fn paper_cases() -> Vec<Case> {
    let mut cases = Vec::new();
    for (n, text) in MARKED {
        let stream = shown(text);
        cases.push(check(n, stream.clone()));
        cases.push(Case::Reader {
            stream: stream.clone(),
        });
        for word in 0..=1 << n {
            cases.push(decide(n, stream.clone(), word));
            cases.push(next(n, stream.clone(), word));
        }
        // The first input by itself, written anew.
        for size in [0, 1, 2, 4] {
            let other = shown("0/0.");
            cases.push(combine(n, 12, size, stream.clone(), other, 40));
        }
        if n == 3 {
            cases.push(fill(n, stream));
        }
    }
    // P3, then P4 to P7.
    cases.push(write(3, 3, vec![0x96], 40));
    for size in [4, 2, 1, 0] {
        cases.push(write(3, size, vec![0xe8], 40));
    }
    // P1 and P2.
    cases.push(combine(0, 0, 0, shown("0/0."), shown("0/~0."), 10));
    cases.push(combine(
        1,
        6,
        1,
        shown("0/~(0~0)."),
        shown("1/(0~0):1."),
        10,
    ));
    // All operators.
    for operator in 0..=17 {
        let (one, two) = (shown("4/(0(0~0):1):2."), shown("4/(((0~0):1))."));
        cases.push(combine(3, operator, 4, one, two, 40));
        let (n, one, two) = PASSED_OVER;
        cases.push(combine(n, operator, 2, shown(one), shown(two), 30));
    }
    cases.push(Case::Join { input: shown(JOB) });
    for (name, _) in OPERATORS {
        let input = shown(&JOB.replace("OR", name));
        cases.push(Case::Join { input });
    }
    // "9sym" at sizes 10 and 24.
    let truth = truth_table(9, nine_symmetric);
    for size in [10, 24] {
        let text = write_words(9, size, nine_symmetric).text;
        cases.push(write(9, size, truth.clone(), text.len() + 3));
        cases.push(write(9, size, truth.clone(), 100));
        for word in [0, 6, 7, 63, 127, 448, 511] {
            cases.push(decide(9, text.clone(), word));
        }
        cases.push(check(9, text));
    }
    cases
}

/// The settled readings, by check, reader and decide.
fn settled_cases() -> Vec<Case> {
    let mut cases = Vec::new();
    for (n, text) in SETTLED {
        let stream = shown(text);
        cases.push(check(n, stream.clone()));
        cases.push(decide(n, stream.clone(), (1 << n) - 1));
        cases.push(next(n, stream.clone(), 0));
        cases.push(combine(n, 8, 2, shown("0/~0."), stream.clone(), 20));
        cases.push(Case::Reader { stream });
    }
    // A written node's words are those at the place where it is written.
    let other = shown("0/0.");
    cases.push(combine(3, 12, 4, shown("1/(((0~0):1)"), other.clone(), 20));
    cases.push(combine(3, 12, 4, shown("1/(((0~0):1))"), other.clone(), 20));
    // A cut text without a two-child node has no `~`.
    cases.push(combine(3, 12, 4, shown("1/~((0~"), other.clone(), 20));
    cases.push(combine(2, 12, 4, shown("1/~((0 0)0"), other, 20));
    cases
}

/// "n 32 taken, 33 refused", the largest size taken, one more refused, work tables, long digit strings.
fn limit_cases() -> Vec<Case> {
    let mut cases = Vec::new();
    for n in [16, 31, 32, 33] {
        for count in [16, 31, 32, 33] {
            let streams = [nested(count, "0"), staircase(0, count)];
            for stream in streams {
                cases.push(check(n, stream.clone()));
                let all = 1 << n.min(32);
                for word in [0, all - 1, all] {
                    cases.push(decide(n, stream.clone(), word));
                }
                for word in [all - 3, all - 1, all] {
                    cases.push(next(n, stream.clone(), word));
                }
                cases.push(combine(n, 8, 2, shown("0/0x"), stream.clone(), 9));
                cases.push(combine(n, 8, 2, stream, shown("0/0x"), 9));
            }
        }
    }
    for count in [30, 31, 32, 33, 34] {
        let stream = nested(count, "0");
        cases.push(Case::Reader { stream });
        let stream = staircase(0, count);
        cases.push(Case::Reader { stream });
    }
    for records in [
        0,
        1,
        LEAST_RECORDS - 1,
        LEAST_RECORDS,
        LEAST_RECORDS + 1,
        LEAST_RECORDS + 100,
    ] {
        let stream = shown("1/(0~0):1.");
        cases.push(Case::Check {
            n: 1,
            records,
            stream: stream.clone(),
        });
        cases.push(Case::Decide {
            n: 1,
            records,
            stream: stream.clone(),
            word: 2,
        });
        cases.push(Case::Next {
            n: 1,
            records,
            stream: stream.clone(),
            word: 1,
        });
        cases.push(Case::Fill {
            n: 3,
            records,
            stream: stream.clone(),
            truth: vec![85],
        });
        cases.push(Case::Write {
            n: 3,
            size: MOST_SIZE,
            records,
            truth: vec![0x96],
            output: vec![170; 30],
        });
        for table in 0..3 {
            let mut all = [LEAST_RECORDS; 3];
            all[table] = records;
            cases.push(Case::Combine {
                n: 1,
                operator: 6,
                size: MOST_SIZE,
                records: all,
                streams: [stream.clone(), stream.clone()],
                output: vec![170; 12],
            });
        }
    }
    let long = "1".repeat(30);
    let (most, above) = (MOST_SIZE, MOST_SIZE + 1);
    for text in [
        format!("{long}/0."),
        long.clone(),
        format!("1/({long}~0)."),
        format!("1/({long}"),
        format!("1/(0~0):{long}."),
        format!("1/(0~0):{long}"),
        "18446744073709551617/0.".to_string(),
        "4/(18446744073709551617~0).".to_string(),
        "4/(4294967297~0).".to_string(),
        format!("{most}/"),
        format!("{above}/x"),
        format!("{most}/(0~0):{most}."),
        format!("{most}/(0~0):{above}."),
    ] {
        cases.push(check(1, shown(&text)));
    }
    // Declared, by every call that reads, and to be written, by every call that writes.
    for size in [most - 1, most, above, 65536] {
        let stream = shown(&format!("{size}/(0~0):{size}."));
        let (none, some) = (shown("0/0."), shown("0/(0~0)."));
        cases.push(check(1, stream.clone()));
        cases.push(decide(1, stream.clone(), 1));
        cases.push(next(1, stream.clone(), 0));
        cases.push(fill(3, stream.clone()));
        cases.push(combine(1, 6, 2, stream.clone(), none.clone(), 20));
        cases.push(combine(1, 6, 2, none.clone(), stream.clone(), 20));
        cases.push(Case::Reader { stream });
        cases.push(write(3, size, vec![0x96], 30));
        cases.push(combine(1, 6, size, none, some, 20));
        for (written, declared) in [(size, 0), (2, size)] {
            let input = shown(&format!("1 XOR {written}/{declared}/(0~0)./0/0./"));
            cases.push(Case::Join { input });
        }
    }
    cases
}

/// Every set of causes 1 to 6 that a call can meet at once, with faulty streams, and every pair of
/// faulty streams: "Causes 1 to 6 are tested in that order where they apply, then all of stream 1,
/// then all of stream 2".
fn order_cases() -> Vec<Case> {
    let mut cases = Vec::new();
    let faulty = shown("0/x");
    for met in 0..64 {
        let meets = |cause: u64| (met >> (cause - 1)) & 1 == 1;
        let only = |causes: &[u64]| (1..=6).all(|cause| !meets(cause) || causes.contains(&cause));
        let n = if meets(1) { 33 } else { 3 };
        let truth_n = if meets(1) { 2 } else { 3 };
        let operator = if meets(2) { 16 } else { 6 };
        let size = MOST_SIZE + u64::from(meets(3));
        let records = LEAST_RECORDS - usize::from(meets(4));
        let word = if meets(5) { 1 << n } else { 0 };
        let truth = vec![85; if meets(6) { 2 } else { (1 << truth_n) / 8 }];
        let (stream, output) = (faulty.clone(), vec![170; 9]);
        if only(&[1, 4]) {
            let stream = stream.clone();
            cases.push(Case::Check { n, records, stream });
        }
        if only(&[1, 4, 5]) {
            cases.push(Case::Decide {
                n,
                records,
                stream: stream.clone(),
                word,
            });
            cases.push(Case::Next {
                n,
                records,
                stream: stream.clone(),
                word,
            });
        }
        if only(&[1, 4, 6]) {
            cases.push(Case::Fill {
                n: truth_n,
                records,
                stream: stream.clone(),
                truth: truth.clone(),
            });
        }
        if only(&[1, 3, 4, 6]) {
            cases.push(Case::Write {
                n: truth_n,
                size,
                records,
                truth,
                output: output.clone(),
            });
        }
        if only(&[1, 2, 3, 4]) {
            cases.push(Case::Combine {
                n,
                operator,
                size,
                records: [LEAST_RECORDS, records, LEAST_RECORDS],
                streams: [stream.clone(), stream],
                output,
            });
        }
    }
    let streams = ["1/(0~0):1.", "1/(0~", "0/x", "2000/", "1/(0~0):2."];
    for one in streams {
        for two in streams {
            cases.push(combine(1, 6, 1, shown(one), shown(two), 12));
        }
    }
    cases
}

/// Functions in which the order of the queue shows: option count, size to write, and the decisions
/// of all words, word 0 lowest.
pub const QUEUES: [(u64, u64, u32); 9] = [
    // Numbers 1 and 2 wait in this order.
    (4, 2, 44272),
    // The old children of a reused number both lose their last parent.
    (4, 4, 8264),
    // An old child joins the queue and leaves it again as a child of the new node.
    (4, 2, 8202),
    // A number that is found again stays where it is.
    (4, 3, 5004),
    (4, 3, 10312),
    (5, 2, 470_809_852),
    (5, 4, 4_062_187_487),
    (5, 5, 71_307_328),
    (5, 6, 25_173_120),
];

fn queue_cases() -> Vec<Case> {
    let case = |(n, size, truth): (u64, u64, u32)| {
        let bytes = (1 << n) / 8;
        write(n, size, truth.to_le_bytes()[..bytes].to_vec(), 70)
    };
    QUEUES.map(case).to_vec()
}

/// What document 02, R-1, is read as: "none" where all words are covered, also without a point.
/// Option count and stream, asked from each word.
pub const NEXT: [(u64, &str); 14] = [
    (1, "0/0"),
    (1, "0/(0"),
    (1, "0/(0 0"),
    (1, "0/~0"),
    (1, "0/~(0"),
    (1, "0/(0~0"),
    (0, "0/~0."),
    (2, "2/((0 0):1 1):2."),
    (2, "2/~((0 0):1 1):2."),
    (2, "2/((0 0):1~1):2."),
    (3, "2/(((0 0):1 1):2~2)."),
    (3, "2/((0(0~0):1):2(1~0):2)."),
    (3, "2/(((0~0):1 0):2((0 0):2(0 0):1))."),
    // A fault behind the answer.
    (3, "2/(((0~0):1 0):2~2):2."),
];

fn next_cases() -> Vec<Case> {
    let asked = |(n, text): (u64, &str)| {
        let stream = shown(text);
        (0..=1 << n).map(move |word| next(n, stream.clone(), word))
    };
    NEXT.into_iter().flat_map(asked).collect()
}

/// What document 02, R-3, is read as: option count and streams, with each operator.
pub const ALONE: [(u64, &str, &str); 12] = [
    // The same bytes, which vary independently where they are not covered.
    (2, "0/(0", "0/(0"),
    // Neither stream covers a word.
    (2, "", ""),
    // Stream 2 covers nothing, and is faulty.
    (1, "0/(0~0).", ""),
    (1, "0/(0~0).", "0/)"),
    // Constants beside cut streams.
    (2, "0/0.", "0/(0"),
    (2, "0/(0", "0/~0."),
    (2, "", "0/~(0~0)."),
    // Later words that are settled.
    (2, "0/~((0~0)~0).", ""),
    // The cut stream's end is inside a part that the other passes over.
    (3, "4/(0(0~0):1):2.", "4/(((0~0):1)"),
    (3, "1/(((0~0):1 0)(0~0)).", "1/(((0~0):1"),
    (3, "2/((0 (0~0):1)~0).", "2/(((0~0):1 0)"),
    // Both end, one before the other.
    (3, "1/(((0~0):1 0)(0", "1/((0~0"),
];

fn alone_cases() -> Vec<Case> {
    let operated = |(n, one, two): (u64, &str, &str)| {
        let (one, two) = (shown(one), shown(two));
        (0..16).map(move |op| combine(n, op, 2, one.clone(), two.clone(), 30))
    };
    let joined = OPERATORS.map(|(name, _)| Case::Join {
        input: shown(&CUT_JOB.replace("OR", name)),
    });
    ALONE.into_iter().flat_map(operated).chain(joined).collect()
}

/// `depth` stored nodes, each with the one before as both children: none of them changes a
/// decision. `turns` says for each whether its second child is turned, the innermost first.
pub fn constant_chain(depth: usize, turns: impl Fn(usize) -> bool) -> String {
    let mut text = "(".repeat(depth) + "0";
    for number in 0..depth {
        let between = if turns(number) { "~" } else { " " };
        text += &format!("{between}{number}):{}", number + 1);
    }
    text
}

/// Jobs: all first lines, all numbers of lines, the longest input and one byte more.
fn job_cases() -> Vec<Case> {
    let mut inputs: Vec<Vec<u8>> = Vec::new();
    let (_, rest) = JOB.split_once('/').expect("a job has lines");
    for line in first_lines(3, "OR", 4) {
        inputs.push([line.into_bytes(), shown("/"), shown(rest)].concat());
    }
    for text in [
        "",
        "/",
        "3 OR 4",
        "3 OR 4/4/(0(0~0):1):2./4",
        "3 OR 4/4/(0(0~0):1):2./4/",
        "3 OR 4/4/(0(0~0):1):2./4/(((0~0):1)).",
        "3 OR 4/4/(0(0~0):1):2./4/(((0~0):1))./",
        "3 OR 4/4/(0(0~0):1):2./4/(((0~0):1)).//",
        "3 OR 4/4/(0(0~0):1):2./4/(((0~0):1))./x",
        "3 OR 4/4/(0(0~0):1):2./4/(((0~0):1))./x/",
        "3 OR 4/4/(0(0~0):1):2./4/(((0~0):1)",
        "3 OR 4/4/(0(0~0):1/4/(((0~0):1)).",
        "3 OR 4////",
        "3 OR 4/////",
        "3 OR 4//////",
        "/3 OR 4/4/0./4/0.",
    ] {
        inputs.push(shown(text));
    }
    for length in [MOST_JOB, MOST_JOB + 1] {
        let (first, last) = (shown("3 OR 4/"), shown("//0/0./"));
        let fill = vec![b'x'; length - first.len() - last.len()];
        inputs.push([first, fill, last].concat());
    }
    let case = |input| Case::Join { input };
    inputs.into_iter().map(case).collect()
}

/// First lines that are malformed, or refused, or just allowed.
fn first_lines(n: u64, name: &str, size: u64) -> Vec<String> {
    let (lower, above) = (name.to_lowercase(), MOST_SIZE + 1);
    vec![
        format!("{n} {lower} {size}"),
        format!("{n} {name}X {size}"),
        format!("{n} IMP {size}"),
        format!("{n} N {size}"),
        format!("{n}  {size}"),
        format!("{n}  {name} {size}"),
        format!("{n} {name}  {size}"),
        format!(" {n} {name} {size}"),
        format!("{n} {name} {size} "),
        format!("{n} {name} {size} 1"),
        format!("{n} {name}"),
        format!("{n} {size} {name}"),
        format!("{name} {n} {size}"),
        format!("0{n} {name} {size}"),
        format!("{n} {name} 0{size}"),
        format!("00 {name} {size}"),
        format!("12345 {name} {size}"),
        format!("{n} {name} 10000"),
        format!("{n} {name} 9999"),
        format!("9999 {name} {size}"),
        format!("{n} {name} {above}"),
        format!("33 {name} {size}"),
        format!("33 {name} {above}"),
        format!("-{n} {name} {size}"),
        format!("+{n} {name} {size}"),
        format!("{n}\t{name}\t{size}"),
        format!("{n},{name},{size}"),
        format!("{n} {name} {size}\r"),
        format!("{n} {name} {size}."),
        format!("{n} {name} x"),
        format!("{n} 14 {size}"),
        format!("{n}{name}{size}"),
        String::new(),
    ]
}

/// Draws random cases.
struct Draw {
    random: Random,
    /// How many more answered cases may walk more than 2^5 words.
    wide_left: usize,
}

impl Draw {
    /// The case is small enough for those who compute it slowly.
    fn fits(&mut self, case: &Case) -> bool {
        let fits = case.longest() <= 300 && (case.walked() <= 5 || self.wide_left > 0);
        if !fits || case.walked() > 9 {
            return false;
        }
        if case.walked() > 5 {
            self.wide_left -= 1;
        }
        match case {
            Case::Reader { stream } => short_digits(stream),
            _ => true,
        }
    }

    fn case(&mut self) -> Case {
        match self.random.below(112) {
            0..=21 => self.check(),
            22..=37 => self.decide(),
            38..=49 => self.fill(),
            50..=62 => self.write(),
            63..=82 => self.combine(),
            83..=90 => self.reader(),
            91..=99 => self.join(),
            _ => self.next(),
        }
    }

    /// Option counts: 0 to 5 mostly.
    fn options(&mut self) -> u64 {
        match self.random.below(100) {
            0..=4 => 0,
            5..=11 => 1,
            12..=83 => 2 + self.random.below(4),
            84..=88 => 9,
            89..=91 => 16,
            92..=93 => 31,
            94..=97 => 32,
            _ => self.random.pick(&[33, 33, 34, 40, 64, 200]),
        }
    }

    fn records(&mut self) -> usize {
        if self.random.chance(9, 10) {
            LEAST_RECORDS
        } else {
            self.random
                .pick(&[0, LEAST_RECORDS - 1, LEAST_RECORDS + 1, LEAST_RECORDS + 100])
        }
    }

    fn size(&mut self) -> u64 {
        if self.random.chance(1, 25) {
            MOST_SIZE + 1 + self.random.below(3)
        } else {
            small_size(&mut self.random)
        }
    }

    /// A stream without a fault for an option count.
    fn valid(&mut self, n: u64) -> Vec<u8> {
        let n = n.min(32) as u32;
        if n <= 5 && self.random.chance(1, 2) {
            written(&mut self.random, n)
        } else {
            shaped(&mut self.random, n, None)
        }
    }

    /// A stream with one fault of one of causes 7 to 13.
    fn broken(&mut self, n: u64) -> Vec<u8> {
        let cause = self
            .random
            .pick(&[7, 8, 9, 9, 10, 10, 11, 11, 12, 12, 13, 13]);
        shaped(&mut self.random, n.min(32) as u32, Some(cause))
    }

    /// Any stream: valid, cut, with a fault, damaged, or meant for another option count.
    fn stream(&mut self, n: u64) -> Vec<u8> {
        match self.random.below(100) {
            0..=29 => self.valid(n),
            30..=43 => {
                let stream = self.valid(n);
                cut(&mut self.random, stream)
            }
            44..=83 => self.broken(n),
            84..=86 => {
                let stream = self.broken(n);
                cut(&mut self.random, stream)
            }
            87..=96 => {
                let stream = self.valid(n);
                damaged(&mut self.random, stream)
            }
            _ => {
                let other = self.random.below(6);
                self.valid(other)
            }
        }
    }

    fn check(&mut self) -> Case {
        let n = self.options();
        Case::Check {
            n,
            records: self.records(),
            stream: self.stream(n),
        }
    }

    /// Words below, at and past 2^n, and beside the covered count.
    fn decide(&mut self) -> Case {
        let n = self.options();
        let stream = self.stream(n);
        let options = n.min(32) as u32;
        let all = 1u64 << options;
        let covered = read(options, &stream).map_or(0, |reading| reading.covered);
        let word = match self.random.below(20) {
            0 => all,
            1 => all + 1 + self.random.below(all),
            2..=3 => all - 1,
            4..=7 => (covered + 1).saturating_sub(self.random.below(3)),
            8..=11 => self.random.below(covered),
            _ => self.random.below(all),
        };
        Case::Decide {
            n,
            records: self.records(),
            stream,
            word,
        }
    }

    /// Words mostly below 2^n and below the covered count.
    fn next(&mut self) -> Case {
        let n = self.options();
        let stream = self.stream(n);
        let options = n.min(32) as u32;
        let all = 1u64 << options;
        let covered = read(options, &stream).map_or(0, |reading| reading.covered);
        let word = match self.random.below(20) {
            0 => all,
            1..=2 => all - 1 - self.random.below(all.min(4)),
            3..=6 => (covered + 1).saturating_sub(self.random.below(4)),
            7..=15 => self.random.below(covered),
            _ => 0,
        };
        Case::Next {
            n,
            records: self.records(),
            stream,
            word,
        }
    }

    /// An option count for truth tables, 3 to 5 mostly.
    fn truth_options(&mut self) -> u64 {
        match self.random.below(100) {
            0..=89 => 3 + self.random.below(3),
            90..=93 => self.random.pick(&[6, 7, 9]),
            94..=95 => 16,
            _ => self.random.pick(&[0, 1, 2, 17, 32, 33]),
        }
    }

    /// The length of a truth table, now and then a wrong one.
    fn truth_length(&mut self, n: u64) -> usize {
        if !(3..=9).contains(&n) {
            return self.random.index(5);
        }
        let right = (1usize << n) / 8;
        match self.random.below(16) {
            0 => self.random.pick(&[0, right - 1, right + 1, 2 * right]),
            _ => right,
        }
    }

    fn fill(&mut self) -> Case {
        let n = self.truth_options();
        let length = self.truth_length(n);
        Case::Fill {
            n,
            records: self.records(),
            stream: self.stream(n),
            truth: self.random.garbage(length),
        }
    }

    fn write(&mut self) -> Case {
        let n = self.truth_options();
        let length = self.truth_length(n);
        let truth = if (3..=9).contains(&n) && length == (1 << n) / 8 {
            let function = random_function(&mut self.random, n as u32);
            truth_table(n as u32, |word| function[word as usize])
        } else {
            self.random.garbage(length)
        };
        let (size, records) = (self.size(), self.records());
        self.with_output(|output| Case::Write {
            n,
            size,
            records,
            truth: truth.clone(),
            output,
        })
    }

    fn combine(&mut self) -> Case {
        let n = self.options();
        let mut streams = [self.valid(n), self.valid(n)];
        for stream in &mut streams {
            match self.random.below(100) {
                0..=51 => {}
                52..=74 => *stream = cut(&mut self.random, stream.clone()),
                75..=96 => *stream = self.broken(n),
                _ => *stream = damaged(&mut self.random, stream.clone()),
            }
        }
        let operator = match self.random.below(40) {
            0 => self.random.pick(&[16, 17, 255]),
            _ => self.random.below(16),
        };
        let size = self.size();
        let mut records = [LEAST_RECORDS; 3];
        if self.random.chance(1, 8) {
            let table = self.random.index(3);
            records[table] = self.records();
        }
        self.with_output(|output| Case::Combine {
            n,
            operator,
            size,
            records,
            streams: streams.clone(),
            output,
        })
    }

    /// Lend an output of garbage: empty, too short, just short, exact, or longer than the text.
    fn with_output(&mut self, make: impl Fn(Vec<u8>) -> Case) -> Case {
        // What the text needs is seen with more output than any case has.
        let seen = make(vec![0; 4096]);
        let text = match seen.walked() {
            0..=9 => seen.expected(),
            _ => Vec::new(),
        };
        let text = match text[..] {
            [0, bytes, ..] => bytes as usize,
            _ => 20,
        };
        let length = match self.random.below(10) {
            0 => 0,
            1..=2 => self.random.index(text + 1),
            3 => text.saturating_sub(1),
            4 => text,
            _ => text + 1 + self.random.index(9),
        };
        // A long text is mostly clipped.
        let length = if length > 120 && self.random.chance(3, 4) {
            self.random.index(120)
        } else {
            length
        };
        let output = self.random.garbage(length);
        make(output)
    }

    fn reader(&mut self) -> Case {
        let n = self.options();
        let mut stream = self.stream(n);
        if self.random.chance(1, 12) {
            // Deeper than 32.
            let at = stream.iter().position(|&byte| byte == b'\n').unwrap_or(0) + 1;
            let count = 28 + self.random.index(8);
            let at = at.min(stream.len());
            stream.splice(at..at, vec![b'('; count]);
        }
        Case::Reader { stream }
    }

    fn join(&mut self) -> Case {
        let n = self.options();
        let (name, _) = self.random.pick(&OPERATORS);
        let size = self.size();
        let mut line = format!("{n} {name} {size}").into_bytes();
        let mut streams = [self.valid(n), self.valid(n)];
        for stream in &mut streams {
            match self.random.below(100) {
                0..=61 => {}
                62..=76 => *stream = cut(&mut self.random, stream.clone()),
                77..=96 => *stream = self.broken(n),
                _ => *stream = damaged(&mut self.random, stream.clone()),
            }
        }
        if self.random.chance(1, 5) {
            line = self.bad_line(n, name, size);
        }
        let mut input = line;
        for stream in streams {
            input.push(b'\n');
            input.extend(stream);
        }
        match self.random.below(20) {
            0..=9 => input.push(b'\n'),
            10 => input.extend(b"\n\n"),
            11 => input.extend(b"\n0"),
            12 => input = damaged(&mut self.random, input),
            13 if self.random.chance(1, 3) => input = cut(&mut self.random, input),
            _ => {}
        }
        Case::Join { input }
    }

    /// One of the first lines that are malformed, or refused, or just allowed.
    fn bad_line(&mut self, n: u64, name: &str, size: u64) -> Vec<u8> {
        let mut lines = first_lines(n, name, size);
        let chosen = self.random.index(lines.len());
        lines.swap_remove(chosen).into_bytes()
    }

    /// All cuts of some streams: check, reader, decide, and each input of combine.
    fn every_cut(&mut self) -> Vec<Case> {
        let mut cases = Vec::new();
        let mut streams: Vec<(u64, Vec<u8>)> = [3, 4, 9]
            .map(|row: usize| (MARKED[row].0, shown(MARKED[row].1)))
            .to_vec();
        for n in [2, 3, 4, 5] {
            for _ in 0..2 {
                let stream = shaped(&mut self.random, n as u32, None);
                streams.push((n, stream));
            }
        }
        streams.push((12, shown("12/~(0(0~0):10):11.")));
        for (n, stream) in streams {
            if stream.len() > 90 {
                continue;
            }
            for end in 0..=stream.len() {
                let cut = stream[..end].to_vec();
                cases.push(check(n, cut.clone()));
                cases.push(Case::Reader {
                    stream: cut.clone(),
                });
                let word = self.random.below(1 << n);
                cases.push(decide(n, cut.clone(), word));
                if n <= 5 {
                    cases.push(next(n, cut.clone(), 0));
                    cases.push(next(n, cut.clone(), word));
                    let operator = self.random.below(16);
                    let size = self.random.below(5);
                    let whole = stream.clone();
                    let (one, two) = if self.random.chance(1, 2) {
                        (cut, whole)
                    } else {
                        (whole, cut)
                    };
                    cases.push(combine(n, operator, size, one, two, 60));
                }
            }
        }
        cases
    }

    /// All output lengths for some texts.
    fn every_output(&mut self) -> Vec<Case> {
        let mut cases = Vec::new();
        for (size, truth) in [(2, 0xe8), (12, 0x17)] {
            for length in 0..=26 {
                cases.push(write(3, size, vec![truth], length));
                let (one, two) = (shown("4/(0(0~0):1):2."), shown("4/(((0~0):1)"));
                cases.push(combine(3, 14, size, one, two, length));
            }
        }
        cases
    }

    /// A job whose text has some hundred bytes.
    fn long_job(&mut self) -> Case {
        let function: Vec<bool> = (0..1 << 7).map(|_| self.random.chance(1, 2)).collect();
        let text = write_words(7, 40, |word| function[word as usize]).text;
        let input = [shown("7 NOT 0/"), text, shown("/0/0.")].concat();
        Case::Join { input }
    }

    /// Functions whose numbers are given out again and again, written from truth tables and as the
    /// XOR of two streams.
    fn busy_tables(&mut self) -> Vec<Case> {
        let mut cases = Vec::new();
        for turn in 0..64 {
            let (n, size) = (4 + self.random.below(2), 1 + self.random.below(6));
            let function = busy_function(&mut self.random, n as u32, size);
            let text = write_words(n as u32, size, |word| function[word as usize]).text;
            let output = text.len() + self.random.index(3);
            if turn % 4 > 0 {
                let truth = truth_table(n as u32, |word| function[word as usize]);
                cases.push(write(n, size, truth, output));
                continue;
            }
            let first = random_function(&mut self.random, n as u32);
            let second = |word: u64| first[word as usize] != function[word as usize];
            let one = write_words(n as u32, 9, |word| first[word as usize]).text;
            let two = write_words(n as u32, 3, second).text;
            cases.push(combine(n, 6, size, one, two, output));
        }
        cases
    }
}

impl Case {
    /// The length of the longest stream.
    fn longest(&self) -> usize {
        match self {
            Case::Check { stream, .. } | Case::Decide { stream, .. } => stream.len(),
            Case::Next { stream, .. } => stream.len(),
            Case::Fill { stream, .. } | Case::Reader { stream } => stream.len(),
            Case::Write { .. } => 0,
            Case::Combine { streams, .. } => streams[0].len().max(streams[1].len()),
            Case::Join { input } => input.len() / 2,
        }
    }

    /// The option count if the call walks all words: it fills, writes or combines and is not
    /// refused. Of the next admitted word as many options as the words to try have. Otherwise 0.
    fn walked(&self) -> u64 {
        let faulty = |n: u64, stream: &[u8]| n > 32 || read(n as u32, stream).is_err();
        let walks = |n: u64, walks: bool| if walks { n } else { 0 };
        match self {
            Case::Check { .. } | Case::Decide { .. } | Case::Reader { .. } => 0,
            Case::Fill {
                n, stream, truth, ..
            } => walks(*n, truth.len() == (1 << n) / 8 && !faulty(*n, stream)),
            Case::Write { n, truth, .. } => walks(*n, truth.len() == (1 << n) / 8),
            Case::Next {
                n, stream, word, ..
            } => match read((*n).min(32) as u32, stream) {
                Ok(reading) => {
                    let end = reading.next_admitted(*word).unwrap_or(reading.covered);
                    let tried = end.saturating_sub(*word);
                    u64::from(64 - tried.leading_zeros())
                }
                Err(_) => 0,
            },
            Case::Combine { n, streams, .. } => {
                walks(*n, streams.iter().all(|stream| !faulty(*n, stream)))
            }
            Case::Join { input } => parse(input).map_or(0, |job| {
                let faulty = job.streams.iter().any(|stream| faulty(job.n, stream));
                walks(job.n, !faulty)
            }),
        }
    }
}

/// No row of digits is longer than nine, so that the reader's values are small.
fn short_digits(stream: &[u8]) -> bool {
    let mut rows = stream.split(|byte| !byte.is_ascii_digit());
    rows.all(|row| row.len() <= 9)
}
