//! Document 01's own examples, its settled readings, and its "Plausible but false".

use walk::calls::{check, combine, decide, fill, write, Checked, Decision};
use walk::deciding::truth_table;
use walk::functions::nine_symmetric;
use walk::generate::{nested, shown, staircase, JOB, MARKED, PASSED_OVER};
use walk::join::join;
use walk::limits::{LEAST_RECORDS, MOST_SIZE};
use walk::reader::{Element, Reader, Step};
use walk::reading::read;
use walk::refusal::{Fault, Refusal};
use walk::run::{Ending, Written};
use walk::writing::write_words;

/// Whether a fault of this cause at this byte is found.
fn fault(n: u32, text: &str) -> (u64, usize) {
    let Fault { cause, byte } = read(n, &shown(text)).expect_err(text);
    (cause, byte)
}

/// Declared size, covered count, complete.
fn reads(n: u32, text: &str) -> (u64, u64, bool) {
    let reading = read(n, &shown(text)).expect(text);
    (reading.size, reading.covered, reading.complete)
}

/// The stream of a function, LF shown as `/`.
fn stream(n: u32, size: u64, decision: impl Fn(u64) -> bool) -> String {
    show(&write_words(n, size, decision).text)
}

fn show(bytes: &[u8]) -> String {
    String::from_utf8_lossy(bytes).replace('\n', "/")
}

/// A run with enough output: text, covered count, ending.
fn run(n: u64, operator: u64, size: u64, one: &str, two: &str) -> (String, u64, Ending) {
    let mut output = vec![1; 1000];
    let (one, two) = (shown(one), shown(two));
    let mut tables = [
        vec![7; LEAST_RECORDS],
        vec![7; LEAST_RECORDS],
        vec![7; LEAST_RECORDS],
    ];
    let [first, second, third] = &mut tables;
    let lent = [&mut first[..], &mut second[..], &mut third[..]];
    let written = combine(n, operator, size, [&one, &two], &mut output, lent).expect("taken");
    assert!(tables.concat().iter().all(|&record| record == 0));
    assert!(output[written.bytes..].iter().all(|&byte| byte == 1));
    let text = show(&output[..written.bytes]);
    (text, written.covered, written.ending)
}

fn join_shown(input: &str) -> String {
    String::from_utf8(join(&shown(input))).expect("text")
}

#[test]
fn marked_written() {
    let odd = |word: u64| word.count_ones() % 2 == 1;
    let two = |word: u64| word.count_ones() >= 2;
    assert_eq!(stream(0, 0, |_| false), MARKED[0].1);
    assert_eq!(stream(1, 1, |word| word == 1), MARKED[1].1);
    assert_eq!(stream(3, 3, odd), MARKED[2].1);
    for (row, size) in [(3, 4), (4, 2), (5, 1), (6, 0)] {
        assert_eq!(stream(3, size, two), MARKED[row].1);
        assert_eq!(reads(3, MARKED[row].1), (size, 8, true));
        let reading = read(3, &shown(MARKED[row].1)).expect("taken");
        assert!((0..8).all(|word| reading.decision(word) == two(word)));
    }
}

#[test]
fn marked_read() {
    assert_eq!(reads(3, MARKED[7].1), (4, 4, false));
    assert_eq!(fault(1, MARKED[8].1), (10, 3));
    assert_eq!(fault(2, MARKED[9].1), (13, 14));
    assert_eq!(fault(2, MARKED[10].1), (12, 10));
    assert_eq!(fault(1, MARKED[11].1), (9, 3));
}

#[test]
fn limits() {
    let mut table = vec![7; LEAST_RECORDS];
    let chain = nested(32, "0");
    let answer = check(32, &chain, &mut table).expect("taken");
    assert_eq!(answer.covered, 1 << 32);
    assert_eq!(check(33, &chain, &mut table), Err(Refusal::of_call(1)));
    let deeper = check(32, &nested(33, "0"), &mut table);
    let (cause, stream, byte) = (9, 1, 34);
    let bracket = Refusal {
        cause,
        stream,
        byte,
    };
    assert_eq!(deeper, Err(bracket));
    let stairs = staircase(0, 32);
    let last = (1 << 32) - 1;
    assert_eq!(decide(32, &stairs, last, &mut table), Ok(Decision::Yes));
    assert_eq!(decide(32, &stairs, last - 1, &mut table), Ok(Decision::No));
    let past = decide(32, &stairs, last + 1, &mut table);
    assert_eq!(past, Err(Refusal::of_call(5)));
    assert_eq!(reads(1, &format!("{MOST_SIZE}/0.")), (MOST_SIZE, 2, true));
    assert_eq!(fault(1, &format!("{}/0.", MOST_SIZE + 1)), (8, 0));
    let mut output = [0; 40];
    let taken = write(3, MOST_SIZE, &[0x96], &mut output, &mut table);
    assert!(taken.is_ok());
    let refused = write(3, MOST_SIZE + 1, &[0x96], &mut output, &mut table);
    assert_eq!(refused, Err(Refusal::of_call(3)));
    // Above what a machine number holds.
    assert_eq!(fault(1, "18446744073709551617/0."), (8, 0));
    assert_eq!(fault(1, "4/(18446744073709551617~0)."), (10, 3));
    assert_eq!(fault(1, "4/(0~0):18446744073709551617."), (13, 8));
}

/// What `examples/write.c` must print: both streams of "9sym", and what they come to.
const PRINTED: &str = include_str!("../../../examples/write.txt");

#[test]
fn nine_symmetric_at_10_and_24() {
    for size in [10, 24] {
        let whole = write_words(9, size, nine_symmetric);
        let (text, nodes) = (String::from_utf8_lossy(&whole.text), whole.nodes.len());
        assert!(PRINTED.contains(&format!("whole\n{text}\n{nodes} two-child nodes, ")));
        let reading = read(9, &whole.text).expect("taken");
        assert_eq!((reading.covered, reading.complete), (512, true));
        assert!((0..512).all(|word| reading.decision(word) == nine_symmetric(word)));
        if size == 24 {
            assert_eq!(whole.nodes.len(), 24);
            let colons = whole.text.iter().filter(|&&byte| byte == b':');
            assert_eq!(colons.count(), 24);
        } else {
            assert!(whole.nodes.len() > 24);
        }
    }
}

#[test]
fn example_of_join() {
    let answer = "4\n(((0~0):1)(1~0):2):3.\nwords 8 of 8 whole\n";
    assert_eq!(join_shown(JOB), answer);
    // Without the fifth LF.
    assert_eq!(join_shown(&JOB[..JOB.len() - 1]), answer);
    // P1 and P2 by way of join.
    let one = join_shown("0 AND 0/0/0./0/0./");
    assert_eq!(one, "0\n0.\nwords 1 of 1 whole\n");
    let two = join_shown("1 AND 1/1/(0~0):1./0/~0./");
    assert_eq!(two, "1\n(0~0):1.\nwords 2 of 2 whole\n");
}

#[test]
fn jobs() {
    let bad = "bad job\n";
    for line in [
        "3 or 4",
        "3 IMP 4",
        "03 OR 4",
        "3 OR 04",
        "00 OR 4",
        "3 OR 12345",
        "12345 OR 4",
        "3  OR 4",
        " 3 OR 4",
        "3 OR 4 ",
        "3 OR",
        "3 OR 4 5",
        "-3 OR 4",
        "",
        "3 OR 4\r",
    ] {
        assert_eq!(join_shown(&JOB.replace("3 OR 4", line)), bad, "{line}");
    }
    assert_eq!(join_shown(""), bad);
    assert_eq!(join_shown(&format!("{JOB}/")), bad);
    assert_eq!(join_shown(&format!("{JOB}0")), bad);
    assert_eq!(join_shown("3 OR 4/4/0./4"), bad);
    assert_eq!(join_shown("33 OR 4/////"), "refused 1 0 0\n");
    assert_eq!(join_shown("9999 OR 9999/////"), "refused 1 0 0\n");
    assert_eq!(
        join_shown(&format!("3 OR {}/////", MOST_SIZE + 1)),
        "refused 3 0 0\n"
    );
    assert_eq!(join_shown("3 OR 4/////"), "refused 7 1 0\n");
    assert_eq!(join_shown("3 OR 4////"), "refused 7 1 0\n");
    assert_eq!(join_shown("3 OR 4/4/0.///"), "refused 7 2 0\n");
    let ended = join_shown("3 OR 4/4/0./4/");
    assert_eq!(ended, "4\n\nwords 0 of 8 input ended\n");
    // At most 65,536 bytes.
    let long = |length: usize| {
        let mut input = shown("3 OR 4/4/0./4/0");
        input.resize(length, b'.');
        String::from_utf8(join(&input)).expect("text")
    };
    assert_eq!(long(65_536), "refused 7 2 4\n");
    assert_eq!(long(65_537), bad);
}

#[test]
fn output_full_in_join() {
    // Odd with 15 options at size 0 takes more than 65,536 bytes.
    let parity = stream(15, 15, |word| word.count_ones() % 2 == 1);
    let answer = join_shown(&format!("15 XOR 0/{parity}/0/0./"));
    assert!(answer.ends_with("\nwords 32768 of 32768 output full\n"));
    assert_eq!(answer.find("\nwords"), Some(65_536));
}

#[test]
fn storing_barred_at_once() {
    for text in ["1/((0~0)0):", "1/((0~0)0):x", "1/((0~0)0):1"] {
        assert_eq!(fault(2, text), (12, 10));
    }
    // Given out again since the first child was read.
    assert_eq!(fault(2, "1/((0~0):1(0 0):1):"), (12, 18));
    assert_eq!(fault(1, "1/(0~0):x"), (7, 8));
    assert_eq!(reads(1, "1/(0~0):"), (1, 2, false));
}

#[test]
fn bracket_stands_for_its_number() {
    assert_eq!(fault(3, "2/(((0~0):1)~0):1."), (13, 16));
    assert_eq!(reads(3, "2/(((0~0):1)~0):2."), (2, 8, true));
    assert_eq!(fault(2, "1/((0~0))."), (12, 8));
    assert_eq!(reads(2, "1/((0~0):1)."), (1, 4, true));
    // 2 is stored with child 1, so 1 is not given out; once 2 is given out again it is.
    assert_eq!(fault(3, "2/(((0~0):1 0):2(0(0 0):1))."), (13, 24));
    let text = "2/(((0~0):1 0):2((0 0):2(0 0):1)).";
    assert_eq!(reads(3, text), (2, 8, true));
}

#[test]
fn numbers_read_or_not() {
    assert_eq!(fault(1, "1/(1x"), (10, 3));
    assert_eq!(reads(1, "1/(1"), (1, 0, false));
    assert_eq!(fault(1, "2000x"), (7, 4));
    assert_eq!(fault(1, "02000/"), (7, 1));
    assert_eq!(reads(1, "2000"), (0, 0, false));
    assert_eq!(fault(1, "2000/"), (8, 0));
    assert_eq!(fault(1, "1/(0~0):01"), (13, 8));
    assert_eq!(fault(1, "1/(0~0):0"), (13, 8));
    assert_eq!(reads(1, "1/(0~0):2"), (1, 2, false));
    assert_eq!(fault(1, "1/(0~0):2."), (13, 8));
    assert_eq!(reads(1, ""), (0, 0, false));
    // At another level; given out again at the level where it is used.
    assert_eq!(fault(2, "1/((0~0):1(1 0))."), (11, 11));
    assert_eq!(fault(3, "1/(((0~0):1 0)1)."), (11, 14));
    assert_eq!(reads(3, "1/((0~0):1((0~0):1~1))."), (1, 8, true));
}

#[test]
fn spaces() {
    assert_eq!(fault(1, "0/(0 )"), (7, 5));
    assert_eq!(fault(1, "0/(0 ~0)."), (7, 5));
    assert_eq!(fault(2, "0/(0 (0~0))."), (7, 5));
    assert_eq!(fault(1, "0/(0  0)."), (7, 5));
    assert_eq!(fault(1, "0/(00)."), (7, 4));
    assert_eq!(fault(2, "0/((0~0) 0)."), (7, 8));
    assert_eq!(fault(1, "0/( 0~0)."), (7, 3));
    assert_eq!(fault(1, "0/(0~ 0)."), (7, 5));
    assert_eq!(reads(1, "0/(0 0)."), (0, 2, true));
    assert_eq!(reads(1, "0/(0 "), (0, 1, false));
    assert_eq!(reads(2, "0/((0~0)0)."), (0, 4, true));
}

#[test]
fn brackets_out_of_place() {
    assert_eq!(fault(0, "0/0("), (7, 3));
    assert_eq!(fault(1, "1/(0~0)("), (7, 7));
    assert_eq!(fault(1, "1/((0"), (9, 3));
    assert_eq!(fault(0, "0/("), (9, 2));
    assert_eq!(fault(0, "0/()"), (9, 2));
    assert_eq!(fault(1, "0/()"), (7, 3));
    assert_eq!(fault(1, "1/(0):1."), (7, 5));
    assert_eq!(fault(0, "0/0./"), (7, 4));
    assert_eq!(fault(0, "0/~~0."), (7, 3));
}

#[test]
fn covered_without_point() {
    assert_eq!(reads(0, "0/0"), (0, 1, false));
    let whole = ("0/0.".to_string(), 1, Ending::Whole);
    assert_eq!(run(0, 8, 0, "0/0", "0/0"), whole);
}

#[test]
fn refusals_in_order() {
    let mut truth = vec![9; 2];
    let mut short = vec![7; LEAST_RECORDS - 1];
    let mut enough = vec![7; LEAST_RECORDS + 100];
    let call = |cause| Refusal::of_call(cause);
    assert_eq!(check(33, b"x", &mut short), Err(call(1)));
    assert_eq!(check(32, b"x", &mut short), Err(call(4)));
    assert_eq!(decide(1, b"x", 2, &mut short), Err(call(4)));
    assert_eq!(decide(1, b"x", 2, &mut enough), Err(call(5)));
    assert_eq!(fill(2, b"x", &mut truth, &mut short), Err(call(1)));
    assert_eq!(fill(17, b"x", &mut truth, &mut short), Err(call(1)));
    assert_eq!(fill(3, b"x", &mut truth, &mut short), Err(call(4)));
    assert_eq!(fill(3, b"x", &mut truth, &mut enough), Err(call(6)));
    let mut output = [5; 9];
    let truth_of = |n, size, table: &mut [u64], output: &mut [u8]| {
        write(n, size, &[0; 2], output, table).expect_err("refused")
    };
    assert_eq!(truth_of(2, MOST_SIZE + 1, &mut short, &mut output), call(1));
    assert_eq!(truth_of(3, MOST_SIZE + 1, &mut short, &mut output), call(3));
    assert_eq!(truth_of(3, MOST_SIZE, &mut short, &mut output), call(4));
    assert_eq!(truth_of(3, MOST_SIZE, &mut enough, &mut output), call(6));
    // Left as they were so far.
    assert!(short.iter().chain(&enough).all(|&record| record == 7));
    assert_eq!((&truth[..], output), (&[9, 9][..], [5; 9]));
    // Past cause 6 all records are zero, those beyond the least number too; the truth table is left.
    let refused = fill(4, b"x", &mut truth, &mut enough);
    let (cause, stream, byte) = (7, 1, 0);
    assert_eq!(
        refused,
        Err(Refusal {
            cause,
            stream,
            byte
        })
    );
    assert!(enough.iter().all(|&record| record == 0));
    assert_eq!(truth, [9, 9]);
}

#[test]
fn refusals_of_combine_in_order() {
    let refusal = |n, operator, size, records: usize, one: &[u8], two: &[u8]| {
        let mut tables = [
            vec![7; LEAST_RECORDS],
            vec![7; records],
            vec![7; LEAST_RECORDS],
        ];
        let [first, second, third] = &mut tables;
        let lent = [&mut first[..], &mut second[..], &mut third[..]];
        let mut output = [5; 9];
        let refused = combine(n, operator, size, [one, two], &mut output, lent);
        let refused = refused.expect_err("refused");
        let left = if refused.cause <= 6 { 7 } else { 0 };
        assert!(tables.concat().iter().all(|&record| record == left));
        assert_eq!(output, [5; 9]);
        (refused.cause, refused.stream, refused.byte)
    };
    assert_eq!(refusal(33, 16, MOST_SIZE + 1, 9, b"x", b"y"), (1, 0, 0));
    assert_eq!(refusal(32, 16, MOST_SIZE + 1, 9, b"x", b"y"), (2, 0, 0));
    assert_eq!(refusal(32, 15, MOST_SIZE + 1, 9, b"x", b"y"), (3, 0, 0));
    assert_eq!(
        refusal(32, 15, MOST_SIZE, LEAST_RECORDS - 1, b"x", b"y"),
        (4, 0, 0)
    );
    assert_eq!(
        refusal(32, 15, MOST_SIZE, LEAST_RECORDS, b"0x", b"y"),
        (7, 1, 1)
    );
    assert_eq!(
        refusal(32, 15, MOST_SIZE, LEAST_RECORDS, b"0", b"y"),
        (7, 2, 0)
    );
    // Document 02, R-3: "A refusal in either stream is still given", also where it is not asked.
    assert_eq!(
        refusal(1, 3, 0, LEAST_RECORDS, b"0\n(0~0).", b"0\n)"),
        (7, 2, 2)
    );
}

#[test]
fn released_text() {
    let ended = |text: &str, covered| (text.to_string(), covered, Ending::InputEnded);
    // The `)` of an `(A)` around a written node is not released with it.
    let given = run(3, 12, 4, "1/(((0~0):1)", "0/0.");
    assert_eq!(given, ended("4/(((0~0):1", 4));
    // Without a two-child node there is no `~`.
    assert_eq!(run(3, 12, 4, "1/~((0", "0/0."), ended("4/", 2));
    let given = run(2, 12, 4, "1/~((0~0)", "0/0.");
    assert_eq!(given, ended("4/~((0~0):1", 2));
}

/// Document 02, R-3: "the covered count of a run is the least word that is not settled, or 2^n".
#[test]
fn settled_words() {
    let ended = |text: &str, covered| (text.to_string(), covered, Ending::InputEnded);
    let whole = |text: &str, covered| (text.to_string(), covered, Ending::Whole);
    // "With AND, a word that one rule refuses is settled though the other rule's transfer hasn't
    // come so far": of either rule.
    assert_eq!(run(2, 8, 4, "0/0.", "0/(0"), whole("4/0.", 4));
    assert_eq!(run(2, 8, 4, "", "0/0."), whole("4/0.", 4));
    assert_eq!(run(2, 8, 4, "0/(0~0).", ""), ended("4/", 2));
    assert_eq!(run(2, 8, 4, "", "0/(0~0)."), ended("4/", 2));
    // With OR a word that one rule admits.
    assert_eq!(run(2, 14, 4, "0/~0.", "0/(0"), whole("4/~0.", 4));
    assert_eq!(run(2, 14, 4, "0/0.", "0/(0"), ended("4/", 2));
    assert_eq!(run(2, 14, 4, "", "0/~(0~0)."), ended("4/", 2));
    // The text follows the count: words 2 to 5 are refused by the first rule alone.
    let (one, two) = ("1/(((0~0):1 0)(0~0)).", "1/(((0~0):1");
    assert_eq!(run(3, 8, 4, one, two), ended("4/(((0~0):1 0):2", 6));
    // "So operators 0 and 15 always cover everything".
    assert_eq!(run(2, 0, 0, "", ""), whole("0/0.", 4));
    assert_eq!(run(2, 15, 0, "", ""), whole("0/~0.", 4));
    // "NOT ignores stream 2's length".
    assert_eq!(run(1, 3, 1, "0/(0~0).", ""), whole("1/~(0~0):1.", 2));
    // "Inputs vary independently where they are not covered, also if they are the same bytes".
    assert_eq!(run(2, 6, 0, "0/(0", "0/(0"), ended("0/", 2));
    // "The covered count is the LEAST word that is not settled; later words that are settled do
    // not count."
    assert_eq!(run(2, 8, 0, "0/~((0~0)~0).", ""), ended("0/", 0));
}

#[test]
fn outputs() {
    let mut table = vec![7; LEAST_RECORDS];
    let text = shown(MARKED[4].1);
    for length in 0..=text.len() + 2 {
        let mut output = vec![170; length];
        let written = write(3, 2, &[0xe8], &mut output, &mut table).expect("taken");
        let bytes = length.min(text.len());
        let ending = if length < text.len() {
            Ending::OutputFull
        } else {
            Ending::Whole
        };
        let covered = 8;
        assert_eq!(
            written,
            Written {
                bytes,
                covered,
                ending
            }
        );
        assert_eq!(output[..bytes], text[..bytes]);
        assert!(output[bytes..].iter().all(|&byte| byte == 170));
    }
}

#[test]
fn truth_tables() {
    let mut table = vec![7; LEAST_RECORDS];
    let mut truth = [255];
    let cut = shown(MARKED[7].1);
    assert_eq!(fill(3, &cut, &mut truth, &mut table), Ok(4));
    assert_eq!(truth, [0b1000]);
    let whole = shown(MARKED[3].1);
    assert_eq!(fill(3, &whole, &mut truth, &mut table), Ok(8));
    assert_eq!(truth, [0xe8]);
    assert_eq!(truth_table(4, |word| word == 9), [0, 2]);
    let checked = check(3, &cut, &mut table);
    let (size, covered, complete) = (4, 4, false);
    assert_eq!(
        checked,
        Ok(Checked {
            size,
            covered,
            complete
        })
    );
    assert_eq!(decide(3, &cut, 3, &mut table), Ok(Decision::Yes));
    assert_eq!(decide(3, &cut, 4, &mut table), Ok(Decision::NotYet));
}

/// On reuse the old first child joins the queue, then the old second; then the new node's
/// children leave it.
#[test]
fn queue_order() {
    // Size 3. Words 0 to 7 store 1 at level 4, 2 at level 5 and 3 at level 3 with children 1 and
    // 2; the queue is 3. Then `(0 2)` takes 3: 1 and 2 join, 2 leaves, 3 joins: 1, 3. `(2~2)`
    // takes 1: 3, 1. The node of both is temporary. In words 16 to 31 `(0~0)` at level 4 is not
    // in the table any more and takes 3; the rest is that number again.
    let words = "00110101000101100011001100110011".as_bytes();
    let decision = |word: u64| words[word as usize] == b'1';
    let text = "3/((((0~0):1((0~0):2)):3((0 2):3(2~2):1))(((0~0):3))).";
    assert_eq!(stream(5, 3, decision), text);
    let reading = read(5, &shown(text)).expect("taken");
    assert!((0..32).all(|word| reading.decision(word) == decision(word)));
}

/// An old `(k~k)` puts k in the queue once, and a look-up moves nothing.
#[test]
fn queue_of_one_child() {
    // Size 2. `(0~0)` at level 4 is 1, `(1~1)` at level 3 is 2; the queue is 2. Level 2 has 2
    // twice with a `~` and is temporary, since only its own child waits. `(0~0)` at level 3 takes
    // 2: 1 joins, then 2: 1, 2. Looking it up moves nothing, and level 2 `(2~2)` takes 1.
    let words = "0110100100111100".as_bytes();
    let decision = |word: u64| words[word as usize] == b'1';
    let text = "2/((((0~0):1~1):2~2)((0~0):2~2):1).";
    assert_eq!(stream(4, 2, decision), text);
}

#[test]
fn alike_numbers_that_changed_hands() {
    // P5: both halves show 2; called alike they would lose half the words.
    assert_eq!(
        stream(3, 2, |word| word.count_ones() >= 2),
        "2/((0(0~0):1):2(1~0):2)."
    );
    let reading = read(3, &shown(MARKED[4].1)).expect("taken");
    let yes: Vec<u64> = (0..8).filter(|&word| reading.decision(word)).collect();
    assert_eq!(yes, [3, 5, 6, 7]);
}

#[test]
fn stream_2_is_not_passed_over() {
    let (n, one, two) = PASSED_OVER;
    // Stream 1 is no in the first half, where stream 2 stores 1.
    let (text, covered, ending) = run(n, 8, 2, one, two);
    assert_eq!((covered, ending), (4, Ending::Whole));
    assert_eq!(text, "2/(0(0~0):1):2.");
}

#[test]
fn no_number_to_a_parent_of_it() {
    // P6: the second part at level 2 has 1 as child, and 1 is all there is.
    assert_eq!(
        stream(3, 1, |word| word.count_ones() >= 2),
        "1/((0(0~0):1)(1~0))."
    );
}

#[test]
fn last_digits_of_a_cut_stream() {
    assert_eq!(reads(2, "12/((0~0):1"), (12, 2, false));
    assert_eq!(reads(2, "12/((0~0):12 1"), (12, 2, false));
    assert_eq!(reads(2, "12/((0~0):12 12"), (12, 2, false));
    assert_eq!(reads(2, "12/((0~0):12 12)"), (12, 4, false));
    assert_eq!(reads(2, "12/((0~0):12 0"), (12, 4, false));
}

/// All elements of a stream, then where and why the reader stops.
fn elements(text: &str) -> (Vec<Element>, Step, usize) {
    let bytes = shown(text);
    let mut reader = Reader::new(&bytes);
    let mut elements = Vec::new();
    loop {
        match reader.step() {
            Step::Element { element, .. } => elements.push(element),
            stop => {
                // It moves no further.
                let place = reader.place();
                assert_eq!(reader.step(), stop);
                assert_eq!(reader.place(), place);
                return (elements, stop, place);
            }
        }
    }
}

#[test]
fn reader_steps() {
    use Element::*;
    let seven = |byte| Step::Fault(Fault { cause: 7, byte });
    let head = [Number(2), Opening, Constant];
    assert_eq!(
        elements("2/~((0~0):1 12)."),
        (
            vec![
                Number(2),
                Turn,
                Opening,
                Opening,
                Constant,
                Turn,
                Constant,
                Closing,
                Storing(1),
                Number(12),
                Closing,
                End
            ],
            Step::RanOut,
            16
        )
    );
    assert_eq!(elements("2/(0 "), (head.to_vec(), Step::RanOut, 4));
    assert_eq!(elements("2/(0 )"), (head.to_vec(), seven(5), 4));
    assert_eq!(elements("2/(0 12"), (head.to_vec(), Step::RanOut, 4));
    assert_eq!(elements("0/0."), {
        (vec![Number(0), Constant, End], Step::RanOut, 4)
    });
    assert_eq!(elements("0/0.x"), {
        (vec![Number(0), Constant, End], seven(4), 4)
    });
    assert_eq!(elements("2000"), (vec![], Step::RanOut, 0));
    assert_eq!(elements("2000x"), (vec![], seven(4), 0));
    assert_eq!(elements("2000/"), (vec![Number(2000)], Step::RanOut, 5));
    let stored = [Number(1), Opening, Constant, Turn, Constant, Closing];
    assert_eq!(elements("1/(0~0):"), (stored.to_vec(), Step::RanOut, 7));
    assert_eq!(elements("1/(0~0):1"), (stored.to_vec(), Step::RanOut, 7));
    assert_eq!(elements("1/(0~0):x"), (stored.to_vec(), seven(8), 7));
    let zero = [&stored[..], &[Storing(0)]].concat();
    assert_eq!(elements("1/(0~0):0"), (zero.clone(), Step::RanOut, 9));
    assert_eq!(elements("1/(0~0):01"), (zero, seven(9), 9));
    // A 33rd open bracket.
    let deep = format!("1/{}", "(".repeat(33));
    let (given, stop, place) = elements(&deep);
    assert_eq!((given.len(), place), (33, 34));
    let (cause, byte) = (9, 34);
    assert_eq!(stop, Step::Fault(Fault { cause, byte }));
    // As a second child; and out of place as well.
    let deep = format!("1/{}0", "(".repeat(32));
    let nine = Step::Fault(Fault { cause, byte: 35 });
    assert_eq!(elements(&format!("{deep}(")).1, nine);
    assert_eq!(elements(&format!("{deep} (")).1, seven(36));
    assert_eq!(elements(&format!("{deep}~0(")).1, seven(37));
}
