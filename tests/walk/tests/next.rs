//! The next admitted word (document 02, R-1): its settled readings, and that trying words and
//! functions give the same.

use walk::calls::{next, Next};
use walk::generate::{constant_chain, shown, staircase};
use walk::limits::LEAST_RECORDS;
use walk::random::Random;
use walk::reading::read;
use walk::refusal::Refusal;
use walk::shapes::{cut, shaped, written};

fn asked(n: u64, text: &str, word: u64) -> Next {
    next(n, &shown(text), word, &mut vec![7; LEAST_RECORDS]).expect("taken")
}

#[test]
fn settled_readings() {
    assert_eq!(asked(1, "0/0", 0), Next::None);
    assert_eq!(asked(1, "0/(0", 0), Next::NotKnown);
    assert_eq!(asked(1, "0/(0 0", 0), Next::None);
    assert_eq!(asked(1, "0/~(0", 0), Next::Word(0));
    assert_eq!(asked(1, "0/~(0", 1), Next::NotKnown);
    let two_or_more = "4/((0(0~0):1):2(1~0):3):4.";
    let words = [3, 3, 3, 3, 5, 5, 6, 7];
    for (word, due) in (0..).zip(words) {
        assert_eq!(asked(3, two_or_more, word), Next::Word(due));
    }
    assert_eq!(asked(3, "4/((0(0~0):1):2", 3), Next::Word(3));
    assert_eq!(asked(3, "4/((0(0~0):1):2", 4), Next::NotKnown);
}

#[test]
fn refusals_in_order() {
    let (mut short, mut enough) = (vec![7; LEAST_RECORDS - 1], vec![7; LEAST_RECORDS + 100]);
    let call = |cause| Err(Refusal::of_call(cause));
    assert_eq!(next(33, b"x", 1 << 33, &mut short), call(1));
    assert_eq!(next(1, b"x", 2, &mut short), call(4));
    assert_eq!(next(1, b"x", 2, &mut enough), call(5));
    assert!(short.iter().chain(&enough).all(|&record| record == 7));
    // A fault behind the word counts.
    let refused = next(1, b"0\n(~0", 0, &mut enough).expect_err("refused");
    assert_eq!((refused.cause, refused.stream, refused.byte), (7, 1, 3));
    let refused = next(1, b"0\n~(0~0)x", 0, &mut enough).expect_err("refused");
    assert_eq!((refused.cause, refused.stream, refused.byte), (7, 1, 8));
    assert!(enough.iter().all(|&record| record == 0));
}

#[test]
fn words_and_functions() {
    let mut random = Random::new(21);
    let (mut words, mut none) = (0, 0);
    for _ in 0..2 * LEAST_RECORDS {
        let n = random.below(8) as u32;
        let stream = match random.below(3) {
            0 if n <= 5 => written(&mut random, n),
            _ => shaped(&mut random, n, None),
        };
        let stream = match random.below(2) {
            0 => cut(&mut random, stream),
            _ => stream,
        };
        let reading = read(n, &stream).expect("it has no fault");
        for word in 0..1 << n {
            let due = reading.next_by_words(word);
            assert_eq!(
                reading.next_by_functions(word),
                due,
                "{n} {stream:?} {word}"
            );
            match due {
                Some(_) => words += 1,
                None => none += 1,
            }
        }
    }
    assert!(words > 1000 && none > 1000, "{words} {none}");
}

/// With 32 options.
#[test]
fn many_options() {
    let all = 1u64 << 32;
    let chain = constant_chain(32, |_| false);
    assert_eq!(asked(32, &format!("32/{chain}."), 0), Next::None);
    assert_eq!(asked(32, &format!("32/~{chain}."), 5), Next::Word(5));
    // Odd counts of options are yes.
    let chain = constant_chain(32, |_| true);
    assert_eq!(asked(32, &format!("32/{chain}."), 3), Next::Word(4));
    assert_eq!(asked(32, &format!("32/{chain}."), all - 1), Next::None);
    assert_eq!(
        asked(32, &format!("32/{chain}."), all - 2),
        Next::Word(all - 2)
    );
    let last = String::from_utf8(staircase(0, 32)).expect("a text");
    assert_eq!(asked(32, &last, 0), Next::Word(all - 1));
}
