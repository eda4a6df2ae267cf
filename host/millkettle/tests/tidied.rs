//! The tidied pattern's rows, answers and refusals.
#![cfg(feature = "tidied")]

mod common;
use common::*;
use millkettle::{raw, Pattern};
use reference::compile::compile_tidied;
use reference::generate::{damaged_pattern, pattern, text};

const TIDIED: Compilers = Compilers { surface: raw::compile_tidied, reference: compile_tidied };

/// A tidied pattern's rows are those of the plain pattern beside it, whose groups are as many.
#[test]
fn each_law() {
    let laws = [
        // T1 and T2.
        ("a(?:)b", "ab"),
        ("a{1}b{1}?", "ab"),
        ("ab{0}", "a"),
        // T3 and T4.
        ("(?:)*a", "a"),
        ("(?:^)*a", "a"),
        ("(?:^)+a", "^a"),
        ("(?:$){2,}?", "$"),
        // T5, T9 and T10.
        ("(?:a*)*", "a*"),
        ("(?:a*?)*", "a*"),
        ("(?:a*?)*?", "a*?"),
        ("(?:a?)?", "a?"),
        ("(?:a??)??", "a??"),
        ("(?:a*)+", "a*"),
        ("(?:a{0,}){1,}", "a*"),
        ("(?:(?:a*)+)*", "a*"),
        // T6 and T7.
        ("a|b|a", "a|b"),
        ("a|[]|b", "a|b"),
        ("a[]b", "[]"),
        // T8.
        ("a|ab", "a(?:|b)"),
        ("x|ab|ac|b", "x|a(?:b|c)|b"),
        ("a(b)|a(c)", "a(?:(b)|(c))"),
        // No law.
        ("(?:a*)*?", "(?:a*)*?"),
        ("(?:a*?)+", "(?:a*?)+"),
        ("(?:a*)+?", "(?:a*)+?"),
        ("(?:a+)+", "(?:a+)+"),
        ("(?:a*){2,}", "(?:a*){2,}"),
        ("(?:(a)*)+", "(?:(a)*)+"),
        ("(a){1}", "(a){1}"),
        ("(?:a{2})|(?:a{2}?)", "a{2}|a{2}?"),
        ("[]*", "[]*"),
    ];
    for (pattern, alike) in laws {
        let tidied = Pattern::tidied(pattern.as_bytes()).unwrap();
        let plain = Pattern::new(alike.as_bytes()).unwrap();
        assert_eq!(tidied.code(), plain.code(), "{pattern} and {alike}");
    }
}

#[test]
fn refusals_are_those_of_the_plain_pattern() {
    let number =
        |pattern: &str| Pattern::tidied(pattern.as_bytes()).map_err(|error| error.number());
    assert_eq!(number("a**").map(|pattern| pattern.rows()), Err(6));
    assert_eq!(number("a{509}").map(|pattern| pattern.rows()), Err(15));
    // 15 is by the plain n, also where the tidied one is small; 16 by the tidied n.
    assert_eq!(number("(?:a{509}){0}b").map(|pattern| pattern.rows()), Ok(9));
    assert_eq!(number("(?:){1000}a[]").map(|pattern| pattern.rows()), Ok(9));
    assert_eq!(number("(?:(?:){1000}){2}").map(|pattern| pattern.rows()), Err(15));
    assert_eq!(raw::compile_tidied(b"a{100}", &mut [0; raw::CODE_BYTES]).number, 16);
    assert_eq!(number("a{100}").map(|pattern| pattern.rows()), Ok(208));
}

#[test]
fn tidied_patterns() {
    let (mut changed, mut refused) = (0, 0);
    rounds("tidied patterns", 10_000_000, 5_000, |random| {
        let bytes = if random.percent(80) { pattern(random) } else { damaged_pattern(random) };
        let length = if random.percent(80) { 4_656 } else { random.between(400, 1_200) };
        let lent = stale(random, length);
        let tidied = match TIDIED.alike(&bytes, lent) {
            Ok(tidied) => tidied,
            Err(_) => return refused += 1,
        };
        let plain = match (PLAIN.reference)(&bytes, usize::MAX, usize::MAX) {
            Ok(plain) => plain,
            Err(refusal) => panic!("{refusal:?}"),
        };
        assert!(tidied.n() <= plain.n() && tidied.groups() == plain.groups());
        changed += u32::from(tidied != plain);
        for _ in 0..2 {
            let text = text(random, &bytes);
            let start = random.below(text.len() + 1);
            for entry in ENTRIES {
                let (short, long) = (bytes_of(&tidied.words()), bytes_of(&plain.words()));
                let lent = stale(random, 128);
                let one = run_alike(entry, &short, &text, start, lent.clone());
                let two = run_alike(entry, &long, &text, start, lent);
                if let (Ok(one), Ok(two)) = (one, two) {
                    assert_eq!(one.spans, two.spans, "{}", bytes.escape_ascii());
                }
            }
        }
    });
    if whole_run() {
        assert!(changed > 1_000 && refused > 500, "{changed} {refused}");
    }
}
