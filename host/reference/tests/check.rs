//! The code check (20) and the run's other refusals, both sides of each limit.

mod common;
use common::*;
use reference::rows::passes;
use reference::steps::{run, Entry, Lent, TEXT_LIMIT};

/// The words of a row.
fn row(kind: u32, first: u32, second: u32) -> Vec<u32> {
    let mut words = vec![kind, first, second];
    words.resize(12, 0);
    words
}

/// Code of n rows: `middle` as row 3, Begin elsewhere, `last` at the end.
fn code(n: u32, g: u32, middle: Vec<u32>, last: Vec<u32>) -> Vec<u32> {
    let mut words = vec![n, g];
    words.resize(12, 0);
    for number in 0..n {
        words.extend(match number {
            3 => middle.clone(),
            number if number + 1 == n => last.clone(),
            _ => row(8, 0, 0),
        });
    }
    words
}

/// Code of 8 rows and 2 groups with this row in it.
fn with(kind: u32, first: u32, second: u32) -> bool {
    passes(&code(8, 2, row(kind, first, second), row(1, 0, 0)))
}

/// Code of 8 rows with this row at its end, with an operand or without.
fn ending(kind: u32) -> bool {
    [0, 1].iter().any(|&first| passes(&code(8, 2, row(8, 0, 0), row(kind, first, 0))))
}

#[test]
fn kinds_and_operands() {
    const ANY: u32 = u32::MAX;
    assert!(!with(0, 0, 0) && !with(11, 0, 0) && !with(ANY, 0, 0));
    for kind in [1, 2, 8] {
        assert!(with(kind, 0, 0) && !with(kind, 1, 0) && !with(kind, 0, ANY));
    }
    for kind in [3, 5, 6, 9, 10] {
        assert!(with(kind, 1, 0) && !with(kind, 1, 1) && !with(kind, 1, ANY));
    }
    assert!(with(3, 7, 0) && !with(3, 8, 0) && !with(3, ANY, 0));
    assert!(with(4, 7, 7) && !with(4, 8, 0) && !with(4, 0, 8));
    assert!(with(5, 0, 0) && with(5, 2, 0) && !with(5, 3, 0));
    assert!(with(6, 0, 0) && with(6, 2, 0) && !with(6, 3, 0));
    assert!(with(7, 1, 0) && with(7, 1, 1) && with(7, 1, 2) && with(7, 2, 2));
    assert!(!with(7, 0, 0) && !with(7, 0, 1) && !with(7, 2, 1) && !with(7, 1, 3));
    assert!(!with(7, 2, 0) && !with(7, 3, 2) && !with(7, 3, 3));
    assert!(with(9, 7, 0) && !with(9, 8, 0));
    assert!(with(10, 0, 0) && with(10, 3, 0) && !with(10, 4, 0));
}

#[test]
fn the_last_row() {
    let may_be_last: Vec<u32> = (0..=11).filter(|&kind| ending(kind)).collect();
    assert_eq!(may_be_last, [1, 3, 4, 9]);
}

#[test]
fn header_and_length() {
    let accept = || row(1, 0, 0);
    let begin = || row(8, 0, 0);
    assert!(!passes(&[]) && !passes(&[8]) && !passes(&[8, 0]));
    assert!(!passes(&code(7, 0, begin(), accept())));
    assert!(passes(&code(8, 0, begin(), accept())));
    assert!(passes(&code(1_024, 0, begin(), accept())));
    assert!(!passes(&code(1_025, 0, begin(), accept())));
    assert!(passes(&code(8, 31, begin(), accept())));
    assert!(!passes(&code(8, 32, begin(), accept())));
    let mut whole = code(8, 0, begin(), accept());
    assert_eq!(whole.len(), 108);
    assert!(!passes(&whole[..107]));
    whole.push(99);
    assert!(passes(&whole));
    for huge in [u32::MAX, 0x8000_0008, 0x1555_5555] {
        whole[0] = huge;
        assert!(!passes(&whole));
    }
}

#[test]
fn unused_words_are_zero() {
    let words = code(8, 0, row(8, 0, 0), row(1, 0, 0));
    // The words that are used: n, g, and the kinds.
    let used = |word: usize| word < 2 || (word >= 12 && word % 12 == 0);
    for word in (0..words.len()).filter(|&word| !used(word)) {
        for stray in [1, 1 << 31] {
            let mut changed = words.clone();
            changed[word] = stray;
            assert!(!passes(&changed), "{word}");
        }
    }
    let consume = [2, 0, 0, 0, 0, 0, 0, 0, 0, 0, 0, 0];
    let mut empty_set = words.clone();
    empty_set[12..24].copy_from_slice(&consume);
    assert!(passes(&empty_set));
    for word in 13..16 {
        let mut changed = empty_set.clone();
        changed[word] = 1;
        assert!(!passes(&changed), "{word}");
    }
    // Words behind the rows are unread.
    assert!(passes(&[words, vec![7; 5]].concat()));
}

#[test]
fn refusals_in_order() {
    let code = program("(a)").words();
    let (registers, workspace) = (4, 16 * 11 * 3);
    let long = vec![b'b'; TEXT_LIMIT + 1];
    let number = |code: &[u32], text: &[u8], start, registers, workspace| {
        let lent = Lent { registers, workspace };
        let refusal = run(code, text, start, lent, Entry::Search).err();
        refusal.map_or(0, |refusal| {
            assert_eq!(refusal.place, 0);
            refusal.number
        })
    };
    assert_eq!(number(&code[1..], &long, TEXT_LIMIT + 2, 0, 0), 20);
    assert_eq!(number(&code, &long, TEXT_LIMIT + 2, 0, 0), 21);
    assert_eq!(number(&code, &long[1..], TEXT_LIMIT + 1, 0, 0), 22);
    assert_eq!(number(&code, &long[1..], TEXT_LIMIT, 0, 0), 23);
    assert_eq!(number(&code, b"", 0, registers - 1, 0), 23);
    assert_eq!(number(&code, b"", 0, registers, 0), 24);
    assert_eq!(number(&code, b"", 0, registers, workspace - 1), 24);
    assert_eq!(number(&code, b"", 0, registers, workspace), 0);
    assert_eq!(number(&code, b"", 1, registers, workspace), 22);
}

#[test]
fn the_longest_text() {
    let mut text = vec![b'b'; TEXT_LIMIT];
    text[TEXT_LIMIT - 1] = b'a';
    let spans = |pattern: &str, start| {
        let program = program(pattern);
        let lent = Lent { registers: 64, workspace: 16 * 1_024 * 33 };
        run(&program.words(), &text, start, lent, Entry::Search).unwrap().spans
    };
    let (start, end) = (TEXT_LIMIT as i32 - 1, TEXT_LIMIT as i32);
    // From near the end: the reference takes its time. The archive searches the whole of it.
    assert_eq!(spans("(a)$", TEXT_LIMIT - 70_000), Some(vec![start, end, start, end]));
    assert_eq!(spans("$", TEXT_LIMIT), Some(vec![end, end]));
    assert_eq!(spans("b*", TEXT_LIMIT - 70_000), Some(vec![end - 70_000, start]));
}

#[test]
fn other_passed_code_obeys_the_steps() {
    let lent = Lent { registers: 32, workspace: 16 * 8 * 17 };
    let answer = |code: &[u32], entry| {
        let answer = run(code, b"ab", 1, lent, entry).unwrap();
        (answer.spans, answer.count)
    };
    // Begins, then Accept: no register is written.
    let begins = code(8, 1, row(8, 0, 0), row(1, 0, 0));
    assert_eq!(answer(&begins, Entry::Search), (Some(vec![-1; 4]), 8));
    assert_eq!(answer(&begins, Entry::MatchAt), (Some(vec![-1; 4]), 3));
    // Row 3 jumps to itself: executed with the flag cleared, then dropped.
    let circle = code(8, 0, row(3, 3, 0), row(1, 0, 0));
    assert_eq!(answer(&circle, Entry::Search), (None, 4));
    // An Open without a Close leaves the end as it was.
    let opened = code(8, 1, row(5, 1, 0), row(1, 0, 0));
    assert_eq!(answer(&opened, Entry::Search), (Some(vec![-1, -1, 1, -1]), 8));
    // The last row jumps back to row 0: rows 1 to 7 have run with the flag
    // cleared, row 0 with both.
    let back = code(8, 0, row(8, 0, 0), row(3, 0, 0));
    assert_eq!(answer(&back, Entry::Search), (None, 9));
    // The same with End: the flag is cleared, so it does not go on.
    let ended = code(8, 0, row(8, 0, 0), row(9, 0, 0));
    assert_eq!(answer(&ended, Entry::Search), (None, 8));
}
