//! The lines whose answers are known, the whole code of `a*`, and "Errors that look right".
#![cfg(feature = "tidied")]

mod common;
use common::{bytes_of, register_words, run_raw, second_raw, words_of};
use millkettle::{raw, words, Entry, Pattern};
use reference::fields::{Gate, Reading};
use reference::intake::CODE_WORDS;
use reference::lines::{lines, Answers, Line, Listed, Run};
use reference::refusal::{refuse, Refusal, CODE_TOO_SMALL, TABLE_TOO_SMALL};
use reference::rows::ROW_WORDS;

fn pattern(bytes: &str) -> Pattern {
    Pattern::new(bytes.as_bytes()).unwrap_or_else(|error| panic!("{error}"))
}

/// The spans of a run from 0, empty for none.
fn run(entry: Entry, bytes: &str, text: &str) -> Vec<i32> {
    let answer = pattern(bytes).run(entry, text.as_bytes(), 0).unwrap();
    answer.found.map_or(Vec::new(), |found| found.spans().to_vec())
}

fn matched(bytes: &str, text: &str) -> Vec<i32> {
    run(Entry::MatchAt, bytes, text)
}

fn searched(bytes: &str, text: &str) -> Vec<i32> {
    run(Entry::Search, bytes, text)
}

const NONE: [i32; 0] = [];

/// The surface, on bytes.
struct Surface;

impl Answers for Surface {
    fn compile(&self, pattern: &[u8], tidied: bool) -> Result<Vec<u32>, Refusal> {
        let compile = if tidied { raw::compile_tidied } else { raw::compile };
        let mut code = [0; raw::CODE_BYTES];
        let compiled = compile(pattern, &mut code);
        if compiled.number != 0 {
            return refuse(compiled.number, compiled.place);
        }
        Ok(words_of(&code))
    }

    fn run(&self, code: &[u32], on: Run, registers: &mut [i32; 4]) -> Result<(bool, u64), Refusal> {
        let mut lent = bytes_of(&register_words(registers));
        let ran = run_raw(on.entry, &bytes_of(code), on.text, on.start, &mut lent);
        for (register, word) in registers.iter_mut().zip(words_of(&lent)) {
            *register = word as i32;
        }
        if ran.number != 0 {
            return refuse(ran.number, ran.place);
        }
        Ok((ran.found == 1, ran.count))
    }

    fn list(&self, code: &[u32], text: &[u8], start: usize, list: &mut [i32]) -> Listed {
        let mut workspace = vec![5; words::workspace_words(code[0], code[1])];
        let listed = words::search_all(code, text, start, list, &mut workspace);
        if listed.number != 0 {
            return Err((Refusal { number: listed.number, place: listed.place }, listed.needed));
        }
        Ok((listed.matches, listed.count))
    }

    fn number(&self, text: &[u8], start: i32, end: i32) -> Result<Reading, Refusal> {
        let read = raw::read_field(text, start, end);
        if read.number != 0 {
            return refuse(read.number, read.place);
        }
        Ok(Reading { value: read.value, decimals: read.decimals })
    }

    fn passes(&self, gate: Gate, value: f64) -> Result<bool, Refusal> {
        let (low, high) = match gate {
            Gate::AtMost(limit) => (f64::NEG_INFINITY, limit),
            Gate::AtLeast(limit) => (limit, f64::INFINITY),
            Gate::Between(low, high) => (low, high),
        };
        let passed = raw::pass(low, high, value);
        if passed.number != 0 {
            return refuse(passed.number, passed.place);
        }
        Ok(passed.passes == 1)
    }

    fn second(
        &self,
        code: &[u32],
        on: Run,
        registers: &mut [i32; 4],
    ) -> Result<(bool, u64), Refusal> {
        let mut workspace = vec![5; 4_096];
        let ran = second_raw(on.entry, code, on.text, on.start, registers, &mut workspace);
        if ran.number != 0 {
            return refuse(ran.number, ran.place);
        }
        Ok((ran.found == 1, ran.count))
    }
}

/// The refusal of what the surface has no room for: a pattern of more than 128 bytes, or code of
/// more than 96 rows.
fn beyond(line: &Line) -> Option<u32> {
    let rows = line.written.rsplit(": rows ").next().and_then(|rows| rows.parse().ok());
    if line.pattern().map_or(false, |pattern| pattern.len() > 128) {
        Some(TABLE_TOO_SMALL)
    } else if rows.map_or(false, |rows: usize| ROW_WORDS * (rows + 1) > CODE_WORDS) {
        Some(CODE_TOO_SMALL)
    } else {
        None
    }
}

#[test]
fn the_programs_questions() {
    let lines = lines();
    assert!(lines.len() > 60);
    for line in lines {
        let written = match beyond(&line) {
            Some(number) => format!("{}: refused {number} at 0", line.question),
            None => line.written.clone(),
        };
        assert_eq!(line.answered_by(&Surface), written);
    }
}

/// A row without a set: kind and operands.
fn row(kind: u32, first: u32, second: u32) -> [u32; 12] {
    [kind, first, second, 0, 0, 0, 0, 0, 0, 0, 0, 0]
}

#[test]
fn the_code_of_a_star_is_whole() {
    const ALL: u32 = u32::MAX;
    let expected = [
        [13, 0, 0, 0, 0, 0, 0, 0, 0, 0, 0, 0],
        row(4, 5, 1),
        row(8, 0, 0),
        row(7, 1, 0),
        [2, 0, 0, 0, ALL, ALL, ALL, ALL, ALL, ALL, ALL, ALL],
        row(9, 0, 0),
        row(5, 0, 0),
        row(4, 7, 11),
        row(8, 0, 0),
        row(7, 1, 0),
        // 61 hex: bit 1 of word 3.
        [2, 0, 0, 0, 0, 0, 0, 2, 0, 0, 0, 0],
        row(9, 6, 0),
        row(6, 0, 0),
        row(1, 0, 0),
    ];
    assert_eq!(words_of(pattern("a*").code()), expected.concat());
}

#[test]
fn sizes() {
    let sizes = [
        ("", 0),
        ("a", 1),
        ("^", 1),
        (r"\B", 1),
        ("[^a-z]", 1),
        ("(a)", 3),
        ("(?:a)", 1),
        ("abc", 3),
        ("a|b", 4),
        ("a|b|c", 7),
        ("a|", 3),
        ("a*", 5),
        ("a+", 7),
        ("a?", 5),
        ("a{3}", 6),
        ("a{0}", 0),
        ("a{0,0}", 0),
        ("a{3,}", 11),
        ("a{2,4}", 14),
        ("(?:){5}", 5),
        ("(?:a{2}){3}", 15),
        ("(a|b)*?", 10),
    ];
    for (bytes, size) in sizes {
        assert_eq!(pattern(bytes).rows(), 8 + size, "{bytes}");
    }
}

#[test]
fn groups_by_their_opening_parenthesis() {
    let nested = pattern("((a)(?:b))(c)");
    assert_eq!(nested.groups(), 3);
    let found = nested.search(b"xabc", 0).unwrap().unwrap();
    assert_eq!((found.start(), found.end()), (1, 4));
    let groups: Vec<_> = (0..=4).map(|group| found.group(group)).collect();
    assert_eq!(groups, [Some((1, 4)), Some((1, 3)), Some((1, 2)), Some((3, 4)), None]);
    let found = pattern("(a)|b").match_at(b"b", 0).unwrap().unwrap();
    assert_eq!((found.span(1), found.span(2)), (Some((-1, -1)), None));
}

#[test]
fn what_a_pattern_may_hold() {
    // `^` is position 0 of the text, whatever the start.
    assert_eq!(pattern("^a").search(b"aa", 1), Ok(None));
    assert_eq!(searched(r"\bb", "ab b"), [3, 4]);
    assert_eq!(searched(r"b\B", "b_b-b"), [0, 1]);
    assert_eq!(searched("a$", "ab a"), [3, 4]);
    assert_eq!(searched(".", "\r\n\u{0B}"), [2, 3]);
    assert_eq!(matched("a{01,002}", "aaa"), [0, 2]);
    assert_eq!(matched("a{1,2}?", "aaa"), [0, 1]);
    assert_eq!(searched(r"\s+", "x\t\n\u{0B}\u{0C}\r y"), [1, 7]);
    assert_eq!(matched(r"\f\n\r\t\v\cA\x61\0\/", "\u{0C}\n\r\t\u{0B}\u{01}a\0/"), [0, 9]);
    assert_eq!(matched("[]", "a"), NONE);
    assert_eq!(matched("[^]", "\n"), [0, 1]);
    assert_eq!(matched(r"[\b]", "\u{08}"), [0, 1]);
    assert_eq!(searched("[--a]+", ",-a`b"), [1, 4]);
    assert_eq!(searched("[a-]+", "b-ab"), [1, 3]);
    assert_eq!(
        pattern(r"\xff[\x80-\xfe]").search(b"\x7F\xFF\xFF\x80", 0).unwrap().unwrap().start(),
        2
    );
}

#[test]
fn errors_that_look_right() {
    // `r?` rewritten as `r` or empty.
    assert_eq!(matched("(?:a?)?b", "ab"), [0, 2]);
    // `(?:^)*` taken for `^`.
    assert_eq!(searched("(?:^)*b", "ab"), [1, 2]);
    assert_eq!(searched("^b", "ab"), NONE);
    // `(?:r*)*?` taken for `r*?`.
    assert_ne!(matched("(?:a*)*?(ab|b)", "aab"), matched("a*?(ab|b)", "aab"));
    // Queued threads dropped at Accept.
    assert_eq!(matched("ab|a", "ab"), [0, 2]);
    assert_eq!(matched("a*", "aaa"), [0, 3]);
    // Sixteen-bit positions.
    let text = ["x".repeat(70_000), "ab".to_string()].concat();
    assert_eq!(searched("a(b)", &text), [70_000, 70_002, 70_001, 70_002]);
}

#[test]
fn a_pattern_is_shared_between_threads() {
    let pattern = pattern("(a+)(b+)");
    std::thread::scope(|scope| {
        for length in 1..=4 {
            let pattern = &pattern;
            scope.spawn(move || {
                let text = ["a".repeat(length), "b".repeat(length)].concat();
                for _ in 0..100 {
                    let found = pattern.search(text.as_bytes(), 0).unwrap().unwrap();
                    assert_eq!(found.group(1), Some((0, length)));
                    assert_eq!(found.group(2), Some((length, 2 * length)));
                }
            });
        }
    });
}
