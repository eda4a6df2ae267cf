//! The matchers against one another, on random patterns, texts and code.

mod common;
use common::ROOM;
use reference::compile::{compile, compile_tidied};
use reference::generate::*;
use reference::matcher::{memory, standard};
use reference::reader::{read, Reading};
use reference::refusal::Refusal;
use reference::rows::{check, program, size, Program, Row, MATCH_ROW};
use reference::steps::{steps, Answer, Entry};
use reference::tidier::{find, tidy};

const ENTRIES: [Entry; 2] = [Entry::MatchAt, Entry::Search];

/// The steps' answer, when the search with memory agrees and the count is at
/// most 2n for each position.
fn answer(program: &Program, text: &[u8], start: usize, entry: Entry) -> Answer {
    let answer = steps(program, text, start, entry);
    let remembered = match entry {
        Entry::MatchAt => memory::match_at(program, text, start),
        Entry::Search => memory::search(program, text, start),
    };
    assert_eq!(remembered, answer.spans);
    let positions = (text.len() - start + 1) as u64;
    assert!(answer.count <= 2 * program.n() as u64 * positions);
    answer
}

/// The standard's answer, unless it takes too long.
fn by_standard(
    reading: &Reading,
    text: &[u8],
    start: usize,
    entry: Entry,
) -> Option<Option<Vec<i32>>> {
    match entry {
        Entry::MatchAt => standard::match_at(reading, text, start).ok(),
        Entry::Search => standard::search(reading, text, start).ok(),
    }
}

#[test]
fn three_matchers_and_the_tidied_pattern() {
    let mut random = Random::new(1);
    let (mut compared, mut found, mut changed) = (0, 0, 0);
    for _ in 0..4_000 {
        let bytes = pattern(&mut random);
        let reading = read(&bytes, ROOM).expect("a valid pattern");
        let plain = match compile(&bytes, ROOM, ROOM) {
            Ok(plain) => plain,
            _ => continue,
        };
        let tidied = compile_tidied(&bytes, ROOM, ROOM).expect("no more rows than the plain one");
        assert!(tidied.n() <= plain.n());
        assert_eq!(tidied.groups(), plain.groups());
        changed += u32::from(tidied != plain);
        for _ in 0..4 {
            let text = text(&mut random, &bytes);
            let start = if random.percent(50) { 0 } else { random.below(text.len() + 1) };
            for entry in ENTRIES {
                let context = || {
                    format!(
                        "{} on {} from {start} {entry:?}",
                        bytes.escape_ascii(),
                        text.escape_ascii()
                    )
                };
                let answer = answer(&plain, &text, start, entry);
                if let Some(expected) = by_standard(&reading, &text, start, entry) {
                    assert_eq!(answer.spans, expected, "{}", context());
                    compared += 1;
                    found += u32::from(expected.is_some());
                }
                let tidy = self::answer(&tidied, &text, start, entry);
                assert_eq!(tidy.spans, answer.spans, "tidied {}", context());
            }
        }
    }
    // The comparison is worth something.
    assert!(compared > 25_000 && found > 10_000 && changed > 1_000, "{compared} {found} {changed}");
}

#[test]
fn the_standards_matcher_gives_up() {
    for pattern in [
        "(?:(?:a*)*)*b",
        "((((((((a))))))*)*)*",
        "(?:a?){500}",
        "(a|aa)+$",
        "(?:(?:(?:){999}){999}){999}",
    ] {
        let reading = read(pattern.as_bytes(), ROOM).expect("a valid pattern");
        assert_eq!(standard::match_at(&reading, &[b'a'; 5_000], 0), Err(standard::GaveUp));
        assert_eq!(standard::search(&reading, &[b'a'; 5_000], 0), Err(standard::GaveUp));
    }
}

#[test]
fn long_texts() {
    let mut random = Random::new(2);
    for _ in 0..150 {
        let bytes = pattern(&mut random);
        let plain = match compile(&bytes, ROOM, ROOM) {
            Ok(plain) => plain,
            _ => continue,
        };
        let tidied = match compile_tidied(&bytes, ROOM, ROOM) {
            Ok(tidied) => tidied,
            _ => continue,
        };
        let text = long_text(&mut random, &bytes, 1_500);
        let start = random.below(text.len() + 1);
        for entry in ENTRIES {
            let one = answer(&plain, &text, start, entry);
            let two = answer(&tidied, &text, start, entry);
            assert_eq!(one.spans, two.spans, "{}", bytes.escape_ascii());
        }
    }
}

/// How many rows stand behind a Begin, up to and with its End, outside the
/// prefix.
fn inner_rows(program: &Program) -> usize {
    let mut open = 0usize;
    let mut inner = 0;
    for row in &program.rows()[MATCH_ROW as usize..] {
        inner += usize::from(open > 0);
        match row {
            Row::Begin => open += 1,
            Row::End(_) => open -= 1,
            _ => {}
        }
    }
    inner
}

/// At a position compiled code executes each row at most once, and inner rows
/// once more.
#[test]
fn compiled_code_keeps_within_its_bound() {
    let mut random = Random::new(7);
    let (mut straight, mut looped) = (0, 0);
    for _ in 0..3_000 {
        let bytes = pattern(&mut random);
        for program in [compile(&bytes, ROOM, ROOM), compile_tidied(&bytes, ROOM, ROOM)] {
            let program = match program {
                Ok(program) => program,
                _ => continue,
            };
            let inner = inner_rows(&program);
            *(if inner == 0 { &mut straight } else { &mut looped }) += 1;
            let text = text(&mut random, &bytes);
            let start = random.below(text.len() + 1);
            let positions = text.len() - start + 1;
            for entry in ENTRIES {
                let answer = answer(&program, &text, start, entry);
                let most = (program.n() + inner) * positions;
                assert!(answer.count <= most as u64, "{}", bytes.escape_ascii());
            }
        }
    }
    assert!(straight > 500 && looped > 500, "{straight} {looped}");
}

#[test]
fn tidying_ends_with_no_law_left() {
    let mut random = Random::new(3);
    for _ in 0..6_000 {
        let bytes = pattern(&mut random);
        let (tree, groups) = match read(&bytes, ROOM) {
            Ok(Reading { tree, groups }) => (tree, groups),
            _ => continue,
        };
        let tidied = tidy(tree.clone());
        assert_eq!(find(&tidied), None);
        assert!(size(&tidied) <= size(&tree), "{}", bytes.escape_ascii());
        assert_eq!(tidied.groups(), tree.groups());
        assert_eq!(tidied.groups().map_or(0, |(_, highest)| highest), groups);
    }
}

#[test]
fn damaged_patterns() {
    let mut random = Random::new(4);
    let mut numbers = [0; 17];
    for _ in 0..40_000 {
        let bytes = damaged_pattern(&mut random);
        match compile(&bytes, ROOM, ROOM) {
            Ok(program) => {
                let text = text(&mut random, &bytes);
                answer(&program, &text, 0, Entry::Search);
                numbers[0] += 1;
            }
            Err(Refusal { number, place }) => {
                assert!(place <= bytes.len());
                // What stands before the place was good so far: alone, it has
                // no refusal before its end. (A 16th `(` alone would be 14.)
                let after_parenthesis = number == 6 && bytes[..place].ends_with(b"(");
                if (4..=14).contains(&number) && !after_parenthesis {
                    let before = read(&bytes[..place], ROOM);
                    assert!(before.map_or_else(|refusal| refusal.place, |_| place) >= place);
                }
                numbers[number as usize] += 1;
            }
        }
    }
    // All kinds occur that random damage can bring about.
    for number in [0, 3, 4, 5, 6, 7, 9, 10, 11, 12, 14] {
        assert!(numbers[number] > 0, "{number}: {numbers:?}");
    }
}

#[test]
fn passed_code() {
    let mut random = Random::new(5);
    let mut found = 0;
    for _ in 0..6_000 {
        let words = code(&mut random);
        let program = check(&words).expect("code that passes");
        for _ in 0..2 {
            let text = text(&mut random, b"ab");
            let start = random.below(text.len() + 1);
            for entry in ENTRIES {
                found += u32::from(answer(&program, &text, start, entry).spans.is_some());
            }
        }
    }
    assert!(found > 2_000, "{found}");
}

#[test]
fn damaged_code_words() {
    let mut random = Random::new(6);
    let (mut passed, mut failed) = (0, 0);
    for _ in 0..20_000 {
        let words = damaged_code(&mut random);
        match check(&words) {
            None => failed += 1,
            Some(program) => {
                passed += 1;
                let text = text(&mut random, b"ab");
                answer(&program, &text, 0, Entry::Search);
                answer(&program, &text, 0, Entry::MatchAt);
                // Written again, it says the same.
                assert_eq!(check(&program.words()), Some(program));
            }
        }
    }
    assert!(passed > 2_000 && failed > 2_000, "{passed} {failed}");
}

#[test]
fn sizes_are_the_rows() {
    let mut random = Random::new(7);
    for _ in 0..3_000 {
        let bytes = pattern(&mut random);
        let (tree, groups) = match read(&bytes, ROOM) {
            Ok(Reading { tree, groups }) => (tree, groups),
            _ => continue,
        };
        match program(&tree, groups) {
            Ok(program) => {
                assert_eq!(program.n() as u64, 8 + size(&tree));
                assert_eq!(check(&program.words()), Some(program));
            }
            Err(refusal) => {
                assert!(8 + size(&tree) > 1_024);
                assert_eq!((refusal.number, refusal.place), (15, 0));
            }
        }
    }
}
