//! What the tests share: a pattern's tree, refusal, rows and answers.
#![allow(dead_code)]

use reference::compile::compile;
use reference::matcher::{memory, standard};
use reference::node::Node;
use reference::reader::{read, Reading};
use reference::refusal::Refusal;
use reference::rows::Program;
use reference::steps::{steps, Answer, Entry};

/// Room for everything.
pub const ROOM: usize = usize::MAX;

/// A valid pattern's reading.
pub fn reading(pattern: &str) -> Reading {
    read(pattern.as_bytes(), ROOM).unwrap_or_else(|refusal| panic!("{pattern}: {refusal:?}"))
}

/// A valid pattern's tree.
pub fn tree(pattern: &str) -> Node {
    reading(pattern).tree
}

/// A refused pattern's number and place.
pub fn refused(pattern: &[u8]) -> (u32, usize) {
    match compile(pattern, ROOM, ROOM) {
        Ok(_) => panic!("{} is not refused", pattern.escape_ascii()),
        Err(Refusal { number, place }) => (number, place),
    }
}

/// A valid pattern's rows.
pub fn program(pattern: &str) -> Program {
    compile(pattern.as_bytes(), ROOM, ROOM)
        .unwrap_or_else(|refusal| panic!("{pattern}: {refusal:?}"))
}

/// The answer of the steps, when the two other matchers agree with it.
pub fn answer(pattern: &str, text: &[u8], start: usize, entry: Entry) -> Answer {
    let reading = reading(pattern);
    let program = program(pattern);
    let answer = steps(&program, text, start, entry);
    let (remembered, plain) = match entry {
        Entry::MatchAt => {
            (memory::match_at(&program, text, start), standard::match_at(&reading, text, start))
        }
        Entry::Search => {
            (memory::search(&program, text, start), standard::search(&reading, text, start))
        }
    };
    assert_eq!(remembered, answer.spans, "{pattern} with memory");
    if let Ok(plain) = plain {
        assert_eq!(plain, answer.spans, "{pattern} by the standard");
    }
    answer
}

/// The spans of a match at a start; empty for none.
pub fn matched(pattern: &str, text: &str, start: usize) -> Vec<i32> {
    answer(pattern, text.as_bytes(), start, Entry::MatchAt).spans.unwrap_or_default()
}

/// The spans of a search from a start; empty for none.
pub fn searched(pattern: &str, text: &str, start: usize) -> Vec<i32> {
    answer(pattern, text.as_bytes(), start, Entry::Search).spans.unwrap_or_default()
}

/// No match.
pub const NONE: [i32; 0] = [];
