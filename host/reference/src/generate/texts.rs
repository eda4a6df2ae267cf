//! Texts for a pattern: of its own bytes, of what it matches, of anything.

use super::Random;
use crate::node::Node;
use crate::reader::read;
use crate::sets;

/// A short text for a pattern.
pub fn text(random: &mut Random, pattern: &[u8]) -> Vec<u8> {
    let length = match random.below(10) {
        0 => 0,
        1..=6 => random.between(1, 6),
        _ => random.between(5, 16),
    };
    match random.below(10) {
        0..=4 => like(random, pattern, 16),
        5 | 6 => of_pieces(random, b"ab", length),
        7 | 8 => of_pieces(random, pattern, length),
        _ => (0..length).map(|_| any_byte(random)).collect(),
    }
}

/// A long text for a pattern, of at most so many bytes: what it matches, over
/// and over, with other bytes between.
pub fn long_text(random: &mut Random, pattern: &[u8], most: usize) -> Vec<u8> {
    let mut bytes = Vec::new();
    let length = random.below(most + 1);
    while bytes.len() < length {
        let piece = text(random, pattern);
        bytes.extend(piece);
        bytes.push(any_byte(random));
    }
    bytes.truncate(length);
    bytes
}

/// Bytes picked from these, with a few others.
fn of_pieces(random: &mut Random, from: &[u8], length: usize) -> Vec<u8> {
    let pick = |random: &mut Random| match random.below(12) {
        0 => any_byte(random),
        _ => random.byte_of(from),
    };
    (0..length).map(|_| pick(random)).collect()
}

/// Any byte, those that a pattern minds more often.
fn any_byte(random: &mut Random) -> u8 {
    if random.percent(50) {
        random.byte_of(b"\0\x08\t\n\x0B\x0C\r\x1F !-/09:@AZ[_az{\x7F\x80\x85\xA0\xFF")
    } else {
        random.byte()
    }
}

/// A text that the pattern's own words would take, then damaged a little.
fn like(random: &mut Random, pattern: &[u8], most: usize) -> Vec<u8> {
    let mut bytes = Vec::new();
    if random.percent(30) {
        bytes = of_pieces(random, b"ab", 2);
    }
    if let Ok(reading) = read(pattern, usize::MAX) {
        follow(random, &reading.tree, &mut bytes, most, &mut 500);
    }
    if random.percent(40) {
        let at = random.below(bytes.len() + 1);
        match random.below(3) {
            0 => bytes.insert(at, any_byte(random)),
            1 => bytes.truncate(at),
            _ => bytes.push(random.byte_of(b"abcd")),
        }
    }
    bytes
}

/// Puts bytes behind that a part would take, as long as there is room for them
/// and for the parts to be visited.
fn follow(random: &mut Random, node: &Node, bytes: &mut Vec<u8>, most: usize, visits: &mut u32) {
    if bytes.len() >= most || *visits == 0 {
        return;
    }
    *visits -= 1;
    match node {
        Node::Empty | Node::Assert(_) => {}
        Node::Set(set) => bytes.extend(random.pick(&sets::members(set))),
        Node::Group(_, inner) => follow(random, inner, bytes, most, visits),
        Node::Seq(items) => {
            for item in items {
                follow(random, item, bytes, most, visits);
            }
        }
        Node::Alt(items) => {
            if let Some(item) = items.get(random.below(items.len())) {
                follow(random, item, bytes, most, visits);
            }
        }
        Node::Many { min, max, inner, .. } => {
            let turns = min.saturating_add(random.below(4) as u32);
            let turns = max.map_or(turns, |max| turns.min(max));
            for _ in 0..turns.min(20) {
                follow(random, inner, bytes, most, visits);
            }
        }
    }
}
