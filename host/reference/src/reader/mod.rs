//! Pattern bytes to a tree, or one of the refusals 1 to 14.
//!
//! "Alternatives hold sequences, sequences hold atoms, and an atom may hold
//! alternatives again": three readers that call one another in a cycle.
//! "Reading goes left to right: the smallest place wins, then the smaller
//! number"; each reader therefore judges a thing as soon as it has read it.

mod class;
mod count;
mod escape;

use crate::node::Node;
use crate::refusal::*;
use crate::sets;
use class::class;
use count::{count, Count};
use escape::{escape, Where};

/// The longest pattern, in bytes.
pub const PATTERN_LIMIT: usize = 2_048;
/// The deepest parentheses, of both kinds.
pub const DEPTH_LIMIT: usize = 32;
/// The most groups.
pub const GROUP_LIMIT: u32 = 31;
/// The highest count in a quantifier.
pub const COUNT_LIMIT: u32 = 1_000;

/// A pattern that was read: its tree and its number of groups.
#[derive(Clone, Debug, PartialEq, Eq)]
pub struct Reading {
    /// What the pattern says.
    pub tree: Node,
    /// g: how many groups it has.
    pub groups: u32,
}

/// Reads a pattern for a table of so many words.
pub fn read(pattern: &[u8], table_words: usize) -> Result<Reading, Refusal> {
    let p = pattern.len();
    if p > PATTERN_LIMIT {
        return refuse(PATTERN_TOO_LONG, 0);
    }
    if table_words < 32 * (p + 1) {
        return refuse(TABLE_TOO_SMALL, 0);
    }
    if let Some(place) = pattern.iter().position(|&byte| byte > 0x7F) {
        return refuse(BYTE_ABOVE_7F, place);
    }
    let mut reader = Reader { bytes: pattern, at: 0, groups: 0 };
    let tree = reader.alternatives(0)?;
    match reader.peek() {
        None => Ok(Reading { tree, groups: reader.groups }),
        // Alternatives end before a `)` or at the end of the pattern.
        Some(_) => refuse(BAD_PARENTHESIS, reader.at),
    }
}

/// How far reading has come, and how many groups it has met.
struct Reader<'p> {
    bytes: &'p [u8],
    at: usize,
    groups: u32,
}

impl Reader<'_> {
    /// The next byte, if there is one.
    fn peek(&self) -> Option<u8> {
        self.bytes.get(self.at).copied()
    }

    /// Do these bytes come next?
    fn comes(&self, what: &[u8]) -> bool {
        self.bytes.get(self.at..).map_or(false, |rest| rest.starts_with(what))
    }

    /// Passes these bytes if they come next.
    fn take(&mut self, what: &[u8]) -> bool {
        let comes = self.comes(what);
        if comes {
            self.at += what.len();
        }
        comes
    }

    /// Alternatives: sequences with `|` between them.
    fn alternatives(&mut self, depth: usize) -> Result<Node, Refusal> {
        let mut alternatives = vec![self.sequence(depth)?];
        while self.take(b"|") {
            alternatives.push(self.sequence(depth)?);
        }
        Ok(Node::alternation(alternatives))
    }

    /// A sequence: items up to `|`, `)` or the end.
    fn sequence(&mut self, depth: usize) -> Result<Node, Refusal> {
        let mut items = Vec::new();
        while let Some(byte) = self.peek() {
            if byte == b'|' || byte == b')' {
                break;
            }
            items.push(self.item(byte, depth)?);
        }
        Ok(Node::sequence(items))
    }

    /// An item: an assertion ("never directly quantified"), or an atom and
    /// its quantifier if it has one.
    fn item(&mut self, byte: u8, depth: usize) -> Result<Node, Refusal> {
        if let Some(assertion) = self.assertion() {
            return Ok(assertion);
        }
        let atom = self.atom(byte, depth)?;
        self.quantified(atom)
    }

    /// `^ $ \b \B`, if one of them comes next.
    fn assertion(&mut self) -> Option<Node> {
        for (number, spelling) in [(0, "^"), (1, "$"), (2, r"\b"), (3, r"\B")] {
            if self.take(spelling.as_bytes()) {
                return Some(Node::Assert(number));
            }
        }
        None
    }

    /// An atom: a literal, `.`, a class, an escape, `(r)` or `(?:r)`.
    fn atom(&mut self, byte: u8, depth: usize) -> Result<Node, Refusal> {
        let place = self.at;
        match byte {
            b'(' => self.parenthesis(depth),
            b'[' => {
                let (set, end) = class(self.bytes, place)?;
                self.at = end;
                Ok(Node::Set(set))
            }
            b'\\' => {
                let (meaning, end) = escape(self.bytes, place, Where::OutsideClass)?;
                self.at = end;
                Ok(Node::Set(meaning.set()))
            }
            b'*' | b'+' | b'?' | b'{' => refuse(NOTHING_TO_REPEAT, place),
            b']' | b'}' => refuse(STRAY_BRACKET, place),
            b'.' => {
                self.at += 1;
                Ok(Node::Set(sets::dot()))
            }
            literal => {
                self.at += 1;
                Ok(Node::Set(sets::one(literal)))
            }
        }
    }

    /// `(r)` is a group; `(?:r)` leaves no node. The refusals at the `(`
    /// itself, 5, 13 and 14, are tried in the order of their numbers, and 6 at
    /// the `?` behind it comes after 5 and 13, "as its place is" larger.
    fn parenthesis(&mut self, depth: usize) -> Result<Node, Refusal> {
        let place = self.at;
        if self.comes(b"(?=") || self.comes(b"(?!") || self.comes(b"(?<") {
            return refuse(NOT_SUPPORTED, place);
        }
        if depth == DEPTH_LIMIT {
            return refuse(TOO_DEEP, place);
        }
        if self.take(b"(?:") {
            return self.inside(depth + 1);
        }
        if self.comes(b"(?") {
            return refuse(NOTHING_TO_REPEAT, place + 1);
        }
        if self.groups == GROUP_LIMIT {
            return refuse(TOO_MANY_GROUPS, place);
        }
        self.groups += 1;
        let number = self.groups;
        self.at += 1;
        Ok(Node::Group(number, Box::new(self.inside(depth + 1)?)))
    }

    /// What stands inside parentheses, and the closing one. Alternatives end
    /// only before a `)` or at p.
    fn inside(&mut self, depth: usize) -> Result<Node, Refusal> {
        let inner = self.alternatives(depth)?;
        if self.take(b")") {
            Ok(inner)
        } else {
            refuse(BAD_PARENTHESIS, self.at)
        }
    }

    /// The atom with the quantifier behind it: `* + ? {n} {n,} {n,m}`, "each
    /// lazy with a `?` after it".
    fn quantified(&mut self, atom: Node) -> Result<Node, Refusal> {
        let (min, max) = match self.peek() {
            Some(b'*') => (0, None),
            Some(b'+') => (1, None),
            Some(b'?') => (0, Some(1)),
            Some(b'{') => {
                let Count { min, max, end } = count(self.bytes, self.at)?;
                self.at = end - 1;
                (min, max)
            }
            _ => return Ok(atom),
        };
        self.at += 1;
        let lazy = self.take(b"?");
        Ok(Node::many(min, max, lazy, atom))
    }
}
