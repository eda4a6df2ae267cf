//! The tree that a pattern is read into.
//!
//! "From the reading on, sequences and alternations are flat and one of a
//! single item is that item." [`Node::sequence`] and [`Node::alternation`]
//! keep it so; everything that makes a tree goes through them.

use crate::sets::Set;

/// A part of a pattern.
#[derive(Clone, Debug, PartialEq, Eq)]
pub enum Node {
    /// Matches the empty text.
    Empty,
    /// One byte of a set: a literal, `.`, a class or an escape.
    Set(Set),
    /// 0 `^`, 1 `$`, 2 `\b`, 3 `\B`.
    Assert(u32),
    /// `(r)`, numbered by its opening parenthesis, from 1.
    Group(u32, Box<Node>),
    /// Two or more items, none of them a sequence.
    Seq(Vec<Node>),
    /// Two or more alternatives, none of them an alternation.
    Alt(Vec<Node>),
    /// "A quantifier is its counts, however spelt, and its laziness."
    Many {
        /// The least number of turns.
        min: u32,
        /// The greatest number of turns, if there is one.
        max: Option<u32>,
        /// Is there a `?` after it?
        lazy: bool,
        /// What is repeated.
        inner: Box<Node>,
    },
}

impl Node {
    /// The flat sequence of these items: a sequence among them gives its
    /// items, none is empty, a single one is that item.
    pub fn sequence(items: Vec<Node>) -> Node {
        let mut flat = Vec::new();
        for item in items {
            match item {
                Node::Seq(inside) => flat.extend(inside),
                other => flat.push(other),
            }
        }
        match flat.len() {
            0 => Node::Empty,
            1 => flat.remove(0),
            _ => Node::Seq(flat),
        }
    }

    /// The flat alternation of these alternatives: an alternation among them
    /// gives its alternatives, a single one is that alternative.
    pub fn alternation(alternatives: Vec<Node>) -> Node {
        let mut flat = Vec::new();
        for alternative in alternatives {
            match alternative {
                Node::Alt(inside) => flat.extend(inside),
                other => flat.push(other),
            }
        }
        match flat.len() {
            0 => Node::Empty,
            1 => flat.remove(0),
            _ => Node::Alt(flat),
        }
    }

    /// The part with a quantifier.
    pub fn many(min: u32, max: Option<u32>, lazy: bool, inner: Node) -> Node {
        let inner = Box::new(inner);
        Node::Many { min, max, lazy, inner }
    }

    /// The parts directly inside this one, left to right.
    pub fn children(&self) -> &[Node] {
        match self {
            Node::Empty | Node::Set(_) | Node::Assert(_) => &[],
            Node::Group(_, inner) | Node::Many { inner, .. } => {
                std::slice::from_ref(inner.as_ref())
            }
            Node::Seq(items) | Node::Alt(items) => items,
        }
    }

    /// The lowest and the highest group written inside this part (also under
    /// a `{0}`), this part included; nothing if there is none.
    pub fn groups(&self) -> Option<(u32, u32)> {
        let own = match self {
            Node::Group(number, _) => Some((*number, *number)),
            _ => None,
        };
        let inside = self.children().iter().filter_map(Node::groups);
        inside.chain(own).reduce(|(low, high), (l, h)| (low.min(l), high.max(h)))
    }

    /// Is there no group in this part?
    pub fn is_group_free(&self) -> bool {
        self.groups().is_none()
    }
}
