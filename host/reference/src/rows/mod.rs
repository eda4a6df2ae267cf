//! Rows: what a tree is compiled to, and the words they are written in.
//!
//! "Code is a header row (n, g, ten zeros) and n rows of 12 words: kind, two
//! operands, zero, byte set. Operands and set words a kind doesn't use are
//! written zero."

mod check;
mod emit;

pub use check::{check, passes};
pub use emit::{program, size};

use crate::sets::Set;

/// The words of a row, and of the header.
pub const ROW_WORDS: usize = 12;
/// The fewest rows: those around the empty pattern.
pub const ROW_LEAST: u32 = 8;
/// The most rows.
pub const ROW_LIMIT: u32 = 1_024;
/// "Searching starts at row 0".
pub const SEARCH_ROW: u32 = 0;
/// "matching at the start at row 5".
pub const MATCH_ROW: u32 = 5;

/// A row; its kind's number in the outline is given by [`Row::words`].
#[derive(Clone, Copy, Debug, PartialEq, Eq)]
pub enum Row {
    /// 1: record the result.
    Accept,
    /// 2: take one byte of the set.
    Consume(Set),
    /// 3: go to the target.
    Jump(u32),
    /// 4: first choice, second.
    Fork(u32, u32),
    /// 5: the group starts here.
    Open(u32),
    /// 6: the group ends here.
    Close(u32),
    /// 7: lowest and highest group (1, 0 if none).
    Reset(u32, u32),
    /// 8: a turn begins.
    Begin,
    /// 9: a turn ends; target.
    End(u32),
    /// 10: 0 `^`, 1 `$`, 2 `\b`, 3 `\B`.
    Assert(u32),
}

impl Row {
    /// The row's 12 words.
    pub fn words(&self) -> [u32; ROW_WORDS] {
        const NO_SET: Set = [0; 8];
        let (kind, first, second, s) = match *self {
            Row::Accept => (1, 0, 0, NO_SET),
            Row::Consume(set) => (2, 0, 0, set),
            Row::Jump(target) => (3, target, 0, NO_SET),
            Row::Fork(first, second) => (4, first, second, NO_SET),
            Row::Open(group) => (5, group, 0, NO_SET),
            Row::Close(group) => (6, group, 0, NO_SET),
            Row::Reset(lowest, highest) => (7, lowest, highest, NO_SET),
            Row::Begin => (8, 0, 0, NO_SET),
            Row::End(target) => (9, target, 0, NO_SET),
            Row::Assert(number) => (10, number, 0, NO_SET),
        };
        [kind, first, second, 0, s[0], s[1], s[2], s[3], s[4], s[5], s[6], s[7]]
    }

    /// The row that 12 words say, whatever stands in words its kind doesn't use;
    /// nothing if the kind is not listed.
    pub fn of_words(words: &[u32; ROW_WORDS]) -> Option<Row> {
        let &[kind, first, second, _, s0, s1, s2, s3, s4, s5, s6, s7] = words;
        match kind {
            1 => Some(Row::Accept),
            2 => Some(Row::Consume([s0, s1, s2, s3, s4, s5, s6, s7])),
            3 => Some(Row::Jump(first)),
            4 => Some(Row::Fork(first, second)),
            5 => Some(Row::Open(first)),
            6 => Some(Row::Close(first)),
            7 => Some(Row::Reset(first, second)),
            8 => Some(Row::Begin),
            9 => Some(Row::End(first)),
            10 => Some(Row::Assert(first)),
            _ => None,
        }
    }
}

/// Rows that may be run: compiled by [`program`] from a tree that was read, or
/// passed by [`check`]. All targets are below n and all groups at most g, and
/// the last row never goes on to a row behind it.
#[derive(Clone, Debug, PartialEq, Eq)]
pub struct Program {
    groups: u32,
    rows: Vec<Row>,
}

impl Program {
    /// g, the number of groups.
    pub fn groups(&self) -> u32 {
        self.groups
    }

    /// n, the number of rows.
    pub fn n(&self) -> usize {
        self.rows.len()
    }

    /// The rows.
    pub fn rows(&self) -> &[Row] {
        &self.rows
    }

    /// The registers of a thread, "all -1 at first": a start and an end for
    /// each group and for the whole.
    pub fn registers(&self) -> Vec<i32> {
        vec![-1; 2 * (self.groups as usize + 1)]
    }

    /// The 12(n+1) code words.
    pub fn words(&self) -> Vec<u32> {
        let mut words = vec![self.rows.len() as u32, self.groups];
        words.resize(ROW_WORDS, 0);
        for row in &self.rows {
            words.extend(row.words());
        }
        words
    }
}
