//! A tree's rows.

use super::{Program, Row, ROW_LEAST, ROW_LIMIT};
use crate::node::Node;
use crate::refusal::*;
use crate::sets;

/// "Sizes: empty 0; byte set or assertion 1; group r+2; sequence the sum;
/// alternation of k the sum plus 2(k-1)", a quantifier min times r+1, then r+4
/// for no maximum and (max-min) times r+4 otherwise. A size that 64 bits
/// cannot hold is held at their highest value.
pub fn size(node: &Node) -> u64 {
    let sum = |parts: &[Node]| parts.iter().map(size).fold(0, u64::saturating_add);
    match node {
        Node::Empty => 0,
        Node::Set(_) | Node::Assert(_) => 1,
        Node::Group(_, inner) => size(inner).saturating_add(2),
        Node::Seq(items) => sum(items),
        Node::Alt(alternatives) => {
            let between = alternatives.len().saturating_sub(1) as u64;
            sum(alternatives).saturating_add(2 * between)
        }
        Node::Many { min, max, inner, .. } => {
            let r = size(inner);
            let forced = r.saturating_add(1).saturating_mul(u64::from(*min));
            let turns = max.map_or(1, |max| max.saturating_sub(*min));
            let free = r.saturating_add(4).saturating_mul(u64::from(turns));
            forced.saturating_add(free)
        }
    }
}

/// "Rows are: prefix (5), Open 0, the pattern, Close 0, Accept, so n = 8 +
/// size." Refuses 15: more than 1,024 rows.
pub fn program(tree: &Node, groups: u32) -> Result<Program, Refusal> {
    if size(tree).saturating_add(u64::from(ROW_LEAST)) > u64::from(ROW_LIMIT) {
        return refuse(TOO_MANY_ROWS, 0);
    }
    let mut rows = Vec::new();
    let anything = Node::many(0, None, true, Node::Set(sets::ALL));
    emit(&anything, &mut rows);
    rows.push(Row::Open(0));
    emit(tree, &mut rows);
    rows.push(Row::Close(0));
    rows.push(Row::Accept);
    Ok(Program { groups, rows })
}

/// The rows of a part, put behind those that are there.
fn emit(node: &Node, rows: &mut Vec<Row>) {
    match node {
        Node::Empty => {}
        Node::Set(set) => rows.push(Row::Consume(*set)),
        Node::Assert(number) => rows.push(Row::Assert(*number)),
        Node::Group(number, inner) => {
            rows.push(Row::Open(*number));
            emit(inner, rows);
            rows.push(Row::Close(*number));
        }
        Node::Seq(items) => items.iter().for_each(|item| emit(item, rows)),
        Node::Alt(alternatives) => alternation(alternatives, next(rows) + rows_of(node), rows),
        Node::Many { min, max, lazy, inner } => quantifier(*min, *max, *lazy, inner, rows),
    }
}

/// "Fork, left, Jump to the end, rest."
fn alternation(alternatives: &[Node], end: u32, rows: &mut Vec<Row>) {
    match alternatives {
        [] => {}
        [last] => emit(last, rows),
        [left, rest @ ..] => {
            let fork = next(rows);
            rows.push(Row::Fork(fork + 1, fork + 1 + rows_of(left) + 1));
            emit(left, rows);
            rows.push(Row::Jump(end));
            alternation(rest, end, rows);
        }
    }
}

/// "A quantifier gives min times (Reset, r), then for no maximum Fork, Begin,
/// Reset, r, End back to the Fork (r+4); otherwise (max-min) times Fork, Begin,
/// Reset, r, End to the next row, each Fork's way out leading past the last. A
/// lazy Fork names the way out first."
fn quantifier(min: u32, max: Option<u32>, lazy: bool, r: &Node, rows: &mut Vec<Row>) {
    let (lowest, highest) = r.groups().unwrap_or((1, 0));
    let reset = Row::Reset(lowest, highest);
    for _ in 0..min {
        rows.push(reset);
        emit(r, rows);
    }
    let turn = rows_of(r) + 4;
    let turns = max.map_or(1, |max| max.saturating_sub(min));
    let out = next(rows) + turns * turn;
    for _ in 0..turns {
        let fork = next(rows);
        let enter = fork + 1;
        rows.push(if lazy { Row::Fork(out, enter) } else { Row::Fork(enter, out) });
        rows.push(Row::Begin);
        rows.push(reset);
        emit(r, rows);
        let after = next(rows) + 1;
        rows.push(Row::End(if max.is_none() { fork } else { after }));
    }
}

/// The number of the next row. All numbers here are at most 1,024, since the
/// size of the whole has been asked before.
fn next(rows: &[Row]) -> u32 {
    rows.len() as u32
}

/// A part's size as a row number.
fn rows_of(node: &Node) -> u32 {
    size(node).min(u64::from(ROW_LIMIT)) as u32
}
