//! The code check, whose failure is refusal 20.

use super::{Program, Row, ROW_LEAST, ROW_LIMIT, ROW_WORDS};
use crate::reader::GROUP_LIMIT;

/// "Code passes exactly if it has 12(n+1) words or more, those behind the rows
/// unread, n is 8 to 1,024, g at most 31, kinds are listed, targets below n,
/// groups at most g (a Reset has 1 ≤ lowest ≤ highest ≤ g, or is 1, 0), Assert
/// operands 0 to 3, the last row is Accept, Jump, Fork or End, and every
/// operand, set word and header word that isn't used, and the fourth word of
/// each row, is zero."
///
/// Answers the rows of code that passes.
pub fn check(code: &[u32]) -> Option<Program> {
    let (n, groups) = match code {
        &[n, groups, ..] => (n, groups),
        _ => return None,
    };
    if !(ROW_LEAST..=ROW_LIMIT).contains(&n) || groups > GROUP_LIMIT {
        return None;
    }
    let body = code.get(ROW_WORDS..ROW_WORDS * (n as usize + 1))?;
    let rows: Vec<Row> = body
        .chunks_exact(ROW_WORDS)
        .map(|words| Row::of_words(words.try_into().ok()?))
        .collect::<Option<_>>()?;
    let header_zero = code[2..ROW_WORDS].iter().all(|&word| word == 0);
    let rows_zero =
        rows.iter().zip(body.chunks_exact(ROW_WORDS)).all(|(row, words)| row.words() == *words);
    if !header_zero || !rows_zero {
        return None;
    }
    let fits = rows.iter().all(|row| row_fits(row, n, groups));
    let ends = rows.last().map_or(false, may_be_last);
    (fits && ends).then_some(Program { groups, rows })
}

/// Does the code pass?
pub fn passes(code: &[u32]) -> bool {
    check(code).is_some()
}

/// Are the row's operands in their bounds?
fn row_fits(row: &Row, n: u32, g: u32) -> bool {
    match *row {
        Row::Accept | Row::Consume(_) | Row::Begin => true,
        Row::Jump(target) | Row::End(target) => target < n,
        Row::Fork(first, second) => first < n && second < n,
        Row::Open(group) | Row::Close(group) => group <= g,
        Row::Reset(1, 0) => true,
        Row::Reset(lowest, highest) => 1 <= lowest && lowest <= highest && highest <= g,
        Row::Assert(number) => number <= 3,
    }
}

/// The kinds that never go on to the row behind them.
fn may_be_last(row: &Row) -> bool {
    matches!(row, Row::Accept | Row::Jump(_) | Row::Fork(..) | Row::End(_))
}
