//! When a run is turned away.

use super::*;

const TEXT_LIMIT: usize = 16_777_216;

/// Whether a row passes the check of code with `n` rows and `g` groups.
fn row_passes(row: &[u32], n: u32, g: u32) -> bool {
    let (a, b) = (row[1], row[2]);
    let rest = row[3..].iter().fold(0, |rest, word| rest | word);
    match row[0] {
        ACCEPT | BEGIN => a | b | rest == 0,
        CONSUME => a | b | row[3] == 0,
        JUMP | END => a < n && b | rest == 0,
        FORK => a < n && b < n && rest == 0,
        OPEN | CLOSE => a <= g && b | rest == 0,
        RESET => ((a, b) == (1, 0) || (1 <= a && a <= b && b <= g)) && rest == 0,
        ASSERT => a <= 3 && b | rest == 0,
        _ => false,
    }
}

/// The check of refusal 20.
fn passes(code: &[u32]) -> bool {
    if code.len() < ROW_WORDS {
        return false;
    }
    let (n, g) = (code[0], code[1]);
    if !(8..=1024).contains(&n) || g > 31 || code.len() < ROW_WORDS * (n as usize + 1) {
        return false;
    }
    if code[2..ROW_WORDS].iter().any(|&word| word != 0) {
        return false;
    }
    let rows = &code[ROW_WORDS..ROW_WORDS * (n as usize + 1)];
    let last = rows[rows.len() - ROW_WORDS];
    rows.chunks_exact(ROW_WORDS).all(|row| row_passes(row, n, g))
        && matches!(last, ACCEPT | JUMP | FORK | END)
}

/// The number by which a run is turned away.
pub fn refusal(
    code: &[u32],
    text: &[u8],
    start: usize,
    registers: usize,
    workspace: usize,
) -> Option<u32> {
    if !passes(code) {
        return Some(20);
    }
    if text.len() > TEXT_LIMIT {
        return Some(21);
    }
    if start > text.len() {
        return Some(22);
    }
    let (n, g) = (code[0] as usize, code[1] as usize);
    if registers < 2 * (g + 1) {
        return Some(23);
    }
    if workspace < 16 * n * (g + 2) {
        return Some(24);
    }
    None
}
