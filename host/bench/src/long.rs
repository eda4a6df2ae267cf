//! The longest text, and so many alternatives that the rows executed on it pass 32 bits.

use crate::call::{words_needed, Call, Lent};
use crate::{compare, proved};
use reference::steps::TEXT_LIMIT;

const ALTERNATIVES: usize = 140;

/// The rows that a search for none of the alternatives executes, by the reference, on a short text.
fn on_few(code: &[u32], bytes: usize) -> u64 {
    let text = vec![b'a'; bytes];
    let call = Call { code, text: &text, start: 0, row: 0 };
    compare::expected(&call, 2, words_needed(code)).0.rows
}

/// The proved engine's count on the longest text: each byte adds the same number of rows.
pub fn counted() {
    let pattern = format!("(?:{})$", ["b"; ALTERNATIVES].join("|"));
    let program = reference::compile::compile(pattern.as_bytes(), 1 << 16, 1 << 16);
    let code = program.expect("the pattern compiles").words();
    let (ten, eleven) = (on_few(&code, 10), on_few(&code, 11));
    let rows = ten + (eleven - ten) * (TEXT_LIMIT as u64 - 10);
    assert!(rows > u64::from(u32::MAX));
    let text = vec![b'a'; TEXT_LIMIT];
    let call = Call { code: &code, text: &text, start: 0, row: 0 };
    let answer = Lent::new(2, words_needed(&code)).run(proved::run, &call);
    assert_eq!((answer.number, answer.rows), (0, rows));
    println!("{} bytes, {} rows of code: none, {} rows executed", TEXT_LIMIT, code[0], rows);
}
