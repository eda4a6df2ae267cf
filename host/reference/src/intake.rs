//! The intake program: "A program reads a pattern line, then text lines (LF
//! ends each)", and what it writes.

use crate::compile::compile;
use crate::refusal::*;
use crate::rows::Program;
use crate::steps::{run, Entry, Lent};

/// "Its buffers: 4,128 table words, 1,164 code words, 8,000 workspace words,
/// lines of 4,096".
pub const TABLE_WORDS: usize = 4_128;
/// Code words.
pub const CODE_WORDS: usize = 1_164;
/// Workspace words.
pub const WORKSPACE_WORDS: usize = 8_000;
/// The longest line, its LF not counted.
pub const LINE_BYTES: usize = 4_096;

/// All that the program writes for this input.
pub fn output(input: &[u8]) -> String {
    let mut lines = lines(input).into_iter();
    // "No pattern line, no output."
    let pattern = match lines.next() {
        Some(pattern) => pattern,
        None => return String::new(),
    };
    match compile(pattern, TABLE_WORDS, CODE_WORDS) {
        // "A refused pattern prints `refused N at P` and ends the work".
        Err(Refusal { number, place }) => format!("refused {number} at {place}\n"),
        Ok(program) => {
            let mut written = format!("rows {} groups {}\n", program.n(), program.groups());
            for line in lines {
                written += &answer(&program, line);
                written.push('\n');
            }
            written
        }
    }
}

/// The lines: "A last line without LF counts unless empty."
fn lines(input: &[u8]) -> Vec<&[u8]> {
    let mut lines: Vec<&[u8]> = input.split(|&byte| byte == b'\n').collect();
    if lines.last().map_or(false, |last| last.is_empty()) {
        lines.pop();
    }
    lines
}

/// What is printed for a text line: it is searched from 0.
fn answer(program: &Program, line: &[u8]) -> String {
    // "A line too long prints `refused 21`, another refused run its number
    // likewise."
    if line.len() > LINE_BYTES {
        return format!("refused {TEXT_TOO_LONG}");
    }
    let lent = Lent { registers: program.registers().len(), workspace: WORKSPACE_WORDS };
    match run(&program.words(), line, 0, lent, Entry::Search) {
        Err(refusal) => format!("refused {}", refusal.number),
        Ok(answer) => match answer.spans {
            None => "none".to_string(),
            Some(spans) => spans.iter().map(i32::to_string).collect::<Vec<_>>().join(" "),
        },
    }
}
