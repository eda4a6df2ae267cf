//! The plain second engine, from the outline's "A second engine": a backtracking search that
//! remembers which row and flag were tried at which position.

use crate::matcher::{holds, register};
use crate::refusal::*;
use crate::rows::{check, Program, Row, MATCH_ROW, SEARCH_ROW};
use crate::sets;
use crate::steps::{Answer, Entry, Lent};
use std::collections::HashSet;

/// The longest text that it takes, in bytes.
pub const SECOND_LIMIT: usize = 4_096;

/// "n·(4g+10)·(L+1) + 2(g+1)" words, L the text's length.
pub fn workspace(n: usize, g: usize, length: usize) -> usize {
    n * (4 * g + 10) * (length + 1) + 2 * (g + 1)
}

/// A run on code words, refused as a run of the main engine is, but 21 over 4,096 bytes and 24 by
/// its own rule.
pub fn run(
    code: &[u32],
    text: &[u8],
    start: usize,
    lent: Lent,
    entry: Entry,
) -> Result<Answer, Refusal> {
    let program = match check(code) {
        Some(program) => program,
        None => return refuse(CODE_FAILS, 0),
    };
    let (n, g) = (program.n(), program.groups() as usize);
    if text.len() > SECOND_LIMIT {
        return refuse(TEXT_TOO_LONG, 0);
    }
    if start > text.len() {
        return refuse(START_BEYOND, 0);
    }
    if lent.registers < 2 * (g + 1) {
        return refuse(REGISTERS_TOO_FEW, 0);
    }
    if lent.workspace < workspace(n, g, text.len()) {
        return refuse(WORKSPACE_TOO_SMALL, 0);
    }
    Ok(steps(&program, text, start, entry))
}

/// "A choice is row, flag, position and registers."
#[derive(Clone)]
struct Choice {
    row: u32,
    flag: bool,
    position: usize,
    registers: Vec<i32>,
}

/// The search itself, for a start inside the text.
pub fn steps(program: &Program, text: &[u8], start: usize, entry: Entry) -> Answer {
    let row = match entry {
        Entry::Search => SEARCH_ROW,
        Entry::MatchAt => MATCH_ROW,
    };
    let mut choices =
        vec![Choice { row, flag: true, position: start, registers: program.registers() }];
    let mut tried = HashSet::new();
    let mut count = 0;
    // "Where a thread ends the newest choice goes on; without one the answer is none."
    while let Some(thread) = choices.pop() {
        // "A row and flag tried before at its position ends the thread, uncounted; any other
        // counts one."
        if !tried.insert((thread.row, thread.flag, thread.position)) {
            continue;
        }
        count += 1;
        if program.rows()[thread.row as usize] == Row::Accept {
            return Answer { spans: Some(thread.registers), count };
        }
        choices.extend(next(program, text, thread));
    }
    Answer { spans: None, count }
}

/// What is left to choose from once a thread has executed its row, the choice to go on with last.
fn next(program: &Program, text: &[u8], mut thread: Choice) -> Vec<Choice> {
    let position = thread.position;
    let mut target = thread.row + 1;
    match program.rows()[thread.row as usize] {
        Row::Accept => return Vec::new(),
        // "A Consume that fits goes on at the next position with the flag set."
        Row::Consume(set) => {
            if !text.get(position).map_or(false, |&byte| sets::has(&set, byte)) {
                return Vec::new();
            }
            thread.position += 1;
            thread.flag = true;
        }
        Row::Jump(row) => target = row,
        // "Fork stores its second row and goes on with its first."
        Row::Fork(first, second) => {
            let stored = Choice { row: second, ..thread.clone() };
            return vec![stored, Choice { row: first, ..thread }];
        }
        Row::Open(group) => thread.registers[2 * group as usize] = register(position),
        Row::Close(group) => thread.registers[2 * group as usize + 1] = register(position),
        Row::Reset(lowest, highest) => {
            for group in lowest..=highest {
                thread.registers[2 * group as usize] = -1;
                thread.registers[2 * group as usize + 1] = -1;
            }
        }
        Row::Begin => thread.flag = false,
        Row::End(_) if !thread.flag => return Vec::new(),
        Row::End(row) => target = row,
        Row::Assert(number) if !holds(number, text, position) => return Vec::new(),
        Row::Assert(_) => {}
    }
    thread.row = target;
    vec![thread]
}
