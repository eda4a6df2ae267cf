//! The outline's steps, word for word: a machine of threads in order.

use crate::matcher::{holds, register, Spans};
use crate::refusal::*;
use crate::rows::{check, Program, Row, MATCH_ROW, SEARCH_ROW};
use crate::sets;
use std::collections::VecDeque;

/// The longest text, in bytes.
pub const TEXT_LIMIT: usize = 16_777_216;

/// Where a run begins.
#[derive(Clone, Copy, Debug, PartialEq, Eq)]
pub enum Entry {
    /// "Searching starts at row 0".
    Search,
    /// "matching at the start at row 5".
    MatchAt,
}

/// "A run answers found or none and the count of rows executed."
#[derive(Clone, Debug, PartialEq, Eq)]
pub struct Answer {
    /// The first 2(g+1) registers if found. (On none all of them read -1.)
    pub spans: Spans,
    /// The count of rows executed.
    pub count: u64,
}

/// What a caller lends to a run besides code and text: how many registers and
/// how many workspace words.
#[derive(Clone, Copy, Debug, PartialEq, Eq)]
pub struct Lent {
    /// Registers.
    pub registers: usize,
    /// Workspace words.
    pub workspace: usize,
}

/// A run on code words, refused "in order, nothing changed, place 0": 20 code
/// fails its check; 21 text over 16,777,216 bytes; 22 start beyond the text's
/// length; 23 fewer than 2(g+1) registers; 24 workspace under 16·n·(g+2) words.
pub fn run(
    code: &[u32],
    text: &[u8],
    start: usize,
    lent: Lent,
    entry: Entry,
) -> Result<Answer, Refusal> {
    let program = match check(code) {
        Some(program) => program,
        None => return refuse(CODE_FAILS, 0),
    };
    let (n, g) = (program.n(), program.groups() as usize);
    if text.len() > TEXT_LIMIT {
        return refuse(TEXT_TOO_LONG, 0);
    }
    if start > text.len() {
        return refuse(START_BEYOND, 0);
    }
    if lent.registers < 2 * (g + 1) {
        return refuse(REGISTERS_TOO_FEW, 0);
    }
    if lent.workspace < 16 * n * (g + 2) {
        return refuse(WORKSPACE_TOO_SMALL, 0);
    }
    Ok(steps(&program, text, start, entry))
}

/// "A thread is row, registers, all -1 at first, and a flag 'has consumed
/// since Begin', true at first."
#[derive(Clone)]
struct Thread {
    row: u32,
    registers: Vec<i32>,
    flag: bool,
}

impl Thread {
    /// The thread, gone on to another row.
    fn at(self, row: u32) -> Thread {
        Thread { row, ..self }
    }

    /// The thread, gone on to the next row.
    fn on(self) -> Thread {
        let next = self.row + 1;
        self.at(next)
    }
}

/// The run itself, for a start inside the text.
pub fn steps(program: &Program, text: &[u8], start: usize, entry: Entry) -> Answer {
    let row = match entry {
        Entry::Search => SEARCH_ROW,
        Entry::MatchAt => MATCH_ROW,
    };
    let first = Thread { row, registers: program.registers(), flag: true };
    let mut position = start;
    let mut active = VecDeque::from([first]);
    let mut answer = Answer { spans: None, count: 0 };
    // "When no thread is active the queue becomes active at the next position;
    // an empty queue ends the run."
    while !active.is_empty() {
        active = settle(program, text, position, active, &mut answer);
        position += 1;
    }
    answer
}

/// Runs the active threads at one position and answers the queue.
fn settle(
    program: &Program,
    text: &[u8],
    position: usize,
    mut active: VecDeque<Thread>,
    answer: &mut Answer,
) -> VecDeque<Thread> {
    let mut queue = VecDeque::new();
    let mut executed = vec![[false; 2]; program.n()];
    while let Some(mut thread) = active.pop_front() {
        // "A thread whose row and flag were already executed at this position
        // is dropped, uncounted; any other execution counts one."
        let mark = &mut executed[thread.row as usize][usize::from(thread.flag)];
        if *mark {
            continue;
        }
        *mark = true;
        answer.count += 1;
        match program.rows()[thread.row as usize] {
            // "Accept records the result, drops the active threads behind it
            // and keeps the queue."
            Row::Accept => {
                answer.spans = Some(thread.registers);
                active.clear();
            }
            // "A Consume that fits queues the next row for the next position
            // with the flag set."
            Row::Consume(set) => {
                if text.get(position).map_or(false, |&byte| sets::has(&set, byte)) {
                    thread.flag = true;
                    queue.push_back(thread.on());
                }
            }
            Row::Jump(target) => active.push_front(thread.at(target)),
            // "Fork puts two threads first, in order."
            Row::Fork(first, second) => {
                active.push_front(thread.clone().at(second));
                active.push_front(thread.at(first));
            }
            // "Open and Close write the position".
            Row::Open(group) => {
                thread.registers[2 * group as usize] = register(position);
                active.push_front(thread.on());
            }
            Row::Close(group) => {
                thread.registers[2 * group as usize + 1] = register(position);
                active.push_front(thread.on());
            }
            // "Reset makes groups -1".
            Row::Reset(lowest, highest) => {
                for group in lowest..=highest {
                    thread.registers[2 * group as usize] = -1;
                    thread.registers[2 * group as usize + 1] = -1;
                }
                active.push_front(thread.on());
            }
            // "Begin clears the flag; End goes on only if it is set".
            Row::Begin => {
                thread.flag = false;
                active.push_front(thread.on());
            }
            Row::End(target) => {
                if thread.flag {
                    active.push_front(thread.at(target));
                }
            }
            // "Assert goes on or drops."
            Row::Assert(number) => {
                if holds(number, text, position) {
                    active.push_front(thread.on());
                }
            }
        }
    }
    queue
}
