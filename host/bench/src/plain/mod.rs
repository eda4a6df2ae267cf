//! The row machine of the outline in plain Rust: the same rows, steps, refusals
//! and layout of the workspace as the proved engine, written as one would by hand.

mod check;
mod machine;
mod stack;

use crate::call::{Answer, Call};
use check::refusal;
use machine::{Machine, Threads};
use stack::Stack;

const ROW_WORDS: usize = 12;
const NOWHERE: u32 = u32::MAX;

const ACCEPT: u32 = 1;
const CONSUME: u32 = 2;
const JUMP: u32 = 3;
const FORK: u32 = 4;
const OPEN: u32 = 5;
const CLOSE: u32 = 6;
const RESET: u32 = 7;
const BEGIN: u32 = 8;
const END: u32 = 9;
const ASSERT: u32 = 10;

/// A call of the plain machine.
pub fn run(call: &Call, registers: &mut [i32], workspace: &mut [u32]) -> Answer {
    let &Call { code, text, start, row } = call;
    if let Some(number) = refusal(code, text, start, registers.len(), workspace.len()) {
        return Answer { number, rows: 0 };
    }
    let keys = 2 * code[0] as usize;
    let width = 2 * (code[1] as usize + 1);
    let (marks, rest) = workspace.split_at_mut(keys);
    let (active, rest) = rest.split_at_mut(keys);
    let (queued, rest) = rest.split_at_mut(keys);
    let (tags, rest) = rest.split_at_mut(keys * width);
    let (olds, rest) = rest.split_at_mut(keys * width);
    let (now, rest) = rest.split_at_mut(keys * width);
    let (next, rest) = rest.split_at_mut(keys * width);
    let best = &mut rest[..width];
    marks.fill(0);
    best.fill(NOWHERE);
    now[..width].fill(NOWHERE);
    active[0] = (row * 2 + 1) as u32;
    let now = Threads { keys: active, registers: now, count: 1 };
    let next = Threads { keys: queued, registers: next, count: 0 };
    let stack = Stack { keys, tags, olds, frames: 0 };
    let mut machine = Machine { code, width, marks, stack, best, found: false, executed: 0 };
    machine.run(text, start, now, next);
    for (register, &word) in registers.iter_mut().zip(machine.best.iter()) {
        *register = word as i32;
    }
    Answer { number: u32::from(machine.found), rows: machine.executed }
}
