//! The proved engine against a plain Rust version of the same row machine, on
//! storm lines. What they answer is compared first; then both are timed, in turn.

mod call;
mod clock;
mod compare;
mod long;
mod plain;
mod proved;
mod storm;

use call::{words_needed, Call, Lent, Run};
use std::hint::black_box;
use storm::{Question, QUESTIONS};

const LINES: usize = 500;
const SAMPLES: usize = 10;
const RANDOM_CALLS: usize = 20_000;

fn code_of(question: &Question) -> Vec<u32> {
    let pattern = question.pattern.as_bytes();
    let program = reference::compile::compile(pattern, 32 * (pattern.len() + 1), 12 * 1025);
    program.expect("the pattern compiles").words()
}

/// The nanoseconds that one pass over the lines takes.
fn pass(run: Run, code: &[u32], lines: &[Vec<u8>], row: usize, lent: &mut Lent) -> u64 {
    let start = clock::nanoseconds();
    for line in lines {
        let call = Call { code, text: black_box(line), start: 0, row };
        black_box(lent.run(run, &call));
    }
    clock::nanoseconds() - start
}

fn median(mut samples: Vec<u64>) -> u64 {
    samples.sort_unstable();
    (samples[samples.len() / 2 - 1] + samples[samples.len() / 2]) / 2
}

/// The medians of the passes of the proved engine and of the plain machine, taken in turn.
fn times(code: &[u32], lines: &[Vec<u8>], row: usize) -> (u64, u64) {
    let mut lent = Lent::new(32, words_needed(code));
    let (mut ours, mut plain) = (Vec::new(), Vec::new());
    // The first pass of each only warms up.
    for _ in 0..SAMPLES + 1 {
        ours.push(pass(proved::run, code, lines, row, &mut lent));
        plain.push(pass(plain::run, code, lines, row, &mut lent));
    }
    (median(ours.split_off(1)), median(plain.split_off(1)))
}

/// A row of the table, and its ratio.
fn measured(question: &Question, lines: &[Vec<u8>], bytes: usize) -> f64 {
    let code = code_of(question);
    let row = if question.search { 0 } else { 5 };
    let (found, executed) = compare::lines(&code, lines, row);
    let (ours, plain) = times(&code, lines, row);
    let ratio = ours as f64 / plain as f64;
    println!(
        "| {} | {} | {} | {:.1} | {:.2} | {:.2} | {:.2} |",
        question.kind,
        code[0],
        found,
        executed as f64 / bytes as f64,
        ours as f64 / executed as f64,
        plain as f64 / executed as f64,
        ratio
    );
    ratio
}

/// Every match where each looks to the text's end: the sum of the counts grows with the square.
fn worst_case() {
    let pattern = b"a(?:.*b)?";
    let program = reference::compile::compile(pattern, 32 * (pattern.len() + 1), 12 * 1025);
    let code = program.expect("the pattern compiles").words();
    println!("every match of a(?:.*b)? in a text of a");
    println!("| bytes | matches | executed | milliseconds |");
    println!("|---|---|---|---|");
    for length in [80, 1_000, 4_000, 16_000] {
        let text = vec![b'a'; length];
        let (mut list, mut workspace) = (vec![0; 2 * (length + 1)], vec![5; words_needed(&code)]);
        let start = clock::nanoseconds();
        let (matches, count) = proved::all(&code, &text, &mut list, &mut workspace);
        let took = (clock::nanoseconds() - start) as f64 / 1e6;
        println!("| {length} | {matches} | {count} | {took:.1} |");
    }
}

fn main() {
    if std::env::args().nth(1).as_deref() == Some("long") {
        return long::counted();
    }
    let refused = compare::random_calls(RANDOM_CALLS, 5);
    println!("{} random calls agree, {} of them refused", RANDOM_CALLS, refused);
    let lines = storm::lines(LINES, 17);
    let bytes: usize = lines.iter().map(Vec::len).sum();
    println!("{} lines, {} bytes; medians of {} passes", LINES, bytes, SAMPLES);
    println!("| pattern | rows | found | executed per byte | proved | plain | ratio |");
    println!("|---|---|---|---|---|---|---|");
    let ratios = QUESTIONS.iter().map(|question| measured(question, &lines, bytes).ln());
    let mean = (ratios.sum::<f64>() / QUESTIONS.len() as f64).exp();
    println!("geometric mean of the ratios: {:.2}", mean);
    worst_case();
}
