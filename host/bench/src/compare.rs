//! The proved engine and the plain machine against the step machine of `reference`.

use crate::call::{words_needed, Answer, Call, Lent, Run};
use crate::{plain, proved};
use reference::generate::{self, Random};
use reference::steps::{self, Entry};

const MACHINES: [(&str, Run); 2] = [("proved", proved::run), ("plain", plain::run)];

/// What the outline's steps answer, refusals too, and what they leave in registers that held 7.
pub fn expected(call: &Call, registers: usize, workspace: usize) -> (Answer, Vec<i32>) {
    let entry = if call.row == 0 { Entry::Search } else { Entry::MatchAt };
    let lent = steps::Lent { registers, workspace };
    let mut left = vec![7; registers];
    match steps::run(call.code, call.text, call.start, lent, entry) {
        Err(refusal) => (Answer { number: refusal.number, rows: 0 }, left),
        Ok(answer) => {
            let number = u32::from(answer.spans.is_some());
            let width = 2 * (call.code[1] as usize + 1);
            left[..width].copy_from_slice(&answer.spans.unwrap_or_else(|| vec![-1; width]));
            (Answer { number, rows: answer.count }, left)
        }
    }
}

/// The answer that all three give, with the same registers.
pub fn agreed(call: &Call, registers: usize, workspace: &mut [u32]) -> Answer {
    let (answer, left) = expected(call, registers, workspace.len());
    for (name, run) in MACHINES {
        let mut found = vec![7; registers];
        assert_eq!(run(call, &mut found, workspace), answer, "{} on {:?}", name, call);
        assert_eq!(found, left, "{} on {:?}", name, call);
    }
    answer
}

/// How many lines matched, and the rows executed on all of them.
pub fn lines(code: &[u32], lines: &[Vec<u8>], row: usize) -> (usize, u64) {
    let mut lent = Lent::new(0, words_needed(code));
    let answers = lines.iter().map(|line| {
        let call = Call { code, text: line, start: 0, row };
        agreed(&call, 32, &mut lent.workspace)
    });
    answers
        .fold((0, 0), |(found, rows), answer| (found + answer.number as usize, rows + answer.rows))
}

/// Any code, a start that may be beyond the text, and now and then a register or a word too few.
/// How many calls were refused.
pub fn random_calls(count: usize, seed: u64) -> usize {
    let mut random = Random::new(seed);
    let mut refused = 0;
    let mut workspace = vec![5; 16 * 1024 * 33];
    for _ in 0..count {
        let whole = random.percent(80);
        let code =
            if whole { generate::code(&mut random) } else { generate::damaged_code(&mut random) };
        let text = generate::text(&mut random, br"(?:a|b)*c?\d");
        let (n, g) = match code.get(..2) {
            Some(&[n @ 0..=1024, g @ 0..=31]) => (n as usize, g as usize),
            _ => (8, 0),
        };
        let registers = 2 * (g + 1) + random.below(3) - usize::from(random.percent(5));
        let words = (16 * n * (g + 2)).saturating_sub(usize::from(random.percent(5)));
        let start = random.below(text.len() + 2);
        let call = Call { code: &code, text: &text, start, row: 5 * random.below(2) };
        let answer = agreed(&call, registers, &mut workspace[..words]);
        refused += usize::from(answer.number >= 20);
    }
    refused
}
