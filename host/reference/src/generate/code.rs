//! Code words: such that pass the check though no pattern gives them, and
//! damaged ones that may or may not.

use super::Random;
use crate::compile::compile;
use crate::reader::GROUP_LIMIT;
use crate::rows::{ROW_LEAST, ROW_WORDS};
use crate::sets;

/// Code that passes the check: rows of any kind in any order, and anything
/// behind them.
pub fn code(random: &mut Random) -> Vec<u32> {
    let n = match random.below(10) {
        0 => random.between(40, 120),
        _ => random.between(ROW_LEAST as usize, 24),
    };
    let g = random.pick(&[0, 0, 1, 2, 3, GROUP_LIMIT as usize]).unwrap_or(0);
    let mut words = vec![n as u32, g as u32];
    words.resize(ROW_WORDS, 0);
    let few_accepts = random.percent(70);
    for row in 0..n {
        let kinds: &[u32] = match (row + 1 == n, few_accepts) {
            (true, _) => &[1, 3, 4, 9],
            (_, true) => &[2, 2, 2, 2, 3, 4, 4, 4, 5, 6, 7, 8, 9, 9, 10, 2, 4, 2, 4, 1],
            (_, false) => &[1, 2, 2, 3, 4, 4, 5, 6, 7, 8, 9, 10],
        };
        let kind = random.pick(kinds).unwrap_or(1);
        words.extend(row_words(random, kind, row, n, g));
    }
    if random.percent(30) {
        let behind = random.between(1, 20);
        words.extend((0..behind).map(|_| random.next() as u32));
    }
    words
}

/// Code with a word or two changed or cut off: compiled code or other.
pub fn damaged_code(random: &mut Random) -> Vec<u32> {
    let mut words = if random.percent(50) { code(random) } else { compiled(random) };
    for _ in 0..random.between(1, 2) {
        if random.percent(8) {
            words.truncate(random.below(words.len() + 1));
            continue;
        }
        // Often a row's first three words, which are the ones that matter.
        let row = random.below(words.len() / ROW_WORDS + 1);
        let column = if random.percent(85) { random.below(3) } else { random.below(ROW_WORDS) };
        let n = words.first().copied().unwrap_or(0);
        let value = match random.below(8) {
            0 => random.next() as u32,
            1 => n,
            2 => n.wrapping_sub(1),
            3 => u32::MAX,
            _ => random.below(17) as u32,
        };
        if let Some(word) = words.get_mut(ROW_WORDS * row + column) {
            *word = value;
        }
    }
    words
}

/// The code of a random pattern.
fn compiled(random: &mut Random) -> Vec<u32> {
    let pattern = super::pattern(random);
    compile(&pattern, usize::MAX, usize::MAX).map_or(Vec::new(), |program| program.words())
}

/// A row of this kind whose operands are in their bounds.
fn row_words(random: &mut Random, kind: u32, row: usize, n: usize, g: usize) -> Vec<u32> {
    let mut operands = [0, 0];
    match kind {
        3 | 9 => operands[0] = target(random, row, n),
        4 => operands = [target(random, row, n), target(random, row, n)],
        5 | 6 => operands[0] = random.between(0, g) as u32,
        7 if g == 0 || random.percent(50) => operands = [1, 0],
        7 => {
            let lowest = random.between(1, g);
            operands = [lowest as u32, random.between(lowest, g) as u32];
        }
        10 => operands[0] = random.below(4) as u32,
        _ => {}
    }
    let mut words = vec![kind, operands[0], operands[1], 0];
    let set = random.pick(&[sets::ALL, sets::one(b'a'), sets::range(b'a', b'b'), sets::dot()]);
    match set {
        Some(set) if kind == 2 => words.extend(set),
        _ => words.extend([0; 8]),
    }
    words
}

/// A target: often near, else anywhere.
fn target(random: &mut Random, row: usize, n: usize) -> u32 {
    if random.percent(60) {
        random.between(row.saturating_sub(3), (row + 4).min(n - 1)) as u32
    } else {
        random.below(n) as u32
    }
}
