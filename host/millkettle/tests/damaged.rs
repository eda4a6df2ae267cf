//! Damaged rows: random words as code, and compiled code with words or bytes changed. Code is
//! refused with 20 exactly when the reference's check refuses it; other code has the same reply and
//! registers, and a count within 2n for each position.

mod common;
use common::*;
use reference::compile::compile;
use reference::generate::{code, damaged_code, long_text, pattern, text};
use reference::rows::ROW_WORDS;

/// How many runs were refused with 20, and how many ran.
#[derive(Default)]
struct Tally {
    failed: u32,
    ran: u32,
}

impl Tally {
    /// Runs code bytes, with a part word behind, on a text, both ways.
    fn run(&mut self, random: &mut Random, mut code: Vec<u8>, text: &[u8]) {
        let behind = random.below(4);
        code.extend(stale(random, behind));
        let start = random.below(text.len() + 1);
        for entry in ENTRIES {
            let registers = stale(random, 256);
            match run_alike(entry, &code, text, start, registers) {
                Ok(_) => self.ran += 1,
                Err(refusal) => self.failed += u32::from(refusal.number == 20),
            }
        }
    }

    fn enough(&self, failed: u32, ran: u32) {
        if whole_run() {
            assert!(self.failed >= failed && self.ran >= ran, "{} {}", self.failed, self.ran);
        }
    }
}

/// Words of any value, at most a few more than there is room for.
fn any_words(random: &mut Random) -> Vec<u32> {
    let length = if random.percent(10) { random.below(1_170) } else { random.below(200) };
    (0..length).map(|_| random.next() as u32).collect()
}

/// Rows of any kind whose operands are below the number of rows, some with a stray word: some pass
/// the check.
fn small_words(random: &mut Random) -> Vec<u32> {
    let n = random.between(8, 11);
    let mut words = vec![0; ROW_WORDS * (n + 1)];
    words[0] = n as u32;
    words[1] = random.between(10, 15) as u32;
    for row in words.chunks_exact_mut(ROW_WORDS).skip(1) {
        row[0] = random.below(n) as u32;
        let operands = match row[0] {
            3 | 5 | 6 | 9 | 10 => 1,
            4 | 7 => 2,
            _ => 0,
        };
        row[1..operands + 1].fill_with(|| random.below(n) as u32);
        if row[0] == 2 {
            row[4..].fill_with(|| random.next() as u32);
        }
    }
    let last = random.pick(&[1, 3, 4, 9]).unwrap_or(1);
    words[ROW_WORDS * n..].fill(0);
    words[ROW_WORDS * n] = last;
    if random.percent(10) {
        let stray = random.below(words.len());
        words[stray] = random.below(n) as u32;
    }
    words
}

/// A place in code's bytes: often in a Consume's set or in a first operand, else anywhere.
fn place(random: &mut Random, code: &[u8]) -> usize {
    let row = 4 * ROW_WORDS * random.between(1, code.len() / (4 * ROW_WORDS) - 1);
    match (random.percent(70), code[row]) {
        (true, 2) => row + random.between(16, 47),
        (true, _) => row + 4,
        _ => random.below(code.len()),
    }
}

#[test]
fn random_words() {
    let mut tally = Tally::default();
    rounds("random words as code", 5_000_000, 5_000, |random| {
        let text = text(random, b"ab");
        let words = any_words(random);
        tally.run(random, bytes_of(&words), &text);
        // The same under a header that says as many rows as there are.
        let mut headed = words;
        if headed.len() > ROW_WORDS {
            headed[0] = (headed.len() / ROW_WORDS - 1) as u32;
            headed[1] = random.below(17) as u32;
        }
        tally.run(random, bytes_of(&headed), &text);
    });
    tally.enough(30_000, 0);
}

#[test]
fn small_random_words() {
    let mut tally = Tally::default();
    rounds("small random words as code", 6_000_000, 30_000, |random| {
        let words = small_words(random);
        let text = text(random, b"ab");
        tally.run(random, bytes_of(&words), &text);
    });
    tally.enough(10_000, 1_000);
}

#[test]
fn code_that_passes() {
    let mut tally = Tally::default();
    rounds("rows in any order", 7_000_000, 10_000, |random| {
        let words = code(random);
        let text =
            if random.percent(2) { long_text(random, b"ab", 500) } else { text(random, b"ab") };
        tally.run(random, bytes_of(&words), &text);
    });
    tally.enough(0, 10_000);
}

#[test]
fn damaged_words() {
    let mut tally = Tally::default();
    rounds("damaged code words", 8_000_000, 15_000, |random| {
        let words = damaged_code(random);
        let text = text(random, b"ab");
        tally.run(random, bytes_of(&words), &text);
    });
    tally.enough(5_000, 5_000);
}

#[test]
fn damaged_bytes() {
    let mut tally = Tally::default();
    rounds("damaged code bytes", 9_000_000, 8_000, |random| {
        let bytes = pattern(random);
        if let Ok(program) = compile(&bytes, usize::MAX, 1_164) {
            let mut code = bytes_of(&program.words());
            for _ in 0..random.between(1, 3) {
                let at = place(random, &code);
                code[at] ^= 1 << random.below(8);
            }
            if random.percent(10) {
                let length = random.below(code.len() + 1);
                code.truncate(length);
            }
            let text = text(random, &bytes);
            tally.run(random, code, &text);
        }
    });
    tally.enough(2_000, 2_000);
}
