//! The surface against the reference on random patterns and texts: reply, code bytes, spans, count.

mod common;
use common::*;
use millkettle::{Entry as Way, Pattern};
use reference::compile::compile;
use reference::generate::{damaged_pattern, long_text, pattern, text};
use reference::matcher::{memory, standard};
use reference::reader::{read, Reading};
use reference::refusal::Refusal;
use reference::rows::Program;
use reference::steps::{Answer, Entry};

/// How many lent bytes: mostly room for all, else about as many as the pattern might need.
fn lent_code(random: &mut Random) -> Vec<u8> {
    let length = match random.below(4) {
        0 => random.between(400, 1_200),
        1 => random.between(4_640, 4_700),
        _ => 4_656,
    };
    stale(random, length)
}

/// Registers' bytes: mostly enough.
fn lent_registers(random: &mut Random) -> Vec<u8> {
    let length = if random.percent(90) { random.between(256, 268) } else { random.below(268) };
    stale(random, length)
}

/// A start: often 0, else anywhere in the text, seldom beyond it.
fn start_in(random: &mut Random, text: &[u8]) -> usize {
    match random.below(50) {
        0 => text.len() + random.between(1, 3),
        1..=24 => 0,
        _ => random.below(text.len() + 1),
    }
}

/// What came of the rounds.
#[derive(Default)]
struct Tally {
    refused: [u32; 25],
    found: u32,
    none: u32,
}

/// A pattern that is taken, as the reference and as the safe wrapper have it.
struct Taken {
    reading: Reading,
    program: Program,
    pattern: Pattern,
}

/// A run from a start, either way.
struct Run<'a> {
    entry: Entry,
    text: &'a [u8],
    start: usize,
}

impl Taken {
    /// The reference's two other matchers agree on the spans, unless the standard's takes too long.
    fn matchers_agree(&self, run: &Run, answer: &Answer) {
        let &Run { entry, text, start } = run;
        let (remembered, standard) = match entry {
            Entry::MatchAt => (
                memory::match_at(&self.program, text, start),
                standard::match_at(&self.reading, text, start),
            ),
            Entry::Search => (
                memory::search(&self.program, text, start),
                standard::search(&self.reading, text, start),
            ),
        };
        let shown = self.pattern.bytes().escape_ascii();
        assert_eq!(remembered, answer.spans, "{shown} with memory");
        assert_eq!(standard.unwrap_or(remembered), answer.spans, "{shown} by the standard");
    }

    /// The safe wrapper says the same as the bytes.
    fn wrapper_agrees(&self, run: &Run, answer: &Answer) {
        let way = match run.entry {
            Entry::MatchAt => Way::MatchAt,
            Entry::Search => Way::Search,
        };
        let said = self.pattern.run(way, run.text, run.start).expect("a run that is taken");
        assert_eq!(said.found.as_ref().map(|found| found.spans().to_vec()), answer.spans);
        assert_eq!(said.rows_executed, answer.count);
    }
}

impl Tally {
    /// Compiles a pattern; the safe wrapper takes it and refuses it as well, but for want of room.
    fn compile(&mut self, random: &mut Random, bytes: &[u8]) -> Option<Taken> {
        let lent = lent_code(random);
        let wrapped = Pattern::new(bytes).map_err(|error| (error.number(), error.place()));
        match PLAIN.alike(bytes, lent) {
            Ok(program) => {
                let pattern = wrapped.expect("a pattern that is taken");
                assert_eq!(pattern.code(), bytes_of(&program.words()));
                let reading = read(bytes, usize::MAX).expect("a pattern that is taken");
                Some(Taken { reading, program, pattern })
            }
            Err(Refusal { number, place }) => {
                self.refused[number as usize] += 1;
                // For want of room the wrapper takes the calls on words.
                let whole = compile(bytes, usize::MAX, usize::MAX).map(|program| program.words());
                let whole = whole.map_err(|refusal| (refusal.number, refusal.place));
                assert!(number == 2 || number == 16 || whole == Err((number, place)));
                assert_eq!(wrapped.map(|pattern| pattern.words().to_vec()), whole);
                None
            }
        }
    }

    /// Runs a taken pattern on a text, both ways.
    fn run(&mut self, random: &mut Random, taken: &Taken, text: &[u8]) {
        let behind = random.below(8);
        let code = [taken.pattern.code(), &stale(random, behind)].concat();
        let start = start_in(random, text);
        for entry in ENTRIES {
            let registers = lent_registers(random);
            match run_alike(entry, &code, text, start, registers) {
                Err(Refusal { number, .. }) => self.refused[number as usize] += 1,
                Ok(answer) => {
                    let run = Run { entry, text, start };
                    taken.matchers_agree(&run, &answer);
                    taken.wrapper_agrees(&run, &answer);
                    match answer.spans {
                        Some(_) => self.found += 1,
                        None => self.none += 1,
                    }
                }
            }
        }
    }

    /// Each of these refusals came up more than so many times.
    fn refused_more_than(&self, times: u32, numbers: &[usize]) {
        for &number in numbers {
            assert!(self.refused[number] > times, "{number}: {:?}", self.refused);
        }
    }
}

/// A pattern behind about as many open parentheses as may be, within 128 bytes.
fn deep(random: &mut Random, bytes: &[u8]) -> Vec<u8> {
    let levels = random.between(30, 34);
    let mut deep = [&b"(?:".repeat(levels), bytes].concat();
    deep.truncate(128);
    deep
}

#[test]
fn patterns_and_short_texts() {
    let mut tally = Tally::default();
    rounds("patterns and short texts", 1_000_000, 10_000, |random| {
        let bytes = pattern(random);
        if let Some(taken) = tally.compile(random, &bytes) {
            for _ in 0..3 {
                let text = text(random, &bytes);
                tally.run(random, &taken, &text);
            }
        }
    });
    if whole_run() {
        assert!(tally.found > 10_000 && tally.none > 10_000, "{} {}", tally.found, tally.none);
        tally.refused_more_than(10, &[2, 15, 16, 20, 22, 23, 24]);
    }
}

#[test]
fn patterns_and_long_texts() {
    let mut tally = Tally::default();
    rounds("patterns and long texts", 2_000_000, 800, |random| {
        let bytes = pattern(random);
        if let Some(taken) = tally.compile(random, &bytes) {
            let text = long_text(random, &bytes, 1_500);
            tally.run(random, &taken, &text);
        }
    });
    if whole_run() {
        assert!(tally.found > 100 && tally.none > 20, "{} {}", tally.found, tally.none);
    }
}

#[test]
fn damaged_patterns() {
    let mut tally = Tally::default();
    rounds("damaged patterns", 3_000_000, 20_000, |random| {
        let mut bytes = damaged_pattern(random);
        if random.percent(2) {
            bytes = deep(random, &bytes);
        }
        if let Some(taken) = tally.compile(random, &bytes) {
            let text = text(random, &bytes);
            tally.run(random, &taken, &text);
        }
    });
    if whole_run() {
        tally.refused_more_than(0, &[2, 3, 4, 5, 6, 7, 8, 9, 10, 11, 12, 13, 14, 15, 16]);
    }
}

#[test]
fn random_bytes_as_patterns() {
    let mut tally = Tally::default();
    rounds("random bytes as patterns", 4_000_000, 20_000, |random| {
        let most = if random.percent(95) { 12 } else { 140 };
        let length = random.below(most);
        let syntax = random.percent(80);
        let byte = |random: &mut Random| match syntax {
            true => random.byte_of(br"^$\.*+?()[]{}|ab01,-:=!<dkuxc"),
            false => random.below(0x81) as u8,
        };
        let bytes: Vec<u8> = (0..length).map(|_| byte(random)).collect();
        if let Some(taken) = tally.compile(random, &bytes) {
            let text = text(random, &bytes);
            tally.run(random, &taken, &text);
        }
    });
    if whole_run() {
        tally.refused_more_than(10, &[2, 3, 4, 5, 6, 7, 10, 11, 12]);
    }
}
