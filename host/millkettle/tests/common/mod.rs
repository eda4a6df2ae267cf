//! What the tests share: the surface and the reference on the same bytes, and rounds by seeds.
#![allow(dead_code)]

use millkettle::raw::{self, Compiled, Ran};
use reference::compile::compile;
pub use reference::generate::Random;
use reference::intake::{CODE_WORDS, TABLE_WORDS, WORKSPACE_WORDS};
use reference::refusal::{refuse, Refusal, CODE_FAILS};
use reference::rows::Program;
use reference::steps::{run, Answer, Entry, Lent};
use std::io::Write;
use std::time::{SystemTime, UNIX_EPOCH};

/// Both ways to run.
pub const ENTRIES: [Entry; 2] = [Entry::MatchAt, Entry::Search];

/// "four bytes to a word, low byte first".
pub fn bytes_of(words: &[u32]) -> Vec<u8> {
    words.iter().flat_map(|word| word.to_le_bytes()).collect()
}

/// The words that bytes lend: a part word counts as not lent.
pub fn words_of(bytes: &[u8]) -> Vec<u32> {
    let word = |four: &[u8]| u32::from_le_bytes([four[0], four[1], four[2], four[3]]);
    bytes.chunks_exact(4).map(word).collect()
}

/// Registers as words.
pub fn register_words(spans: &[i32]) -> Vec<u32> {
    spans.iter().map(|&register| register as u32).collect()
}

/// Bytes that stand in a buffer before it is lent.
pub fn stale(random: &mut Random, length: usize) -> Vec<u8> {
    let mut bytes = Vec::with_capacity(length + 8);
    while bytes.len() < length {
        bytes.extend_from_slice(&random.next().to_le_bytes());
    }
    bytes.truncate(length);
    bytes
}

/// The bytes that are left in a buffer: new ones, and later ones as they were.
fn left_in(lent: &[u8], new: Vec<u8>) -> Vec<u8> {
    [&new, &lent[new.len()..]].concat()
}

/// The surface's call and the reference's, which compile alike.
pub struct Compilers {
    pub surface: fn(&[u8], &mut [u8]) -> Compiled,
    pub reference: fn(&[u8], usize, usize) -> Result<Program, Refusal>,
}

/// The compilers of the plain pattern.
pub const PLAIN: Compilers = Compilers { surface: raw::compile, reference: compile };

impl Compilers {
    /// Compiles into these lent bytes and compares the reply and every byte that is left.
    pub fn alike(&self, pattern: &[u8], lent: Vec<u8>) -> Result<Program, Refusal> {
        let room = (lent.len() / 4).min(CODE_WORDS);
        let expected = (self.reference)(pattern, TABLE_WORDS, room);
        let (reply, new) = match &expected {
            Err(Refusal { number, place }) => {
                (Compiled { number: *number, rows: 0, groups: 0, place: *place }, Vec::new())
            }
            Ok(program) => {
                let (rows, groups) = (program.n() as u32, program.groups());
                (Compiled { number: 0, rows, groups, place: 0 }, bytes_of(&program.words()))
            }
        };
        let left = left_in(&lent, new);
        let mut code = lent;
        let shown = pattern.escape_ascii();
        assert_eq!((self.surface)(pattern, &mut code), reply, "reply for {shown}");
        assert!(code == left, "code bytes for {shown}");
        expected
    }
}

/// Runs the surface's call of an entry.
pub fn run_raw(entry: Entry, code: &[u8], text: &[u8], start: usize, lent: &mut [u8]) -> Ran {
    match entry {
        Entry::MatchAt => raw::match_at(code, text, start, lent),
        Entry::Search => raw::search(code, text, start, lent),
    }
}

/// Runs the second engine's call of an entry.
pub fn second_raw(
    entry: Entry,
    code: &[u32],
    text: &[u8],
    start: usize,
    registers: &mut [i32],
    workspace: &mut [u32],
) -> Ran {
    match entry {
        Entry::MatchAt => raw::second_match(code, text, start, registers, workspace),
        Entry::Search => raw::second_search(code, text, start, registers, workspace),
    }
}

/// Runs code bytes on a text with these registers' bytes and compares the reply and every byte that
/// is left; the count is at most 2n for each position.
pub fn run_alike(
    entry: Entry,
    code: &[u8],
    text: &[u8],
    start: usize,
    lent: Vec<u8>,
) -> Result<Answer, Refusal> {
    let words = words_of(code);
    let room = Lent { registers: lent.len() / 4, workspace: WORKSPACE_WORDS };
    let expected = if words.len() > CODE_WORDS {
        refuse(CODE_FAILS, 0)
    } else {
        run(&words, text, start, room, entry)
    };
    let (reply, new) = match &expected {
        Err(refusal) => (Ran { number: refusal.number, found: 0, place: 0, count: 0 }, Vec::new()),
        Ok(Answer { spans, count }) => {
            assert!(*count <= 2 * u64::from(words[0]) * (text.len() - start + 1) as u64);
            let none = vec![-1; 2 * (words[1] as usize + 1)];
            let new = register_words(spans.as_ref().unwrap_or(&none));
            let found = u32::from(spans.is_some());
            (Ran { number: 0, found, place: 0, count: *count }, bytes_of(&new))
        }
    };
    let left = left_in(&lent, new);
    let mut registers = lent;
    let ran = run_raw(entry, code, text, start, &mut registers);
    let shown = text.escape_ascii();
    assert_eq!(ran, reply, "{entry:?} on {shown} from {start} with code {words:?}");
    assert_eq!(registers, left, "{entry:?} on {shown} from {start} with code {words:?}");
    expected
}

/// Says which seed made a round fail.
struct Round<'a> {
    test: &'a str,
    seed: u64,
}

impl Drop for Round<'_> {
    fn drop(&mut self) {
        if std::thread::panicking() {
            say(&format!("{} fails: MILLKETTLE_SEED={} MILLKETTLE_ROUNDS=1", self.test, self.seed));
        }
    }
}

/// Writes a line that the test's harness does not hold back.
fn say(line: &str) {
    // A test is no worse for a line that could not be written.
    let _ = writeln!(std::io::stderr(), "{line}");
}

fn number_from(variable: &str) -> Option<u64> {
    let value = std::env::var(variable).ok()?;
    Some(value.parse().unwrap_or_else(|_| panic!("{variable}={value} is no number")))
}

/// Whether all rounds run: neither a seed nor a number of rounds is asked for.
pub fn whole_run() -> bool {
    number_from("MILLKETTLE_SEED").or_else(|| number_from("MILLKETTLE_ROUNDS")).is_none()
}

/// So many rounds from the test's own seed and as many from the clock's, each round with a seed of
/// its own; or those that MILLKETTLE_SEED and MILLKETTLE_ROUNDS ask for.
pub fn rounds(test: &str, own: u64, rounds: u64, mut round: impl FnMut(&mut Random)) {
    let clock =
        SystemTime::now().duration_since(UNIX_EPOCH).map_or(0, |now| now.as_micros() as u64);
    let seeds = number_from("MILLKETTLE_SEED").map_or_else(|| vec![own, clock], |seed| vec![seed]);
    let rounds = number_from("MILLKETTLE_ROUNDS").unwrap_or(rounds);
    for first in seeds {
        say(&format!("{test}: seed {first}, {rounds} rounds"));
        for seed in (0..rounds).map(|number| first.wrapping_add(number)) {
            let _round = Round { test, seed };
            round(&mut Random::new(seed));
        }
    }
}
