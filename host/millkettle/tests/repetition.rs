//! The calls on lent words against the reference on random code and texts: reply, list, registers,
//! table and code, and the words that a call leaves alone.

mod common;
use common::{rounds, whole_run, Random};
use millkettle::words::{self, Compiled, Listed, Ran};
use millkettle::Pattern;
use reference::compile::compile;
use reference::generate::{code, damaged_code, damaged_pattern, long_text, pattern, text};
use reference::matcher::standard;
use reference::reader::read;
use reference::refusal::{Refusal, LIST_TOO_SHORT};
use reference::repetition::{repeated, search_all, Listing};
use reference::steps::{run, Answer, Entry, Lent};
use std::cell::Cell;

/// Words that stand in a buffer before it is lent.
fn stale(random: &mut Random, length: usize) -> Vec<u32> {
    (0..length).map(|_| random.next() as u32).collect()
}

fn stale_list(random: &mut Random, length: usize) -> Vec<i32> {
    stale(random, length).into_iter().map(|word| word as i32).collect()
}

/// A workspace for code: mostly as large as is needed or larger, else anything.
fn workspace_for(random: &mut Random, code: &[u32]) -> Vec<u32> {
    let (rows, groups) = match code {
        [n, g, ..] => (*n.min(&1_024), *g.min(&31)),
        _ => (0, 0),
    };
    let needed = words::workspace_words(rows, groups);
    let length = match random.below(8) {
        0 => needed.saturating_sub(1),
        1 => random.below(needed + 1),
        _ => needed + random.below(9),
    };
    stale(random, length)
}

/// A start: often 0, else anywhere in the text, seldom beyond it.
fn start_in(random: &mut Random, text: &[u8]) -> usize {
    match random.below(50) {
        0 => text.len() + random.between(1, 3),
        1..=24 => 0,
        _ => random.below(text.len() + 1),
    }
}

/// What the workspace may hold after a call that was not turned away: later words stay.
fn later_stay(code: &[u32], before: &[u32], after: &[u32]) {
    let needed = words::workspace_words(code[0], code[1]);
    assert_eq!(before[needed..], after[needed..], "later words of the workspace stay");
}

/// How the calls went.
#[derive(Default)]
struct Tally {
    listed: u32,
    matches: usize,
    short: u32,
    refused: [u32; 26],
}

impl Tally {
    /// Every match of code, in a list of about the length that is needed.
    fn list(&mut self, random: &mut Random, code: &[u32], text: &[u8]) {
        let start = start_in(random, text);
        let workspace = workspace_for(random, code);
        let enough = search_all(code, text, start, usize::MAX, workspace.len());
        let needed = match &enough {
            Ok(Listing::Listed { matches, .. }) => matches.concat().len(),
            _ => random.below(9),
        };
        let length = match random.below(8) {
            0 => needed.saturating_sub(1),
            1 => random.below(needed + 1),
            2 => needed,
            // As many words as there can be, and more: one pass.
            3 => 64 * (text.len() + 2),
            _ => needed + random.below(9),
        };
        let list = stale_list(random, length);
        let expected = search_all(code, text, start, length, workspace.len());
        let (mut held, mut left) = (workspace.clone(), list.clone());
        let listed = words::search_all(code, text, start, &mut left, &mut held);
        let shown = text.escape_ascii();
        let on = || format!("on {shown} from {start} with {length} words and code {code:?}");
        let none = Listed { number: 0, place: 0, matches: 0, needed: 0, count: 0 };
        match expected {
            Ok(Listing::Listed { matches, count }) => {
                let spans = matches.concat();
                let whole = [&spans[..], &list[spans.len()..]].concat();
                assert_eq!(listed, Listed { matches: matches.len(), count, ..none }, "{}", on());
                assert_eq!(left, whole, "{}", on());
                later_stay(code, &workspace, &held);
                self.listed += 1;
                self.matches += matches.len();
            }
            Ok(Listing::Short { needed }) => {
                assert_eq!(listed, Listed { number: LIST_TOO_SHORT, needed, ..none }, "{}", on());
                assert_eq!(left, list, "{}", on());
                later_stay(code, &workspace, &held);
                self.short += 1;
            }
            Err(Refusal { number, .. }) => {
                assert_eq!(listed, Listed { number, ..none }, "{}", on());
                assert!(left == list && held == workspace, "nothing changed: {}", on());
                self.refused[number as usize] += 1;
            }
        }
    }

    fn enough(&self, listed: u32, matches: usize, short: u32) {
        if whole_run() {
            let went = (self.listed, self.matches, self.short);
            assert!(went.0 >= listed && went.1 >= matches && went.2 >= short, "{went:?}");
        }
    }
}

/// A pattern's code, with room for any.
fn code_of(pattern: &[u8]) -> Option<Vec<u32>> {
    Some(compile(pattern, usize::MAX, usize::MAX).ok()?.words())
}

#[test]
fn compiled_code() {
    let mut tally = Tally::default();
    rounds("every match of compiled code", 21_000_000, 15_000, |random| {
        let bytes = pattern(random);
        if let Some(code) = code_of(&bytes) {
            let text = if random.percent(2) {
                long_text(random, &bytes, 300)
            } else {
                text(random, &bytes)
            };
            tally.list(random, &code, &text);
        }
    });
    tally.enough(5_000, 5_000, 1_000);
    if whole_run() {
        assert!(tally.refused[22] > 0 && tally.refused[24] > 0);
    }
}

#[test]
fn damaged() {
    let mut tally = Tally::default();
    rounds("every match of damaged code", 22_000_000, 15_000, |random| {
        let code = damaged_code(random);
        let text = text(random, b"ab");
        tally.list(random, &code, &text);
    });
    tally.enough(2_000, 1_000, 100);
    if whole_run() {
        assert!(tally.refused[20] > 1_000);
    }
}

#[test]
fn rows_in_any_order() {
    let mut tally = Tally::default();
    rounds("every match of rows in any order", 23_000_000, 15_000, |random| {
        let code = code(random);
        let text =
            if random.percent(2) { long_text(random, b"ab", 300) } else { text(random, b"ab") };
        tally.list(random, &code, &text);
    });
    tally.enough(5_000, 5_000, 500);
}

/// The wrapper's matches are those of the standard's own matcher, over and over.
#[test]
fn the_standards_matches() {
    let mut matches = 0;
    rounds("every match by the standard's matcher", 24_000_000, 3_000, |random| {
        let bytes = pattern(random);
        let (reading, pattern) = match (read(&bytes, usize::MAX), Pattern::new(&bytes)) {
            (Ok(reading), Ok(pattern)) => (reading, pattern),
            _ => return,
        };
        let text = text(random, &bytes);
        let gave_up = Cell::new(false);
        let (expected, _) = repeated(text.len(), 0, |from| {
            let found = standard::search(&reading, &text, from);
            gave_up.set(gave_up.get() || found.is_err());
            (found.unwrap_or(None), 0)
        });
        if gave_up.get() {
            return;
        }
        let found: Vec<Vec<i32>> =
            pattern.captures_iter(&text).unwrap().map(|found| found.spans().to_vec()).collect();
        let shown = (bytes.escape_ascii(), text.escape_ascii());
        assert_eq!(found, expected, "{} on {}", shown.0, shown.1);
        let places: Vec<_> = pattern.find_iter(&text).unwrap().collect();
        assert!(places.windows(2).all(|two| two[0].start < two[1].start), "each once");
        matches += found.len();
    });
    if whole_run() {
        assert!(matches > 1_000);
    }
}

/// Compiling into lent words: reply, table and code, on both sides of 2 and 16.
#[test]
fn compiling() {
    let (mut taken, mut refused) = (0, 0);
    rounds("compiling into lent words", 25_000_000, 8_000, |random| {
        let bytes = if random.percent(60) { pattern(random) } else { damaged_pattern(random) };
        let rows = code_of(&bytes).map_or(20, |code| code[0] as usize);
        let table_words = 32 * (bytes.len() + 1) - usize::from(random.percent(10));
        let code_words = 12 * (rows + 1) + random.below(3) - usize::from(random.percent(20));
        let (mut table, mut code) = (stale(random, table_words), stale(random, code_words));
        let before = (table.clone(), code.clone());
        let compiled = words::compile(&bytes, &mut table, &mut code);
        match compile(&bytes, table_words, code_words) {
            Ok(program) => {
                let (rows, groups) = (program.n() as u32, program.groups());
                assert_eq!(compiled, Compiled { number: 0, rows, groups, place: 0 });
                let new = program.words();
                assert_eq!(code, [&new[..], &before.1[new.len()..]].concat());
                taken += 1;
            }
            Err(Refusal { number, place }) => {
                assert_eq!(compiled, Compiled { number, rows: 0, groups: 0, place });
                let zeros = vec![0; table_words];
                assert_eq!(table, if number < 4 { before.0 } else { zeros }, "refused {number}");
                assert_eq!(code, before.1);
                refused += 1;
            }
        }
    });
    if whole_run() {
        assert!(taken > 2_000 && refused > 2_000);
    }
}

/// One run into lent words, either way.
#[test]
fn running() {
    let (mut ran, mut refused) = (0, 0);
    rounds("a run on lent words", 26_000_000, 8_000, |random| {
        let code = if random.percent(50) { code(random) } else { damaged_code(random) };
        let text = text(random, b"ab");
        let (start, workspace) = (start_in(random, &text), workspace_for(random, &code));
        let length = if random.percent(90) { 32 + random.below(4) } else { random.below(34) };
        let registers = stale_list(random, length);
        let lent = Lent { registers: registers.len(), workspace: workspace.len() };
        for entry in [Entry::MatchAt, Entry::Search] {
            let call = if entry == Entry::Search { words::search } else { words::match_at };
            let (mut left, mut held) = (registers.clone(), workspace.clone());
            let reply = call(&code, &text, start, &mut left, &mut held);
            match run(&code, &text, start, lent, entry) {
                Ok(Answer { spans, count }) => {
                    let found = u32::from(spans.is_some());
                    assert_eq!(reply, Ran { number: 0, found, place: 0, count });
                    let new = spans.unwrap_or(vec![-1; 2 * (code[1] as usize + 1)]);
                    assert_eq!(left, [&new[..], &registers[new.len()..]].concat());
                    later_stay(&code, &workspace, &held);
                    ran += 1;
                }
                Err(Refusal { number, .. }) => {
                    assert_eq!(reply, Ran { number, found: 0, place: 0, count: 0 });
                    assert!(left == registers && held == workspace, "nothing changed");
                    refused += 1;
                }
            }
        }
    });
    if whole_run() {
        assert!(ran > 5_000 && refused > 2_000);
    }
}

/// What is beyond the surface on bytes: 2,048 bytes, 1,024 rows, all groups.
#[test]
fn beyond_the_intakes_sizes() {
    let long = [b"[".to_vec(), vec![b'a'; 2_046], b"]".to_vec()].concat();
    let class = Pattern::new(&long).unwrap();
    assert_eq!(class.find_iter(b"bab").unwrap().collect::<Vec<_>>(), [1..2]);
    let refused = |bytes: &[u8]| Pattern::new(bytes).unwrap_err().number();
    assert_eq!(refused(&[b'a'; 2_049]), 1);
    assert_eq!(refused(b"a{509}"), 15);
    let rows = Pattern::new(b"a{508}").unwrap();
    assert_eq!(rows.rows(), 1_024);
    let text = vec![b'a'; 1_100];
    assert_eq!(rows.find_iter(&text).unwrap().collect::<Vec<_>>(), [0..508, 508..1_016]);
    assert_eq!(rows.search(&text, 600).unwrap(), None);
    let groups = Pattern::new(&b"(a?)".repeat(15)).unwrap();
    let found = groups.match_at(b"aab", 0).unwrap().unwrap();
    assert_eq!((found.end(), found.group(2), found.group(3)), (2, Some((1, 2)), Some((2, 2))));
}
