//! The second engine: against the main one and against the reference's own, on random code of every
//! shape and on patterns; both sides of both limits; rows and time beside the main engine's.

mod common;
use common::*;
use millkettle::raw::{second_workspace_words, Ran};
use millkettle::{Entry as Way, Pattern};
use reference::generate::{code, damaged_code, long_text, pattern, text};
use reference::refusal::Refusal;
use reference::second;
use reference::steps::{run, Answer, Entry, Lent};
use std::time::{Duration, Instant};

/// A word or register before a call.
const STALE: u32 = 0xA5A5_A5A5;

/// Runs code words by the second engine in so many registers and words and compares reply, registers
/// and the words behind those that are needed with the reference's.
fn alike(
    entry: Entry,
    code: &[u32],
    text: &[u8],
    start: usize,
    lent: Lent,
) -> Result<Answer, Refusal> {
    let expected = second::run(code, text, start, lent, entry);
    let mut registers = vec![STALE as i32; lent.registers];
    let mut workspace = vec![STALE; lent.workspace];
    let ran = second_raw(entry, code, text, start, &mut registers, &mut workspace);
    let (reply, spans, needed) = match &expected {
        Err(refusal) => (Ran { number: refusal.number, found: 0, place: 0, count: 0 }, vec![], 0),
        Ok(Answer { spans, count }) => {
            let (n, g) = (code[0] as usize, code[1] as usize);
            assert!(*count <= 2 * n as u64 * (text.len() - start + 1) as u64);
            let left = spans.clone().unwrap_or(vec![-1; 2 * (g + 1)]);
            let found = u32::from(spans.is_some());
            let needed = second_workspace_words(n, g, text.len());
            (Ran { number: 0, found, place: 0, count: *count }, left, needed)
        }
    };
    assert_eq!(ran, reply, "{entry:?} from {start} with code {code:?}");
    assert_eq!(registers[..spans.len()], spans, "{entry:?} from {start} with code {code:?}");
    assert!(registers[spans.len()..].iter().all(|&register| register == STALE as i32));
    assert!(workspace[needed..].iter().all(|&word| word == STALE), "later words stay");
    expected
}

/// Room for code on a text: mostly enough, else a register or a word too few.
fn room(random: &mut Random, code: &[u32], text: &[u8]) -> Lent {
    let n = code.first().map_or(8, |&n| n.min(1_024) as usize);
    let g = code.get(1).map_or(0, |&g| g.min(31) as usize);
    let workspace = second_workspace_words(n, g, text.len());
    match random.below(20) {
        0 => Lent { registers: 2 * g + 1, workspace },
        1 => Lent { registers: 2 * g + 2, workspace: workspace - 1 },
        _ => {
            Lent { registers: 2 * g + random.between(2, 5), workspace: workspace + random.below(4) }
        }
    }
}

#[test]
fn random_code() {
    let (mut found, mut none, mut refused) = (0, 0, 0);
    rounds("the second engine on random code", 8_000_000, 4_000, |random| {
        let code = if random.percent(90) { code(random) } else { damaged_code(random) };
        let text = text(random, b"ab");
        let start = random.below(text.len() + 1);
        for entry in ENTRIES {
            let lent = room(random, &code, &text);
            match alike(entry, &code, &text, start, lent) {
                Err(_) => refused += 1,
                Ok(second) => {
                    let main = Lent { registers: 64, workspace: usize::MAX };
                    let main = run(&code, &text, start, main, entry).expect("code that passes");
                    assert_eq!(second.spans, main.spans, "{entry:?} with code {code:?}");
                    match second.spans {
                        Some(_) => found += 1,
                        None => none += 1,
                    }
                }
            }
        }
    });
    if whole_run() {
        assert!(found > 2_000 && none > 2_000 && refused > 500, "{found} {none} {refused}");
    }
}

#[test]
fn opinions_agree() {
    rounds("second opinions", 9_000_000, 2_000, |random| {
        let bytes = pattern(random);
        if let Ok(pattern) = Pattern::new(&bytes) {
            let text = long_text(random, &bytes, 200);
            for way in [Way::MatchAt, Way::Search] {
                if let Ok(opinion) = pattern.second_opinion(way, &text, 0) {
                    assert!(opinion.agrees(), "{}: {opinion:?}", bytes.escape_ascii());
                }
            }
        }
    });
}

/// The number of a search's refusal on so many bytes `b`, with so many words.
fn number(code: &[u32], length: usize, workspace: usize) -> u32 {
    let text = vec![b'b'; length];
    let lent = Lent { registers: 2, workspace };
    alike(Entry::Search, code, &text, 0, lent).map_or_else(|refusal| refusal.number, |_| 0)
}

#[test]
fn both_limits() {
    let code = words_of(Pattern::new(b"a").expect("a pattern").code());
    let enough = second_workspace_words(9, 0, 4_097);
    assert_eq!((number(&code, 4_096, enough), number(&code, 4_097, enough)), (0, 21));
    for length in [0, 1, 100, 4_096] {
        let words = second_workspace_words(9, 0, length);
        assert_eq!((number(&code, length, words), number(&code, length, words - 1)), (0, 24));
    }
    let pattern = Pattern::new(b"a").expect("a pattern");
    let refused = pattern.second_opinion(Way::Search, &[b'a'; 4_097], 0).unwrap_err();
    assert_eq!(refused.number(), 21);
}

#[test]
fn nested_loops_on_the_longest_text() {
    let opinion = Pattern::new(b"(?:a*)*b").expect("a pattern");
    let opinion = opinion.second_opinion(Way::Search, &[b'a'; 4_096], 0).expect("both take it");
    assert!(opinion.agrees() && opinion.first.found.is_none());
    // What nothing is found for is tried by both alike.
    assert_eq!((opinion.first.rows_executed, opinion.second.rows_executed), (77_838, 77_838));
}

/// Rows and time of both engines on some patterns, for docs/SPEED.md: run with `--nocapture`.
#[test]
fn rows_and_time() {
    let text: Vec<u8> = b"L03 06:15 level 1.42 m rising ".repeat(10);
    for bytes in
        [&br"(L\d\d) (\d\d:\d\d) level (\d+)"[..], br"(?:a*)*b", br"rising$", br"\d+\.\d+ cm"]
    {
        let pattern = Pattern::new(bytes).expect("a pattern");
        let opinion = pattern.second_opinion(Way::Search, &text, 0).expect("both take it");
        assert!(opinion.agrees());
        let time = |ask: &dyn Fn()| -> Duration {
            let begun = Instant::now();
            (0..20).for_each(|_| ask());
            begun.elapsed() / 20
        };
        let first = time(&|| drop(pattern.search(&text, 0)));
        let both = time(&|| drop(pattern.second_opinion(Way::Search, &text, 0)));
        println!(
            "{}: rows {} and {}, time {:?} and {:?}",
            bytes.escape_ascii(),
            opinion.first.rows_executed,
            opinion.second.rows_executed,
            first,
            both.saturating_sub(first),
        );
    }
}
