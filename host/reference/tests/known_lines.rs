//! The lines whose answers are known, the intake program's vectors, and "Errors that look right".

mod common;
use common::*;
use reference::compile::{compile, compile_tidied};
use reference::fields::{self, Gate, Reading};
use reference::intake;
use reference::lines::{lines, Answers, Listed, Run};
use reference::refusal::{Refusal, LIST_TOO_SHORT};
use reference::repetition::{search_all, Listing};
use reference::second;
use reference::steps::{run, Answer, Entry, Lent};
use reference::tidier::tidy;
use std::fs;
use std::path::{Path, PathBuf};

/// The reference, with room for everything.
struct Reference;

/// Registers as a run leaves them, and its answer.
fn left(answer: Answer, code: &[u32], registers: &mut [i32; 4]) -> (bool, u64) {
    let spans = answer.spans.clone().unwrap_or(vec![-1; 2 * (code[1] as usize + 1)]);
    registers[..spans.len()].copy_from_slice(&spans);
    (answer.spans.is_some(), answer.count)
}

impl Answers for Reference {
    fn compile(&self, pattern: &[u8], tidied: bool) -> Result<Vec<u32>, Refusal> {
        let compile = if tidied { compile_tidied } else { compile };
        compile(pattern, ROOM, ROOM).map(|program| program.words())
    }

    fn run(&self, code: &[u32], on: Run, registers: &mut [i32; 4]) -> Result<(bool, u64), Refusal> {
        let lent = Lent { registers: 4, workspace: ROOM };
        let answer = run(code, on.text, on.start, lent, on.entry)?;
        Ok(left(answer, code, registers))
    }

    fn second(
        &self,
        code: &[u32],
        on: Run,
        registers: &mut [i32; 4],
    ) -> Result<(bool, u64), Refusal> {
        let lent = Lent { registers: 4, workspace: ROOM };
        let answer = second::run(code, on.text, on.start, lent, on.entry)?;
        Ok(left(answer, code, registers))
    }

    fn list(&self, code: &[u32], text: &[u8], start: usize, list: &mut [i32]) -> Listed {
        match search_all(code, text, start, list.len(), ROOM) {
            Ok(Listing::Listed { matches, count }) => {
                let spans = matches.concat();
                list[..spans.len()].copy_from_slice(&spans);
                Ok((matches.len(), count))
            }
            Ok(Listing::Short { needed }) => {
                Err((Refusal { number: LIST_TOO_SHORT, place: 0 }, needed))
            }
            Err(refusal) => Err((refusal, 0)),
        }
    }

    fn number(&self, text: &[u8], start: i32, end: i32) -> Result<Reading, Refusal> {
        fields::read_field(text, start, end)
    }

    fn passes(&self, gate: Gate, value: f64) -> Result<bool, Refusal> {
        fields::pass(gate, value)
    }
}

#[test]
fn the_programs_questions() {
    let lines = lines();
    assert!(lines.len() > 60);
    for line in lines {
        assert_eq!(line.answered_by(&Reference), line.written);
    }
}

/// The steps' spans are those of the two other matchers, which know no count.
#[test]
fn the_matchers_agree() {
    for line in lines() {
        let pattern = match line.pattern() {
            Some(pattern) if compile(pattern.as_bytes(), ROOM, ROOM).is_ok() => pattern,
            _ => continue,
        };
        answer(pattern, &line.bytes(), 0, Entry::MatchAt);
        answer(pattern, &line.bytes(), 0, Entry::Search);
    }
}

/// The files of a folder beside this crate with an ending.
fn files(folder: &str, ending: &str) -> Vec<PathBuf> {
    let folder = Path::new(env!("CARGO_MANIFEST_DIR")).join("..").join(folder);
    let entries = fs::read_dir(folder).expect("a folder of vectors");
    let paths = entries.map(|entry| entry.expect("a file of vectors").path());
    paths.filter(|path| path.extension().map_or(false, |other| other == ending)).collect()
}

fn contents(path: &Path) -> Vec<u8> {
    fs::read(path).unwrap_or_else(|error| panic!("{}: {error}", path.display()))
}

#[test]
fn the_intakes_vectors() {
    let storm = contents(&Path::new(env!("CARGO_MANIFEST_DIR")).join("../sample/storm.txt"));
    let vectors = files("intake-vectors", "in").into_iter().map(|path| (contents(&path), path));
    let patterns = files("sample", "pattern").into_iter();
    let samples = patterns.map(|path| ([contents(&path), storm.clone()].concat(), path));
    let mut count = 0;
    for (input, path) in vectors.chain(samples) {
        let expected = contents(&path.with_extension("out"));
        assert_eq!(intake::output(&input).as_bytes(), expected, "{}", path.display());
        count += 1;
    }
    assert!(count > 40);
}

#[test]
fn the_programs_buffers() {
    let line = |bytes: &[u8], n: usize| [&bytes.repeat(n), &b"\n"[..]].concat();
    // 128 bytes have a table, 129 to 2,048 have none, more are too long.
    let class = |length: usize| [&b"["[..], &vec![b'a'; length - 2], b"]\n"].concat();
    assert_eq!(intake::output(&class(128)), "rows 9 groups 0\n");
    assert_eq!(intake::output(&class(129)), "refused 2 at 0\n");
    assert_eq!(intake::output(&line(b"a", 2_048)), "refused 2 at 0\n");
    assert_eq!(intake::output(&line(b"a", 2_049)), "refused 1 at 0\n");
    assert_eq!(intake::output(&line(b"a", 5_000)), "refused 1 at 0\n");
    // 96 rows have code words, 97 have none.
    assert_eq!(intake::output(&line(b"a", 88)), "rows 96 groups 0\n");
    assert_eq!(intake::output(&line(b"a", 89)), "refused 16 at 0\n");
    // 16·n·(g+2) words of 8,000: with 3 groups 100 rows, with 4 groups 83.
    let groups = |a: usize| [b"()()()()".to_vec(), vec![b'a'; a], b"\naaa\n".to_vec()].concat();
    assert_eq!(intake::output(&groups(67)), "rows 83 groups 4\nnone\n");
    assert_eq!(intake::output(&groups(68)), "rows 84 groups 4\nrefused 24\n");
    // Lines of 4,096 bytes, and longer ones, which do not end the work.
    let input = [b"b\n".to_vec(), line(b"a", 4_096), line(b"a", 4_097), b"b".to_vec()].concat();
    assert_eq!(intake::output(&input), "rows 9 groups 0\nnone\nrefused 21\n0 1\n");
}

#[test]
fn errors_that_look_right() {
    // `r?` rewritten as `r` or empty.
    assert_ne!(matched("(a*)?", "b", 0), matched("(?:(a*)|)", "b", 0));
    // `(?:^)*` taken for `^`.
    assert_eq!(matched("(?:^)*a", "ba", 1), [1, 2]);
    assert_eq!(matched("^a", "ba", 1), NONE);
    assert_eq!(tidy(tree("(?:^)*")), tree(""));
    // `(?:r*)*?` taken for `r*?`.
    assert_eq!(tidy(tree("(?:a*)*?")), tree("(?:a*)*?"));
    // Queued threads dropped at Accept.
    assert_eq!(matched("ab|a", "ab", 0), [0, 2]);
    assert_eq!(matched("a*", "aaa", 0), [0, 3]);
    // Sixteen-bit positions.
    let text = ["x".repeat(70_000), "ab".to_string()].concat();
    assert_eq!(searched("a(b)", &text, 0), [70_000, 70_002, 70_001, 70_002]);
}
