//! Request 1 of 02, sentence by sentence: all matches in a line.

use crate::refusal::*;
use crate::rows::check;
use crate::steps::{steps, Entry, TEXT_LIMIT};

/// What a call for every match answers.
#[derive(Clone, Debug, PartialEq, Eq)]
pub enum Listing {
    /// Every match, in order, and "the count reported is their sum".
    Listed {
        /// The registers of each match.
        matches: Vec<Vec<i32>>,
        /// The rows that all runs executed.
        count: u64,
    },
    /// "the number needed is then reported with the list untouched".
    Short {
        /// The words that the matches fill.
        needed: usize,
    },
}

/// Every match of code on a text, for a list and a workspace of so many words:
/// 20, 21, 22 and 24 as for a run ("23 falls away"), then 25 "exactly when it
/// is shorter than the number of matches times 2(g+1)".
pub fn search_all(
    code: &[u32],
    text: &[u8],
    start: usize,
    list: usize,
    workspace: usize,
) -> Result<Listing, Refusal> {
    let program = match check(code) {
        Some(program) => program,
        None => return refuse(CODE_FAILS, 0),
    };
    let (n, g) = (program.n(), program.groups() as usize);
    if text.len() > TEXT_LIMIT {
        return refuse(TEXT_TOO_LONG, 0);
    }
    if start > text.len() {
        return refuse(START_BEYOND, 0);
    }
    if workspace < 16 * n * (g + 2) {
        return refuse(WORKSPACE_TOO_SMALL, 0);
    }
    let (matches, count) = repeated(text.len(), start, |from| {
        let answer = steps(&program, text, from, Entry::Search);
        (answer.spans, answer.count)
    });
    let needed = matches.len() * 2 * (g + 1);
    if list < needed {
        return Ok(Listing::Short { needed });
    }
    Ok(Listing::Listed { matches, count })
}

/// "as repeated execution with the global flag does": from a start, whatever
/// finds a match and counts. All matches, and the sum of the counts.
pub fn repeated(
    length: usize,
    start: usize,
    find: impl Fn(usize) -> (Option<Vec<i32>>, u64),
) -> (Vec<Vec<i32>>, u64) {
    let (mut matches, mut sum, mut from) = (Vec::new(), 0, start);
    // "A start past the text's length ends the repetition."
    while from <= length {
        let (found, count) = find(from);
        sum += count;
        let registers = match found {
            Some(registers) => registers,
            None => break,
        };
        from = next(from, &registers);
        matches.push(registers);
    }
    (matches, sum)
}

/// The next start.
fn next(from: usize, registers: &[i32]) -> usize {
    // "go on at the end of the last match, and after an empty match one byte
    // further" (positions are far below 2^31, and -1 is no position)
    let (first, last) = (i64::from(registers[0]), i64::from(registers[1]));
    let on = if first == last { last + 1 } else { last };
    // "where the next start would not lie beyond that run's start, it is that
    // run's start plus one"
    on.max(from as i64 + 1) as usize
}

#[cfg(test)]
mod tests {
    use super::*;
    use crate::compile::compile;

    const ROOM: usize = 1 << 20;

    fn listed(pattern: &str, text: &str, start: usize) -> (Vec<Vec<i32>>, u64) {
        let code = compile(pattern.as_bytes(), ROOM, ROOM).unwrap().words();
        match search_all(&code, text.as_bytes(), start, ROOM, ROOM) {
            Ok(Listing::Listed { matches, count }) => (matches, count),
            other => panic!("{other:?}"),
        }
    }

    /// Counted by hand from the outline's steps.
    #[test]
    fn patterns() {
        let pairs = |flat: &[i32]| flat.chunks(2).map(<[i32]>::to_vec).collect::<Vec<_>>();
        assert_eq!(listed("a*", "baaac", 0), (pairs(&[0, 0, 1, 4, 4, 4, 5, 5]), 53));
        assert_eq!(listed("", "", 0), (pairs(&[0, 0]), 4));
        assert_eq!(listed("a", "b", 0), (pairs(&[]), 13));
        assert_eq!(listed("(a)|b", "ab", 0).0, [vec![0, 1, 0, 1], vec![1, 2, -1, -1]]);
        assert_eq!(listed("(a)|b", "ab", 0).1, 33);
        assert_eq!(listed("^a", "aaa", 0), (pairs(&[0, 1]), 29));
        assert_eq!(listed("^", "ab", 1), (pairs(&[]), 13));
    }

    /// The sum can grow with the square of the text.
    #[test]
    fn the_sum_can_be_a_square() {
        let count = |length: usize| listed("a(?:.*b)?", &"a".repeat(length), 0).1;
        assert_eq!(count(80), 20_246);
        assert!(count(160) > 3 * count(80));
    }

    #[test]
    fn refusals_in_order() {
        let code = compile(b"a", ROOM, ROOM).unwrap().words();
        let text = vec![b'a'; TEXT_LIMIT + 1];
        let ask = |words: usize, text: &[u8], start, list, workspace| {
            search_all(&code[..words], text, start, list, workspace).map_err(|no| no.number)
        };
        assert_eq!(ask(119, &text, TEXT_LIMIT + 2, 1, 287), Err(20));
        assert_eq!(ask(120, &text, TEXT_LIMIT + 2, 1, 287), Err(21));
        assert_eq!(ask(120, b"a", 2, 1, 287), Err(22));
        assert_eq!(ask(120, b"a", 0, 1, 287), Err(24));
        assert_eq!(ask(120, b"a", 0, 1, 288), Ok(Listing::Short { needed: 2 }));
        let one = Listing::Listed { matches: vec![vec![0, 1]], count: 14 };
        assert_eq!(ask(120, b"a", 0, 2, 288), Ok(one));
    }
}
