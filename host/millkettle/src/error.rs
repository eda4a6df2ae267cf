//! Why a pattern, a run, a span or a gate was turned away: the outline's numbers, in its words.

use std::error::Error;
use std::fmt::{self, Display, Formatter};

/// The meaning of each refusal.
const MEANINGS: [(u32, &str); 24] = [
    (1, "the pattern is over 2,048 bytes"),
    (2, "the table is under 32(p+1) words: it has room for a pattern of 128 bytes"),
    (3, "a byte above 7F"),
    (4, r"an escape that is not listed, or `\` at the end"),
    (5, r"`\1` to `\9`, `\k`, `\u`, `(?=`, `(?!` and `(?<` are not taken"),
    (6, "nothing to repeat"),
    (7, "`{` after an atom is not one of the forms {n} {n,} {n,m}"),
    (8, "a count above 1,000"),
    (9, "n is greater than m"),
    (10, "a range reversed or with a set as an end, or a class unclosed"),
    (11, "`)` unmatched or `(` unclosed"),
    (12, "a stray `]` or `}`"),
    (13, "parentheses deeper than 32"),
    (14, "a 32nd group"),
    (15, "more than 1,024 rows"),
    (16, "the code is under 12(n+1) words: it has room for 96 rows"),
    (20, "the code fails its check"),
    (21, "the text is over 16,777,216 bytes"),
    (22, "the start is beyond the text's length"),
    (23, "fewer than 2(g+1) registers"),
    (24, "the workspace is under 16·n·(g+2) words: it has 8,000"),
    (25, "the list is shorter than the number of matches times 2(g+1)"),
    (28, "the span is no number"),
    (29, "a limit of the gate is no number"),
];

fn meaning(number: u32) -> &'static str {
    let found = MEANINGS.iter().find(|(listed, _)| *listed == number);
    found.map_or("a number that is not listed", |(_, meaning)| meaning)
}

/// The most bytes of the pattern that are shown on either side of the place.
const SHOWN: usize = 30;

/// Why a pattern was turned away.
///
/// It is shown with the part of the pattern around the place, and a caret under the place:
///
/// ```
/// let error = millkettle::Pattern::new(br"(ab[\d-z])").unwrap_err();
/// let shown = [
///     "refused 10 at 4: a range reversed or with a set as an end, or a class unclosed",
///     r"  (ab[\d-z])",
///     r"      ^",
/// ];
/// assert_eq!(error.to_string(), shown.join("\n"));
/// ```
#[derive(Clone, Debug, PartialEq, Eq)]
pub struct PatternError {
    number: u32,
    place: usize,
    pattern: Vec<u8>,
}

impl PatternError {
    pub(crate) fn new(number: u32, place: usize, pattern: &[u8]) -> PatternError {
        PatternError { number, place, pattern: pattern.to_vec() }
    }

    /// The refusal's number, 1 to 16.
    pub fn number(&self) -> u32 {
        self.number
    }

    /// The place in the pattern; its length if something is missing at the end.
    pub fn place(&self) -> usize {
        self.place
    }

    /// What the number means.
    pub fn meaning(&self) -> &'static str {
        meaning(self.number)
    }

    /// The pattern that was turned away.
    pub fn pattern(&self) -> &[u8] {
        &self.pattern
    }

    /// What is shown before the place and from it on.
    fn excerpt(&self) -> (String, String) {
        let (before, after) = self.pattern.split_at(self.place.min(self.pattern.len()));
        let first = before.len().saturating_sub(SHOWN);
        let last = after.len().min(SHOWN);
        let cut_before = if first > 0 { "..." } else { "" };
        let cut_after = if last < after.len() { "..." } else { "" };
        let before = [cut_before, &printable(&before[first..])].concat();
        let after = [&printable(&after[..last]), cut_after].concat();
        (before, after)
    }
}

impl Display for PatternError {
    fn fmt(&self, out: &mut Formatter) -> fmt::Result {
        let (before, after) = self.excerpt();
        writeln!(out, "refused {} at {}: {}", self.number, self.place, self.meaning())?;
        writeln!(out, "  {before}{after}")?;
        write!(out, "  {}^", " ".repeat(before.len()))
    }
}

impl Error for PatternError {}

/// The bytes as ASCII characters of one column each; a byte that has none is written `\xHH`.
fn printable(bytes: &[u8]) -> String {
    let mut shown = String::new();
    for &byte in bytes {
        if byte == b' ' || byte.is_ascii_graphic() {
            shown.push(char::from(byte));
        } else {
            shown += &format!("\\x{byte:02X}");
        }
    }
    shown
}

/// Why a run was turned away.
///
/// ```
/// let error = millkettle::Pattern::new(b"a").unwrap().search(b"a", 2).unwrap_err();
/// assert_eq!(error.to_string(), "refused 22: the start is beyond the text's length");
/// ```
#[derive(Clone, Copy, Debug, PartialEq, Eq)]
pub struct RunError {
    number: u32,
}

impl RunError {
    pub(crate) fn new(number: u32) -> RunError {
        RunError { number }
    }

    /// The refusal's number, 20 to 24.
    pub fn number(&self) -> u32 {
        self.number
    }

    /// What the number means.
    pub fn meaning(&self) -> &'static str {
        meaning(self.number)
    }
}

impl Display for RunError {
    fn fmt(&self, out: &mut Formatter) -> fmt::Result {
        write!(out, "refused {}: {}", self.number, self.meaning())
    }
}

impl Error for RunError {}

/// Why a span was not read as a number, or a gate was turned away.
///
/// ```
/// let error = millkettle::Reading::of_span(b"-- m", 0, 2).unwrap_err();
/// assert_eq!(error.to_string(), "refused 28: the span is no number");
/// ```
#[derive(Clone, Copy, Debug, PartialEq, Eq)]
pub struct FieldError {
    number: u32,
}

impl FieldError {
    pub(crate) fn new(number: u32) -> FieldError {
        FieldError { number }
    }

    /// The refusal's number, 28 or 29.
    pub fn number(&self) -> u32 {
        self.number
    }

    /// What the number means.
    pub fn meaning(&self) -> &'static str {
        meaning(self.number)
    }
}

impl Display for FieldError {
    fn fmt(&self, out: &mut Formatter) -> fmt::Result {
        write!(out, "refused {}: {}", self.number, self.meaning())
    }
}

impl Error for FieldError {}

#[cfg(test)]
mod tests {
    use super::*;

    #[test]
    fn the_caret_stands_under_the_place() {
        let shown = |number, place, pattern: &[u8]| {
            let shown = PatternError::new(number, place, pattern).to_string();
            shown.lines().skip(1).map(String::from).collect::<Vec<_>>()
        };
        assert_eq!(shown(2, 0, b""), ["  ", "  ^"]);
        assert_eq!(shown(11, 2, b"(a"), ["  (a", "    ^"]);
        assert_eq!(shown(3, 2, b"a\n\xFF"), [r"  a\x0A\xFF", "       ^"]);
        let long = [b'a'; 100];
        let line = format!("  ...{}...", "a".repeat(60));
        assert_eq!(shown(4, 50, &long), [line, format!("  {}^", " ".repeat(33))]);
        assert_eq!(shown(1, 0, &[b'b'; 9_999])[0], format!("  {}...", "b".repeat(30)));
    }

    #[test]
    fn every_number_has_a_meaning() {
        let listed: Vec<u32> = (0..=30).filter(|&n| meaning(n) != meaning(0)).collect();
        assert_eq!(listed, (1..=16).chain(20..=25).chain(28..=29).collect::<Vec<_>>());
    }
}
