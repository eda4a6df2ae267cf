//! "A refusal answers its number and place."

/// A refusal: the number in the outline's tables, and the place.
#[derive(Clone, Copy, Debug, PartialEq, Eq)]
pub struct Refusal {
    /// 1 to 16 for a pattern, 20 to 24 for a run, 28 for a span, 29 for a gate.
    pub number: u32,
    /// The place in the pattern, as its row of the table says.
    pub place: usize,
}

/// A refusal as the result of something that could have succeeded.
pub fn refuse<T>(number: u32, place: usize) -> Result<T, Refusal> {
    Err(Refusal { number, place })
}

/// 1: p over 2,048.
pub const PATTERN_TOO_LONG: u32 = 1;
/// 2: table under 32(p+1) words.
pub const TABLE_TOO_SMALL: u32 = 2;
/// 3: a byte above 7F.
pub const BYTE_ABOVE_7F: u32 = 3;
/// 4: an escape neither listed nor one of 5, or `\` at the end.
pub const UNKNOWN_ESCAPE: u32 = 4;
/// 5: outside a class `\1` to `\9` or `\k`; `\u` anywhere; `(?=` `(?!` `(?<`.
pub const NOT_SUPPORTED: u32 = 5;
/// 6: `*` `+` `?` or `{` with no atom to repeat.
pub const NOTHING_TO_REPEAT: u32 = 6;
/// 7: `{` after an atom, not one of the three forms.
pub const BAD_COUNT: u32 = 7;
/// 8: a count above 1,000.
pub const COUNT_TOO_LARGE: u32 = 8;
/// 9: n greater than m.
pub const COUNTS_REVERSED: u32 = 9;
/// 10: range reversed or with a set as an end; class unclosed.
pub const BAD_CLASS: u32 = 10;
/// 11: `)` unmatched; `(` unclosed.
pub const BAD_PARENTHESIS: u32 = 11;
/// 12: stray `]` or `}`.
pub const STRAY_BRACKET: u32 = 12;
/// 13: parentheses deeper than 32.
pub const TOO_DEEP: u32 = 13;
/// 14: a 32nd group.
pub const TOO_MANY_GROUPS: u32 = 14;
/// 15: more than 1,024 rows.
pub const TOO_MANY_ROWS: u32 = 15;
/// 16: code under 12(n+1) words.
pub const CODE_TOO_SMALL: u32 = 16;
/// 20: code fails its check.
pub const CODE_FAILS: u32 = 20;
/// 21: text over 16,777,216 bytes.
pub const TEXT_TOO_LONG: u32 = 21;
/// 22: start beyond the text's length.
pub const START_BEYOND: u32 = 22;
/// 23: fewer than 2(g+1) registers.
pub const REGISTERS_TOO_FEW: u32 = 23;
/// 24: workspace under 16·n·(g+2) words.
pub const WORKSPACE_TOO_SMALL: u32 = 24;
/// 25: a list shorter than the number of matches times 2(g+1).
pub const LIST_TOO_SHORT: u32 = 25;
/// 28: a span that is no number.
pub const NOT_A_NUMBER: u32 = 28;
/// 29: a gate whose limit is no number.
pub const NOT_A_LIMIT: u32 = 29;
