//! "Fields are numbers": a captured span read as a number, and gates on it.

use crate::refusal::{refuse, Refusal, NOT_A_LIMIT, NOT_A_NUMBER};

/// "15 digits at most in all".
pub const DIGIT_LIMIT: usize = 15;

/// "A reading keeps its value beside the number of decimals."
#[derive(Clone, Copy, Debug, PartialEq)]
pub struct Reading {
    /// The value.
    pub value: f64,
    /// The number of decimals.
    pub decimals: u32,
}

/// "gates that say at most, at least, or between two limits, ends included".
#[derive(Clone, Copy, Debug, PartialEq)]
pub enum Gate {
    /// At most.
    AtMost(f64),
    /// At least.
    AtLeast(f64),
    /// Between two limits.
    Between(f64, f64),
}

/// The bytes of a span; nothing for -1, a reversed one or one past the text.
fn span(text: &[u8], start: i32, end: i32) -> Option<&[u8]> {
    text.get(usize::try_from(start).ok()?..usize::try_from(end).ok()?)
}

/// "one or more digits".
fn is_digits(part: &[u8]) -> bool {
    !part.is_empty() && part.iter().all(u8::is_ascii_digit)
}

/// "The value is the digits as a whole number divided once by a power of ten, both exact as 64-bit
/// floats, then negated if a minus stood there".
fn number(bytes: &[u8]) -> Option<Reading> {
    let unsigned = bytes.strip_prefix(b"-").unwrap_or(bytes);
    let parts: Vec<&[u8]> = unsigned.split(|&byte| byte == b'.').collect();
    let digits: Vec<u8> = parts.concat();
    if parts.len() > 2 || digits.len() > DIGIT_LIMIT || !parts.iter().all(|part| is_digits(part)) {
        return None;
    }
    let whole = digits.iter().fold(0u64, |sum, digit| 10 * sum + u64::from(digit - b'0'));
    let decimals = parts.get(1).map_or(0, |part| part.len() as u32);
    let value = whole as f64 / 10u64.pow(decimals) as f64;
    let negative = unsigned.len() < bytes.len();
    Some(Reading { value: if negative { -value } else { value }, decimals })
}

/// Reads a captured span as a number, or refuses it as 28.
pub fn read_field(text: &[u8], start: i32, end: i32) -> Result<Reading, Refusal> {
    span(text, start, end).and_then(number).map_or_else(|| refuse(NOT_A_NUMBER, 0), Ok)
}

/// Whether a gate passes a value; "a gate whose limit is no number is refused as 29".
pub fn pass(gate: Gate, value: f64) -> Result<bool, Refusal> {
    let (low, high) = match gate {
        Gate::AtMost(limit) => (None, Some(limit)),
        Gate::AtLeast(limit) => (Some(limit), None),
        Gate::Between(low, high) => (Some(low), Some(high)),
    };
    if [low, high].iter().flatten().any(|limit| limit.is_nan()) {
        return refuse(NOT_A_LIMIT, 0);
    }
    Ok(low.map_or(true, |low| value >= low) && high.map_or(true, |high| value <= high))
}

/// Whether a gate passes a captured span: its own refusal goes first.
pub fn pass_field(gate: Gate, text: &[u8], start: i32, end: i32) -> Result<bool, Refusal> {
    pass(gate, read_field(text, start, end)?.value)
}
