//! `{n} {n,} {n,m}`: "A count is taken apart into its two numbers or the
//! pattern is refused. Leading zeros are allowed."

use super::COUNT_LIMIT;
use crate::refusal::*;

/// A count taken apart, and the place after its `}`.
pub struct Count {
    pub min: u32,
    pub max: Option<u32>,
    pub end: usize,
}

/// The count whose `{` stands at `place`, after an atom. All its refusals
/// are at the `{`: 7 before 8, 8 before 9.
pub fn count(bytes: &[u8], place: usize) -> Result<Count, Refusal> {
    let count = match form(bytes, place) {
        Some(count) => count,
        None => return refuse(BAD_COUNT, place),
    };
    let highest = count.max.unwrap_or(count.min).max(count.min);
    if highest > COUNT_LIMIT {
        return refuse(COUNT_TOO_LARGE, place);
    }
    if count.max.map_or(false, |max| count.min > max) {
        return refuse(COUNTS_REVERSED, place);
    }
    Ok(count)
}

/// One of the three forms, whatever its numbers.
fn form(bytes: &[u8], place: usize) -> Option<Count> {
    let (min, at) = number(bytes, place + 1)?;
    match bytes.get(at)? {
        b'}' => Some(Count { min, max: Some(min), end: at + 1 }),
        b',' if bytes.get(at + 1) == Some(&b'}') => Some(Count { min, max: None, end: at + 2 }),
        b',' => {
            let (max, at) = number(bytes, at + 1)?;
            let closed = bytes.get(at) == Some(&b'}');
            closed.then_some(Count { min, max: Some(max), end: at + 1 })
        }
        _ => None,
    }
}

/// One or more digits, by value; a value above the limit is held just above
/// it, as any such value is refused alike.
fn number(bytes: &[u8], from: usize) -> Option<(u32, usize)> {
    let mut value = 0;
    let mut at = from;
    while let Some(digit) = bytes.get(at).filter(|byte| byte.is_ascii_digit()) {
        value = (value * 10 + u32::from(digit - b'0')).min(COUNT_LIMIT + 1);
        at += 1;
    }
    (at > from).then_some((value, at))
}
