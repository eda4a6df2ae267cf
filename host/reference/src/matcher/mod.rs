//! Two matchers that check each other and the step machine: an ordered search
//! over the rows with memory, and the standard's own algorithm on the tree.

pub mod memory;
pub mod standard;

use crate::sets;

/// Starts and ends of the whole and of all groups, -1 and -1 for a group that
/// took no part; nothing where there is no match.
pub type Spans = Option<Vec<i32>>;

/// A position as a register holds it: "signed 32-bit". Texts that are not
/// refused are far shorter than 2^31.
pub fn register(position: usize) -> i32 {
    i32::try_from(position).unwrap_or(i32::MAX)
}

/// Does the assertion hold at this position of the text? 0 `^`, 1 `$`, 2 `\b`,
/// 3 `\B`; "`^` is position 0 of the text, whatever the start".
pub fn holds(assertion: u32, text: &[u8], position: usize) -> bool {
    match assertion {
        0 => position == 0,
        1 => position == text.len(),
        2 => is_word_boundary(text, position),
        3 => !is_word_boundary(text, position),
        _ => false,
    }
}

/// Is one of the bytes around this position a word byte, and the other not?
fn is_word_boundary(text: &[u8], position: usize) -> bool {
    let words = sets::word_bytes();
    let is_word = |byte: Option<&u8>| byte.map_or(false, |&byte| sets::has(&words, byte));
    let before = position.checked_sub(1).and_then(|before| text.get(before));
    is_word(before) != is_word(text.get(position))
}
