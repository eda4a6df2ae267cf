//! The surface as it is: numbers and lent bytes, four bytes to a word, low byte first.
//!
//! A buffer of b bytes lends b div 4 words: a part word counts as not lent, and its bytes are
//! neither read nor written. A refused call changes no byte.
//!
//! ```
//! use millkettle::raw;
//!
//! let mut code = [0; raw::CODE_BYTES];
//! let compiled = raw::compile(b"a|ab", &mut code);
//! assert_eq!((compiled.number, compiled.rows, compiled.groups), (0, 13, 0));
//!
//! let mut registers = [0; 8];
//! let ran = raw::search(&code, b"cab", 0, &mut registers);
//! assert_eq!((ran.number, ran.found), (0, 1));
//! assert_eq!(registers, [1, 0, 0, 0, 2, 0, 0, 0]);
//! ```

#[cfg(feature = "tidied")]
pub use crate::ffi::compile_tidied;
pub use crate::ffi::{compile, match_at, search, second_match, second_search, Compiled, Ran};
pub use crate::ffi::{pass, read_field, Passed, Read};

/// The code bytes that can be used, of however many are lent: 1,164 words.
pub const CODE_BYTES: usize = 4 * 1_164;

/// The registers' bytes that the most groups need: a start and an end for each of 31 and the whole.
pub const REGISTER_BYTES: usize = 4 * 2 * 32;

/// The longest text that the second engine takes, in bytes.
pub const SECOND_TEXT_BYTES: usize = 4_096;

/// The workspace words that the second engine needs for n rows, g groups and a text of so many
/// bytes: n·(4g+10)·(L+1) + 2(g+1).
pub fn second_workspace_words(rows: usize, groups: usize, text_bytes: usize) -> usize {
    rows * (4 * groups + 10) * (text_bytes + 1) + 2 * (groups + 1)
}
