//! The second surface as it is: lent words, at the library's own limits, and nothing is copied.
//!
//! A pattern has at most 2,048 bytes and 1,024 rows; what a call needs it says: [`TABLE_WORDS`] for a
//! byte of the pattern and one more, 12(n+1) words of code, 2(g+1) registers, 16·n·(g+2) words of
//! workspace. A refused call changes nothing, but 4 to 16 set the whole table to zero, and 25 may
//! change the workspace that a run needs.
//!
//! ```
//! use millkettle::words;
//!
//! let (mut table, mut code) = ([0; 32 * 3], [0; 12 * 14]);
//! let compiled = words::compile(b"a*", &mut table, &mut code);
//! assert_eq!((compiled.number, compiled.rows, compiled.groups), (0, 13, 0));
//!
//! let (mut list, mut workspace) = ([0; 8], [0; 16 * 13 * 2]);
//! let listed = words::search_all(&code, b"baaac", 0, &mut list, &mut workspace);
//! assert_eq!((listed.number, listed.matches, listed.count), (0, 4, 53));
//! assert_eq!(list, [0, 0, 1, 4, 4, 4, 5, 5]);
//!
//! let listed = words::search_all(&code, b"baaac", 0, &mut list[..7], &mut workspace);
//! assert_eq!((listed.number, listed.needed), (25, 8));
//! ```

#[cfg(feature = "tidied")]
pub use crate::ffi::words::compile_tidied;
pub use crate::ffi::words::{compile, match_at, search, search_all};
pub use crate::ffi::{Compiled, Listed, Ran};

/// The table's words for each byte of a pattern, and as many more.
pub const TABLE_WORDS: usize = 32;

/// The code words that the most rows need: a header and 1,024 rows of 12 words.
pub const CODE_WORDS: usize = 12 * 1_025;

/// The workspace words that a run of n rows and g groups needs.
pub fn workspace_words(rows: u32, groups: u32) -> usize {
    16 * rows as usize * (groups as usize + 2)
}
