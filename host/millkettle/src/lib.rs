//! Millkettle: a regular-expression matcher whose every answer is proved, called from Rust.
//!
//! The pattern language is ECMA-262's without flags, look-around and back references; patterns and
//! texts are bytes. The proved functions are in the archives `libhost.a`, on bytes and at the intake
//! program's sizes ([`raw`]), and `libengine_c.a`, on words and at the library's own limits
//! ([`words`]); this crate is a safe wrapper over them and adds nothing to their answers.
//! A call takes some 40 KB of stack, and no memory from the heap but the wrapper's own.
//!
//! ```
//! use millkettle::Pattern;
//!
//! let pattern = Pattern::new(b"a(b*)c")?;
//! let found = pattern.search(b"xxabbcd", 0)?.expect("it is there");
//! assert_eq!((found.start(), found.end()), (2, 6));
//! assert_eq!(found.group(1), Some((3, 5)));
//! # Ok::<(), Box<dyn std::error::Error>>(())
//! ```
//!
//! Every match, in order:
//!
//! ```
//! use millkettle::Pattern;
//!
//! let pattern = Pattern::new(b"a*")?;
//! let found: Vec<_> = pattern.find_iter(b"baaac")?.collect();
//! assert_eq!(found, [0..0, 1..4, 4..4, 5..5]);
//! # Ok::<(), Box<dyn std::error::Error>>(())
//! ```
//!
//! What a group captured can be read as a number, and put to a gate:
//!
//! ```
//! use millkettle::{Gate, Pattern};
//!
//! let pattern = Pattern::new(br"(L\d\d) (-?\d+\.\d+) dB")?;
//! let found = pattern.search(b"06:15 L03 -48.25 dB", 0)?.expect("it is there");
//! let level = found.number(2)?;
//! assert_eq!((level.value, level.decimals), (-48.25, 2));
//! assert!(Gate::AtMost(-40.0).passes(level)?);
//! # Ok::<(), Box<dyn std::error::Error>>(())
//! ```
//!
//! A refused pattern says what is wrong with it, and where:
//!
//! ```
//! let error = millkettle::Pattern::new(b"a**").unwrap_err();
//! assert_eq!((error.number(), error.place()), (6, 2));
//! assert_eq!(error.to_string(), "refused 6 at 2: nothing to repeat\n  a**\n    ^");
//! ```
#![deny(missing_docs, unsafe_code)]

mod error;
#[allow(unsafe_code)]
mod ffi;
mod fields;
mod matching;
mod pattern;
pub mod raw;
pub mod words;

pub use error::{FieldError, PatternError, RunError};
pub use fields::{Gate, Reading};
pub use matching::{Answer, Match, Matches, SecondOpinion};
pub use pattern::{Entry, Found, Pattern};

/// The examples of the guide are tests as well.
#[cfg(doctest)]
#[doc = include_str!("../../../docs/HOST.md")]
mod guide {}
