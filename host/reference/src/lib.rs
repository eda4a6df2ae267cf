//! The reference: an independent, unproved implementation of outline 01,
//! against which the proved code is compared on random patterns and texts.
//!
//! It was written from the outline, the readings of it that docs/DECISIONS.md
//! lists, and ECMA-262 14th edition section 22.2 (main grammar, no flags); it
//! shares no line with the proved code. It aims to be read, not to be quick.
//!
//! | module | from | to |
//! |---|---|---|
//! | [`reader`] | pattern bytes | a tree, or refusals 1 to 14 |
//! | [`tidier`] | a tree | the tree that laws T1 to T10 leave |
//! | [`rows`] | a tree | rows and code words, refusals 15, 16; the check 20 |
//! | [`compile`] | pattern bytes | code words, plain or tidied |
//! | [`steps`] | code words, text | the outline's step machine, refusals 20 to 24 |
//! | [`repetition`] | code words, text | every match, refusals 20 to 25 |
//! | [`second`] | code words, text | the second engine's steps, refusals 20 to 24 |
//! | [`matcher::memory`] | rows, text | ordered search that tries nothing twice |
//! | [`matcher::standard`] | a tree, text | the standard's own matcher |
//! | [`fields`] | a text and a span | a number or refusal 28; gates, refusal 29 |
//! | [`intake`] | a whole input | what the intake program writes |
//! | [`generate`] | a seed | random patterns, texts and code |
//! | [`show`] | a tree | pattern bytes again, in one spelling |
//! | [`lines`] | the program `lines`' files | its questions, put to what answers |
#![forbid(unsafe_code)]
#![deny(missing_docs)]

pub mod compile;
pub mod fields;
pub mod generate;
pub mod intake;
pub mod lines;
pub mod matcher;
pub mod node;
pub mod reader;
pub mod refusal;
pub mod repetition;
pub mod rows;
pub mod second;
pub mod sets;
pub mod show;
pub mod steps;
pub mod tidier;
