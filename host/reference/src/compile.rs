//! Pattern bytes to code words, plain or tidied.

use crate::reader::{read, Reading};
use crate::refusal::*;
use crate::rows::{program, Program, ROW_WORDS};
use crate::tidier::tidy;

/// The rows of a pattern, for a table and a code of so many words.
pub fn compile(pattern: &[u8], table_words: usize, code_words: usize) -> Result<Program, Refusal> {
    let Reading { tree, groups } = read(pattern, table_words)?;
    fitting(program(&tree, groups)?, code_words)
}

/// The rows of the tidied pattern. "Refusals are those of the plain pattern,
/// but 16 uses the tidied n"; "g stays".
pub fn compile_tidied(
    pattern: &[u8],
    table_words: usize,
    code_words: usize,
) -> Result<Program, Refusal> {
    let Reading { tree, groups } = read(pattern, table_words)?;
    program(&tree, groups)?;
    fitting(program(&tidy(tree), groups)?, code_words)
}

/// 16: "code under 12(n+1) words".
fn fitting(program: Program, code_words: usize) -> Result<Program, Refusal> {
    if code_words < ROW_WORDS * (program.n() + 1) {
        return refuse(CODE_TOO_SMALL, 0);
    }
    Ok(program)
}

/// Writes the code words into a lent buffer. "Words after the rows stay
/// untouched", and a refusal leaves the code alone.
pub fn write(program: &Program, code: &mut [u32]) {
    for (word, value) in code.iter_mut().zip(program.words()) {
        *word = value;
    }
}
