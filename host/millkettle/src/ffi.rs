//! The archive's functions: the only unsafe code.
//!
//! Each is proved for all arguments and asks nothing of its caller, so the calls are as safe as the
//! slices that they are handed: a slice goes as its pointer and its length, and what is written to
//! is borrowed alone.

/// What compiling answers: 0, the rows and the groups; or a refusal's number and place.
#[repr(C)]
#[derive(Clone, Copy, Debug, PartialEq, Eq)]
pub struct Compiled {
    /// 0, or the refusal's number, 1 to 16.
    pub number: u32,
    /// n, the number of rows; 0 if refused.
    pub rows: u32,
    /// g, the number of groups; 0 if refused.
    pub groups: u32,
    /// The refusal's place in the pattern; 0 if there is none.
    pub place: usize,
}

/// What a run answers: 0, found or none, and the count; or a refusal's number.
#[repr(C)]
#[derive(Clone, Copy, Debug, PartialEq, Eq)]
pub struct Ran {
    /// 0, or the refusal's number, 20 to 24.
    pub number: u32,
    /// 1 for found, 0 for none or refused.
    pub found: u32,
    /// Always 0: "place 0".
    pub place: usize,
    /// The count of rows executed; 0 if refused.
    pub count: u64,
}

/// What a call for every match answers: 0, matches and count; or a refusal's number.
#[repr(C)]
#[derive(Clone, Copy, Debug, PartialEq, Eq)]
pub struct Listed {
    /// 0, or the refusal's number: 20, 21, 22, 24 or 25.
    pub number: u32,
    /// Always 0: "place 0".
    pub place: usize,
    /// How many matches there are; 0 if refused.
    pub matches: usize,
    /// With 25, how many words the list needs; else 0.
    pub needed: usize,
    /// The rows that all runs executed; 0 if refused.
    pub count: u64,
}

/// What reading a field answers: 0, the value and its decimals; or a refusal's number.
#[repr(C)]
#[derive(Clone, Copy, Debug, PartialEq)]
pub struct Read {
    /// 0, or the refusal's number, 28.
    pub number: u32,
    /// How many digits stood behind the point; 0 if refused.
    pub decimals: u32,
    /// Always 0: "at place 0".
    pub place: usize,
    /// The value; 0 if refused.
    pub value: f64,
}

/// What a gate answers: 0, and passes or not; or a refusal's number.
#[repr(C)]
#[derive(Clone, Copy, Debug, PartialEq, Eq)]
pub struct Passed {
    /// 0, or the refusal's number, 29.
    pub number: u32,
    /// 1 if the value passes, 0 if it is stopped or refused.
    pub passes: u32,
    /// Always 0: "at place 0".
    pub place: usize,
}

type Compile = unsafe extern "C" fn(*const u8, usize, *mut u8, usize) -> Compiled;
type Run = unsafe extern "C" fn(*const u8, usize, *const u8, usize, usize, *mut u8, usize) -> Ran;

type Second = unsafe extern "C" fn(
    *const u32,
    usize,
    *const u8,
    usize,
    usize,
    *mut i32,
    usize,
    *mut u32,
    usize,
) -> Ran;

extern "C" {
    fn millkettle_compile(
        pattern: *const u8,
        pattern_bytes: usize,
        code: *mut u8,
        code_bytes: usize,
    ) -> Compiled;

    #[cfg(feature = "tidied")]
    fn millkettle_compile_tidied(
        pattern: *const u8,
        pattern_bytes: usize,
        code: *mut u8,
        code_bytes: usize,
    ) -> Compiled;

    fn millkettle_match(
        code: *const u8,
        code_bytes: usize,
        text: *const u8,
        text_bytes: usize,
        start: usize,
        registers: *mut u8,
        registers_bytes: usize,
    ) -> Ran;

    fn millkettle_search(
        code: *const u8,
        code_bytes: usize,
        text: *const u8,
        text_bytes: usize,
        start: usize,
        registers: *mut u8,
        registers_bytes: usize,
    ) -> Ran;

    fn millkettle_read_field(text: *const u8, text_bytes: usize, start: i32, end: i32) -> Read;

    fn millkettle_pass(low: f64, high: f64, value: f64) -> Passed;

    fn millkettle_second_match(
        code: *const u32,
        code_words: usize,
        text: *const u8,
        text_bytes: usize,
        start: usize,
        registers: *mut i32,
        registers_words: usize,
        workspace: *mut u32,
        workspace_words: usize,
    ) -> Ran;

    fn millkettle_second_search(
        code: *const u32,
        code_words: usize,
        text: *const u8,
        text_bytes: usize,
        start: usize,
        registers: *mut i32,
        registers_words: usize,
        workspace: *mut u32,
        workspace_words: usize,
    ) -> Ran;
}

fn compile_by(compile: Compile, pattern: &[u8], code: &mut [u8]) -> Compiled {
    // SAFETY: both pointers are valid for their lengths, and `code` overlaps nothing.
    unsafe { compile(pattern.as_ptr(), pattern.len(), code.as_mut_ptr(), code.len()) }
}

fn run_by(run: Run, code: &[u8], text: &[u8], start: usize, registers: &mut [u8]) -> Ran {
    let (held, bytes) = (registers.as_mut_ptr(), registers.len());
    // SAFETY: the three pointers are valid for their lengths, and `registers` overlaps nothing.
    unsafe { run(code.as_ptr(), code.len(), text.as_ptr(), text.len(), start, held, bytes) }
}

fn second_by(
    run: Second,
    code: &[u32],
    text: &[u8],
    start: usize,
    registers: &mut [i32],
    workspace: &mut [u32],
) -> Ran {
    let (held, count) = (registers.as_mut_ptr(), registers.len());
    let (work, words) = (workspace.as_mut_ptr(), workspace.len());
    // SAFETY: the four pointers are valid for their lengths, and `registers` and `workspace`
    // overlap nothing.
    unsafe {
        run(code.as_ptr(), code.len(), text.as_ptr(), text.len(), start, held, count, work, words)
    }
}

/// Compiles a pattern into the lent code bytes.
pub fn compile(pattern: &[u8], code: &mut [u8]) -> Compiled {
    compile_by(millkettle_compile, pattern, code)
}

/// Tidies a pattern and compiles what is left into the lent code bytes.
#[cfg(feature = "tidied")]
pub fn compile_tidied(pattern: &[u8], code: &mut [u8]) -> Compiled {
    compile_by(millkettle_compile_tidied, pattern, code)
}

/// Runs code on a text, matching at the start.
pub fn match_at(code: &[u8], text: &[u8], start: usize, registers: &mut [u8]) -> Ran {
    run_by(millkettle_match, code, text, start, registers)
}

/// Runs code on a text, searching from the start on.
pub fn search(code: &[u8], text: &[u8], start: usize, registers: &mut [u8]) -> Ran {
    run_by(millkettle_search, code, text, start, registers)
}

/// The calls on lent words, from the archive `libengine_c.a`.
pub mod words {
    use super::{Compiled, Listed, Ran};

    type Compile =
        unsafe extern "C" fn(*const u8, usize, *mut u32, usize, *mut u32, usize) -> Compiled;
    /// Code, text, start, registers or a list, workspace.
    type Run<R> = unsafe extern "C" fn(
        *const u32,
        usize,
        *const u8,
        usize,
        usize,
        *mut i32,
        usize,
        *mut u32,
        usize,
    ) -> R;

    extern "C" {
        fn millkettle_compile_words(
            pattern: *const u8,
            pattern_bytes: usize,
            table: *mut u32,
            table_words: usize,
            code: *mut u32,
            code_words: usize,
        ) -> Compiled;

        #[cfg(feature = "tidied")]
        fn millkettle_compile_tidied_words(
            pattern: *const u8,
            pattern_bytes: usize,
            table: *mut u32,
            table_words: usize,
            code: *mut u32,
            code_words: usize,
        ) -> Compiled;

        fn millkettle_match_words(
            code: *const u32,
            code_words: usize,
            text: *const u8,
            text_bytes: usize,
            start: usize,
            registers: *mut i32,
            register_count: usize,
            workspace: *mut u32,
            workspace_words: usize,
        ) -> Ran;

        fn millkettle_search_words(
            code: *const u32,
            code_words: usize,
            text: *const u8,
            text_bytes: usize,
            start: usize,
            registers: *mut i32,
            register_count: usize,
            workspace: *mut u32,
            workspace_words: usize,
        ) -> Ran;

        fn millkettle_search_all_words(
            code: *const u32,
            code_words: usize,
            text: *const u8,
            text_bytes: usize,
            start: usize,
            list: *mut i32,
            list_words: usize,
            workspace: *mut u32,
            workspace_words: usize,
        ) -> Listed;
    }

    fn compile_by(
        compile: Compile,
        pattern: &[u8],
        table: &mut [u32],
        code: &mut [u32],
    ) -> Compiled {
        let (table, table_words) = (table.as_mut_ptr(), table.len());
        let (code, code_words) = (code.as_mut_ptr(), code.len());
        // SAFETY: each pointer is valid for its length, and `table` and `code` overlap nothing.
        unsafe { compile(pattern.as_ptr(), pattern.len(), table, table_words, code, code_words) }
    }

    fn run_by<R>(
        run: Run<R>,
        code: &[u32],
        text: &[u8],
        start: usize,
        spans: &mut [i32],
        workspace: &mut [u32],
    ) -> R {
        // SAFETY: each pointer is valid for its length, and `spans` and `workspace` overlap nothing.
        unsafe {
            run(
                code.as_ptr(),
                code.len(),
                text.as_ptr(),
                text.len(),
                start,
                spans.as_mut_ptr(),
                spans.len(),
                workspace.as_mut_ptr(),
                workspace.len(),
            )
        }
    }

    /// Compiles a pattern into the lent code words, with a lent table.
    pub fn compile(pattern: &[u8], table: &mut [u32], code: &mut [u32]) -> Compiled {
        compile_by(millkettle_compile_words, pattern, table, code)
    }

    /// Tidies a pattern and compiles what is left.
    #[cfg(feature = "tidied")]
    pub fn compile_tidied(pattern: &[u8], table: &mut [u32], code: &mut [u32]) -> Compiled {
        compile_by(millkettle_compile_tidied_words, pattern, table, code)
    }

    /// Runs code on a text, matching at the start.
    pub fn match_at(
        code: &[u32],
        text: &[u8],
        start: usize,
        registers: &mut [i32],
        workspace: &mut [u32],
    ) -> Ran {
        run_by(millkettle_match_words, code, text, start, registers, workspace)
    }

    /// Runs code on a text, searching from the start on.
    pub fn search(
        code: &[u32],
        text: &[u8],
        start: usize,
        registers: &mut [i32],
        workspace: &mut [u32],
    ) -> Ran {
        run_by(millkettle_search_words, code, text, start, registers, workspace)
    }

    /// Finds every match from the start on, into the lent list.
    pub fn search_all(
        code: &[u32],
        text: &[u8],
        start: usize,
        list: &mut [i32],
        workspace: &mut [u32],
    ) -> Listed {
        run_by(millkettle_search_all_words, code, text, start, list, workspace)
    }
}

/// Reads the span of a text between two registers as a number.
pub fn read_field(text: &[u8], start: i32, end: i32) -> Read {
    // SAFETY: the pointer is valid for its length.
    unsafe { millkettle_read_field(text.as_ptr(), text.len(), start, end) }
}

/// Whether a value lies between two limits, ends included.
pub fn pass(low: f64, high: f64, value: f64) -> Passed {
    // SAFETY: numbers are passed, and nothing is lent.
    unsafe { millkettle_pass(low, high, value) }
}

/// Runs code words on a text by the second engine, matching at the start.
pub fn second_match(
    code: &[u32],
    text: &[u8],
    start: usize,
    registers: &mut [i32],
    workspace: &mut [u32],
) -> Ran {
    second_by(millkettle_second_match, code, text, start, registers, workspace)
}

/// Runs code words on a text by the second engine, searching from the start on.
pub fn second_search(
    code: &[u32],
    text: &[u8],
    start: usize,
    registers: &mut [i32],
    workspace: &mut [u32],
) -> Ran {
    second_by(millkettle_second_search, code, text, start, registers, workspace)
}
