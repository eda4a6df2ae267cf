//! The proved engine, from the archive of the crate `engine_c`.

use crate::call::{Answer, Call};

/// What a run answers.
#[repr(C)]
#[derive(Default)]
struct Ran {
    number: u32,
    found: u32,
    place: usize,
    count: u64,
}

/// What a call for every match answers.
#[repr(C)]
#[derive(Default)]
struct Listed {
    number: u32,
    place: usize,
    matches: usize,
    needed: usize,
    count: u64,
}

// A slice is a pointer and a length. What is answered is too large for registers: on x86-64 a caller lends its place before all
// else, and so does the module that is compiled for Arm.
#[link(name = "engine_c", kind = "static")]
extern "C" {
    fn millkettle_match_words(
        answer: *mut Ran,
        code: *const u32,
        code_words: usize,
        text: *const u8,
        text_bytes: usize,
        start: usize,
        registers: *mut i32,
        register_count: usize,
        workspace: *mut u32,
        workspace_words: usize,
    );
    fn millkettle_search_words(
        answer: *mut Ran,
        code: *const u32,
        code_words: usize,
        text: *const u8,
        text_bytes: usize,
        start: usize,
        registers: *mut i32,
        register_count: usize,
        workspace: *mut u32,
        workspace_words: usize,
    );
    fn millkettle_search_all_words(
        answer: *mut Listed,
        code: *const u32,
        code_words: usize,
        text: *const u8,
        text_bytes: usize,
        start: usize,
        list: *mut i32,
        list_words: usize,
        workspace: *mut u32,
        workspace_words: usize,
    );
}

/// A call of the engine.
pub fn run(call: &Call, registers: &mut [i32], workspace: &mut [u32]) -> Answer {
    let engine = if call.row == 0 { millkettle_search_words } else { millkettle_match_words };
    // SAFETY: each pointer and length are of one slice, and no two slices that may change overlap.
    let mut ran = Ran::default();
    unsafe {
        engine(
            &mut ran,
            call.code.as_ptr(),
            call.code.len(),
            call.text.as_ptr(),
            call.text.len(),
            call.start,
            registers.as_mut_ptr(),
            registers.len(),
            workspace.as_mut_ptr(),
            workspace.len(),
        )
    };
    debug_assert_eq!(ran.place, 0);
    // 1 for found, 0 for none, and a refusal's own number.
    Answer { number: if ran.number == 0 { ran.found } else { ran.number }, rows: ran.count }
}

/// Every match of code in a text: how many, and the rows executed.
pub fn all(code: &[u32], text: &[u8], list: &mut [i32], workspace: &mut [u32]) -> (usize, u64) {
    // SAFETY: each pointer and length are of one slice, and no two slices that may change overlap.
    let mut listed = Listed::default();
    unsafe {
        millkettle_search_all_words(
            &mut listed,
            code.as_ptr(),
            code.len(),
            text.as_ptr(),
            text.len(),
            0,
            list.as_mut_ptr(),
            list.len(),
            workspace.as_mut_ptr(),
            workspace.len(),
        )
    };
    assert_eq!((listed.number, listed.place, listed.needed), (0, 0, 0), "every match is listed");
    (listed.matches, listed.count)
}
