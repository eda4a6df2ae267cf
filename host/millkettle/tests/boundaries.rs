//! Both sides of every limit of the surface, and the bytes that a call leaves alone.

mod common;
use common::*;
use millkettle::raw::{self, Compiled, Ran};
use reference::steps::{Entry, TEXT_LIMIT};

/// Lent bytes before a call.
const STALE: u8 = 0xA5;

fn taken(rows: u32, groups: u32) -> Compiled {
    Compiled { number: 0, rows, groups, place: 0 }
}

fn refused(number: u32) -> Compiled {
    Compiled { number, rows: 0, groups: 0, place: 0 }
}

/// The reply to a pattern for so many lent bytes, when a refusal has left them all alone.
fn compile_into(bytes: usize, pattern: &[u8]) -> Compiled {
    let mut code = vec![STALE; bytes];
    let compiled = raw::compile(pattern, &mut code);
    let written = if compiled.number == 0 { 48 * (compiled.rows as usize + 1) } else { 0 };
    assert!(code[written..].iter().all(|&byte| byte == STALE), "later bytes stay");
    compiled
}

/// A pattern's code bytes, exactly.
fn code_of(pattern: &[u8]) -> Vec<u8> {
    let mut code = vec![STALE; raw::CODE_BYTES];
    let compiled = raw::compile(pattern, &mut code);
    assert_eq!(compiled.number, 0, "{}", pattern.escape_ascii());
    code.truncate(48 * (compiled.rows as usize + 1));
    code
}

/// The reply's number for both entries, when a refusal has left the registers' bytes alone.
fn run_number(code: &[u8], text: &[u8], start: usize, registers: usize) -> u32 {
    let ran = ENTRIES.map(|entry| {
        let mut lent = vec![STALE; registers];
        let ran = run_raw(entry, code, text, start, &mut lent);
        if ran.number != 0 {
            assert_eq!(ran, Ran { number: ran.number, found: 0, place: 0, count: 0 });
            assert!(lent.iter().all(|&byte| byte == STALE), "nothing changed");
        }
        ran.number
    });
    assert_eq!(ran[0], ran[1]);
    ran[0]
}

/// `[aa..a]` of so many bytes.
fn class(bytes: usize) -> Vec<u8> {
    [b"[".to_vec(), vec![b'a'; bytes - 2], b"]".to_vec()].concat()
}

#[test]
fn r1_and_r2_by_the_patterns_length() {
    assert_eq!(compile_into(4_656, &class(128)), taken(9, 0));
    assert_eq!(compile_into(4_656, &class(129)), refused(2));
    assert_eq!(compile_into(4_656, &class(2_048)), refused(2));
    assert_eq!(compile_into(4_656, &class(2_049)), refused(1));
    assert_eq!(compile_into(4_656, &class(1 << 20)), refused(1));
    // 1 and 2 come before 3 and all others.
    assert_eq!(compile_into(4_656, &[0xFF; 129]), refused(2));
    assert_eq!(compile_into(0, &[b'*'; 2_049]), refused(1));
}

#[test]
fn the_table_has_room_for_128_bytes_of_any_kind() {
    // `|` makes the most records, two to a byte: 128 of them are 264 rows.
    assert_eq!(compile_into(4_656, &[b'|'; 128]), refused(16));
    assert_eq!(compile_into(4_656, &[b'|'; 44]), taken(96, 0));
    assert_eq!(compile_into(4_656, &b"a?".repeat(64)), refused(16));
    assert_eq!(compile_into(4_656, &[b'a'; 128]), refused(16));
    assert_eq!(compile_into(4_656, &b"(?:".repeat(42)), Compiled { place: 96, ..refused(13) });
    let groups = [b"()".repeat(31), vec![b'a'; 26], b"(?:)".repeat(10)].concat();
    assert_eq!((groups.len(), compile_into(4_656, &groups)), (128, taken(96, 31)));
}

#[test]
fn r15_and_r16_by_the_rows() {
    assert_eq!(compile_into(4_656, b"a{508}"), refused(16));
    assert_eq!(compile_into(1 << 20, b"a{508}"), refused(16));
    assert_eq!(compile_into(4_656, b"a{509}"), refused(15));
    assert_eq!(compile_into(0, b"a{509}"), refused(15));
    assert_eq!(compile_into(0, b"(?:(?:a{1000}){1000}){1000}"), refused(15));
    // The code has room for 96 rows, however much is lent.
    assert_eq!(compile_into(4_656, &[b'a'; 88]), taken(96, 0));
    assert_eq!(compile_into(10_000, &[b'a'; 88]), taken(96, 0));
    assert_eq!(compile_into(10_000, &[b'a'; 89]), refused(16));
}

#[test]
fn r16_by_the_lent_bytes() {
    for (pattern, rows) in [(&b""[..], 8), (b"a", 9), (b"a*", 13), (&[b'a'; 88], 96)] {
        let exact = 48 * (rows as usize + 1);
        for less in [1, 2, 3, 4, 48, exact] {
            assert_eq!(compile_into(exact - less, pattern), refused(16));
        }
        for more in [0, 1, 2, 3, 4, 100] {
            assert_eq!(compile_into(exact + more, pattern), taken(rows, 0));
        }
    }
}

#[test]
fn buffers_may_begin_anywhere() {
    let code = code_of(b"a(b)");
    let mut lent = vec![STALE; code.len() + 8];
    for skip in 0..4 {
        let compiled = raw::compile(b"a(b)", &mut lent[skip..]);
        assert_eq!((compiled.number, &lent[skip..skip + code.len()]), (0, &code[..]));
        let mut registers = [STALE; 24];
        let ran = raw::search(&lent[skip..], b"cab", 0, &mut registers[skip..]);
        assert_eq!((ran.number, ran.found), (0, 1));
        let written = [1, 0, 0, 0, 3, 0, 0, 0, 2, 0, 0, 0, 3, 0, 0, 0];
        assert_eq!(registers[skip..skip + 16], written);
        assert!(registers[..skip].iter().chain(&registers[skip + 16..]).all(|&byte| byte == STALE));
    }
}

#[test]
fn r20_by_the_codes_bytes() {
    let code = code_of(b"a");
    assert_eq!(code.len(), 480);
    let lent = |bytes: usize| {
        let mut lent = code.clone();
        lent.resize(bytes, STALE);
        run_number(&lent, b"a", 0, 8)
    };
    for bytes in [480, 481, 482, 483, 484, 4_656, 4_657, 4_658, 4_659] {
        assert_eq!(lent(bytes), 0, "{bytes}");
    }
    // A part word counts as not lent, and more than 1,164 words are too many.
    for bytes in [0, 1, 4, 47, 48, 476, 477, 478, 479, 4_660, 4_661, 10_000] {
        assert_eq!(lent(bytes), 20, "{bytes}");
    }
}

#[test]
fn r20_by_the_codes_words() {
    let code = words_of(&code_of(b"(a)"));
    let changed = |word: usize, value: u32| {
        let mut code = code.clone();
        code[word] = value;
        run_number(&bytes_of(&code), b"a", 0, 256)
    };
    assert_eq!(
        [7, 8, 11, 12, 97, 1_025, u32::MAX].map(|n| changed(0, n)),
        [20, 20, 0, 20, 20, 20, 20]
    );
    assert_eq!([0, 1, 31, 32, u32::MAX].map(|g| changed(1, g)), [20, 0, 0, 20, 20]);
    // Row 0 is the Fork of the prefix, row 6 the Open of group 1, row 10 the Accept.
    // As an Accept or a Begin it would have operands that these do not use, as an Assert the operand 5.
    assert_eq!(
        [0, 1, 4, 8, 10, 11, 256].map(|kind| changed(12, kind)),
        [20, 20, 0, 20, 20, 20, 20]
    );
    assert_eq!([10, 11, u32::MAX].map(|target| changed(13, target)), [0, 20, 20]);
    assert_eq!([10, 11, u32::MAX].map(|target| changed(14, target)), [0, 20, 20]);
    assert_eq!([0, 1, 2].map(|group| changed(12 * 7 + 1, group)), [0, 0, 20]);
    assert_eq!([1, 2, 3, 4, 5, 9].map(|kind| changed(12 * 11, kind)), [0, 20, 0, 0, 20, 0]);
    // Words that a kind does not use are zero: of the header row, a Fork, an Accept.
    assert_eq!([2, 11, 15, 16, 12 * 11 + 1].map(|word| changed(word, u32::MAX)), [20; 5]);
    assert_eq!([2, 11, 15, 16, 12 * 11 + 1].map(|word| changed(word, 1)), [20; 5]);
}

#[test]
fn r21_by_the_texts_length() {
    let mut text = vec![b'b'; TEXT_LIMIT + 1];
    text[TEXT_LIMIT - 1] = b'a';
    let code = code_of(b"(a)$");
    assert_eq!(run_number(&code, &text, 0, 16), 21);
    let longest = &text[..TEXT_LIMIT];
    let mut registers = [STALE; 16];
    let ran = raw::search(&code, longest, 0, &mut registers);
    assert_eq!((ran.number, ran.found), (0, 1));
    let (start, end) = (TEXT_LIMIT as u32 - 1, TEXT_LIMIT as u32);
    assert_eq!(registers.to_vec(), bytes_of(&[start, end, start, end]));
    // Rows 0, 5, 6, 7, 1, 2, 3 at the first position, the same behind row 4 at the others, and at
    // the end rows 8 to 11, of which Accept drops the thread behind.
    assert_eq!(ran.count, 7 + 8 * u64::from(start) + 4);
}

/// All that turns a run away, and then one thing less in each line.
#[test]
fn r20_to_r23_in_order() {
    let code = code_of(b"a");
    let text = vec![b'a'; TEXT_LIMIT + 1];
    let longest = &text[1..];
    assert_eq!(run_number(&code[..4 * 119], &text, TEXT_LIMIT + 2, 4), 20);
    assert_eq!(run_number(&code, &text, TEXT_LIMIT + 2, 4), 21);
    assert_eq!(run_number(&code, longest, TEXT_LIMIT + 1, 4), 22);
    assert_eq!(run_number(&code, longest, TEXT_LIMIT, 4), 23);
    assert_eq!(run_number(&code, longest, TEXT_LIMIT, 8), 0);
}

#[test]
fn r22_by_the_start() {
    let code = code_of(b"");
    for text in [&b""[..], b"a", &[b'a'; 1_000]] {
        assert_eq!(run_number(&code, text, text.len(), 8), 0);
        for beyond in [text.len() + 1, 1 << 20, 1 << 32, usize::MAX] {
            assert_eq!(run_number(&code, text, beyond, 8), 22);
        }
    }
}

#[test]
fn r23_by_the_registers_bytes() {
    for groups in [0, 1, 2, 12] {
        let code = code_of(&b"()".repeat(groups));
        let exact = 8 * (groups + 1);
        for less in [1, 2, 3, 4, exact] {
            assert_eq!(run_number(&code, b"a", 0, exact - less), 23);
        }
        for more in [0, 1, 2, 3, 4, 1_000] {
            let mut registers = vec![STALE; exact + more];
            let ran = raw::match_at(&code, b"a", 1, &mut registers);
            assert_eq!((ran.number, ran.found), (0, 1));
            let written = bytes_of(&vec![1; 2 * (groups + 1)]);
            assert_eq!(registers, [written, vec![STALE; more]].concat());
        }
    }
}

#[test]
fn a_run_without_a_match_writes_minus_one() {
    let code = code_of(b"(a)");
    let mut registers = [STALE; 19];
    let ran = raw::search(&code, b"b", 0, &mut registers);
    assert_eq!((ran.number, ran.found), (0, 0));
    assert_eq!(registers[..16], [0xFF; 16]);
    assert_eq!(registers[16..], [STALE; 3]);
}

#[test]
fn r24_by_rows_and_groups() {
    // 16·n·(g+2) of at most 8,000: twelve groups have 7,168, thirteen 8,160.
    let empty_groups = |groups: usize| code_of(&b"()".repeat(groups));
    assert_eq!(run_number(&empty_groups(12), b"", 0, 128), 0);
    assert_eq!(run_number(&empty_groups(13), b"", 0, 128), 24);
    assert_eq!(run_number(&empty_groups(31), b"", 0, 256), 24);
    // Eight groups and 50 rows have 8,000, 51 rows more.
    let eight = |bytes: usize| code_of(&[b"()".repeat(8), vec![b'a'; bytes]].concat());
    assert_eq!((eight(26).len(), run_number(&eight(26), b"aa", 0, 72)), (48 * 51, 0));
    assert_eq!((eight(27).len(), run_number(&eight(27), b"aa", 0, 72)), (48 * 52, 24));
    // 23 comes before 24, 22 before 23.
    assert_eq!(run_number(&empty_groups(31), b"", 0, 255), 23);
    assert_eq!(run_number(&empty_groups(31), b"", 1, 255), 22);
}

/// Eight rows that say 31 groups need 4,224 words and run; with 32 they fail the check.
#[test]
fn r20_and_r23_by_31_groups() {
    let rows = |groups: u32| {
        let mut code = vec![0; 12 * 9];
        code[..2].copy_from_slice(&[8, groups]);
        for row in 1..9 {
            code[12 * row] = 1;
        }
        // Open 31, Close 31, Accept.
        code[12 * 6..12 * 6 + 2].copy_from_slice(&[5, 31]);
        code[12 * 7..12 * 7 + 2].copy_from_slice(&[6, 31]);
        bytes_of(&code)
    };
    let mut registers = vec![STALE; 260];
    let ran = raw::match_at(&rows(31), b"a", 1, &mut registers);
    assert_eq!((ran.number, ran.found, ran.count), (0, 1, 3));
    let written = [vec![u32::MAX; 62], vec![1, 1]].concat();
    assert_eq!(registers, [bytes_of(&written), vec![STALE; 4]].concat());
    assert_eq!(run_number(&rows(31), b"a", 0, 255), 23);
    assert_eq!(run_number(&rows(32), b"a", 0, 256), 20);
}

#[test]
fn the_most_of_everything_is_alike() {
    let mut random = Random::new(9);
    let widest = [&b"()".repeat(8)[..], &[b'a'; 26]].concat();
    let patterns: [&[u8]; 4] = [&[b'a'; 88], &[b'|'; 44], &widest, b"(?:a?b??){0,4}(?:[^a]|b)*"];
    for pattern in patterns {
        let lent = stale(&mut random, raw::CODE_BYTES);
        let program = PLAIN.alike(pattern, lent).expect("a pattern that is taken");
        let code = bytes_of(&program.words());
        for text in [vec![b'a'; 200], b"ab".repeat(100)] {
            for entry in [Entry::MatchAt, Entry::Search] {
                let registers = stale(&mut random, 200);
                run_alike(entry, &code, &text, 3, registers).expect("a run that is taken");
            }
        }
    }
}
