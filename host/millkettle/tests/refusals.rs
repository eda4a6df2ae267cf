//! The table "When a pattern is turned away", row by row, through the safe wrapper. (Numbers 1, 2,
//! 15 and 16 are limits: tests/boundaries.rs.)

use millkettle::Pattern;

/// Each of these is refused with this number, at its place.
fn refused(number: u32, cases: &[(&[u8], usize)]) {
    for &(pattern, place) in cases {
        let shown = pattern.escape_ascii();
        match Pattern::new(pattern) {
            Ok(_) => panic!("{shown} is not refused"),
            Err(error) => assert_eq!((error.number(), error.place()), (number, place), "{shown}"),
        }
    }
}

/// Each of these is taken.
fn taken(patterns: &[&[u8]]) {
    for pattern in patterns {
        if let Err(error) = Pattern::new(pattern) {
            panic!("{error}");
        }
    }
}

#[test]
fn r3_a_byte_above_7f() {
    refused(3, &[(b"\x80", 0), (b"a\xFF\x80", 1), (b"**)\xFF", 3), (b"\\\xFF", 1)]);
    taken(&[b"\x7F", b"\0"]);
}

#[test]
fn r4_escapes() {
    refused(4, &[(br"\", 0), (br"a\", 1), (br"[\", 1), (br"\_", 0), (br"\00", 0), (br"\c1", 0)]);
    refused(4, &[(br"\c", 0), (br"\x4", 0), (br"\x4g", 0), (br"[\B]", 1), (br"[\k]", 1)]);
    refused(4, &[(br"[\1]", 1), (br"[z-\q]", 3), (br"[\d-\q]", 4), (br"\00*", 0)]);
    for &letter in b"aeghijlmopqyzACEFGHIJKLMNOPQRTUVXYZ" {
        refused(4, &[(&[b'\\', letter], 0), (&[b'[', b'\\', letter, b']'], 1)]);
    }
    taken(&[br"\0", br"\0a", br"\cZ", br"\x4F", br"[\b\0\cz\xfF\d-]", br"\-\ \/\]\}"]);
}

#[test]
fn r5_what_is_left_out() {
    refused(5, &[(br"\1", 0), (br"(a)\9", 3), (br"\k", 0), (br"\u0041", 0), (br"[\u]", 1)]);
    refused(5, &[(b"(?=", 0), (b"a(?!b)", 1), (b"(?<a>b)", 0), (b"(?<=a)", 0), (b"(?=*", 0)]);
}

#[test]
fn r6_nothing_to_repeat() {
    refused(
        6,
        &[(b"*", 0), (b"+", 0), (b"?", 0), (b"{", 0), (b"{1}", 0), (b"a|*", 2), (b"(+)", 1)],
    );
    refused(
        6,
        &[(b"^*", 1), (b"$?", 1), (br"\b+", 2), (br"\B{2}", 2), (b"a**", 2), (b"a{1}{2}", 4)],
    );
    refused(6, &[(b"(?", 1), (b"(?)", 1), (b"(?a)", 1), (b"(?:?)", 3), (b"a*??", 3)]);
    taken(&[b"(?:^)*", b"(?:a*)*", b"()*", b"[]?"]);
}

#[test]
fn r7_r8_r9_counts() {
    refused(7, &[(b"a{", 1), (b"a{}", 1), (b"a{,1}", 1), (b"a{1", 1), (b"a{1,", 1), (b"a{1,2", 1)]);
    refused(7, &[(b"a{1001", 1), (b"ab{x}", 2), (b"a{ 1}", 1), (b"a{1,2,3}", 1)]);
    refused(8, &[(b"a{1001}", 1), (b"a{0,1001}", 1), (b"a{2000,1}", 1), (b"a{1001,}", 1)]);
    refused(8, &[(b"a{4294967296}", 1), (b"a{18446744073709551617}", 1)]);
    refused(9, &[(b"a{2,1}", 1), (b"ab{1000,999}", 2)]);
    taken(&[b"a{0}", b"a{00003}", b"a{3,}?", b"a{2,02}", b"(?:){80}", b"a{0,0}"]);
}

#[test]
fn r10_classes() {
    refused(10, &[(b"[", 1), (b"[a", 2), (b"[a-", 3), (b"[^", 2), (b"([", 2), (br"[\]", 3)]);
    refused(10, &[(b"[z-a]", 1), (br"[\d-a]", 1), (br"[a-\w]", 1), (b"[ab-a]", 2), (b"[z-a", 1)]);
    taken(&[b"[]", b"[^]", b"[a-a]", b"[-]", b"[a-]", b"[--a]", br"[\w-]", b"[a-c-e]", b"[(*{]"]);
}

#[test]
fn r11_r12_brackets() {
    refused(
        11,
        &[(b")", 0), (b"a)", 1), (b"(", 1), (b"(a", 2), (b"(?:", 3), (b"(a|b", 4), (b"(a))", 3)],
    );
    refused(12, &[(b"]", 0), (b"}", 0), (b"a]", 1), (b"a{1}}", 4), (b"[]]", 2), (b"(})", 1)]);
}

#[test]
fn r13_depth() {
    let nested = |levels: usize, open: &str| {
        let whole = [open.repeat(levels), ")".repeat(levels)].concat();
        Pattern::new(whole.as_bytes()).map_err(|error| (error.number(), error.place()))
    };
    // 32 levels of `(?:` are 128 bytes.
    assert_eq!(nested(32, "(?:").map(|pattern| pattern.rows()), Ok(8));
    // 33 need more than 128 bytes if they are closed: they are refused before that.
    for open in ["(?:", "(", "(?"] {
        let pattern = ["(?:".repeat(32), open.to_string()].concat();
        refused(13, &[(pattern.as_bytes(), 96)]);
    }
    for open in ["(?=", "(?!", "(?<"] {
        let pattern = ["(?:".repeat(32), open.to_string()].concat();
        refused(5, &[(pattern.as_bytes(), 96)]);
    }
    // A group counts like any other parenthesis, and 13 goes before 14.
    let deep = ["(".repeat(31), "(?:(".to_string()].concat();
    refused(13, &[(deep.as_bytes(), 34)]);
}

#[test]
fn r14_groups() {
    let groups = |count: usize, behind: &str| ["()".repeat(count), behind.to_string()].concat();
    taken(&[groups(31, "").as_bytes(), groups(31, "(?:)").as_bytes()]);
    refused(14, &[(groups(32, "").as_bytes(), 62), (groups(31, "(").as_bytes(), 62)]);
    refused(14, &[("(".repeat(32).as_bytes(), 31)]);
    refused(6, &[(groups(31, "(?x").as_bytes(), 63)]);
    refused(5, &[(groups(31, "(?=").as_bytes(), 62)]);
}

#[test]
fn the_smallest_place_wins() {
    refused(6, &[(b"a**)", 2), (b"*[", 0)]);
    refused(12, &[(b"a](", 1)]);
    refused(4, &[(br"\q*", 0), (br"(\q", 1)]);
    refused(3, &[(b"*\x80", 1)]);
}
