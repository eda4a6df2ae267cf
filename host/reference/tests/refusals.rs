//! Every row of the refusal table, its place, and what goes before what.

mod common;
use common::*;
use reference::compile::{compile, compile_tidied};
use reference::reader::read;
use reference::refusal::Refusal;

/// Each of these is refused so.
fn all(cases: &[(&str, (u32, usize))]) {
    for (pattern, expected) in cases {
        assert_eq!(refused(pattern.as_bytes()), *expected, "{pattern}");
    }
}

/// Each of these is read.
fn read_all(patterns: &[&str]) {
    for pattern in patterns {
        reading(pattern);
    }
}

#[test]
fn r1_length() {
    let short = [vec![b'['], vec![b'a'; 2_046], vec![b']']].concat();
    assert!(compile(&short, ROOM, ROOM).is_ok());
    assert_eq!(refused(&vec![b'a'; 2_049]), (1, 0));
    assert_eq!(refused(&vec![0xFF; 2_049]), (1, 0));
    assert_eq!(read(&vec![b'a'; 2_049], 0), Err(Refusal { number: 1, place: 0 }));
}

#[test]
fn r2_table() {
    assert!(read(b"", 32).is_ok());
    assert_eq!(read(b"", 31), Err(Refusal { number: 2, place: 0 }));
    assert!(read(b"abc", 128).is_ok());
    assert_eq!(read(b"abc", 127), Err(Refusal { number: 2, place: 0 }));
    assert_eq!(read(b"\xFF", 63), Err(Refusal { number: 2, place: 0 }));
    assert!(read(&[b'a'; 2_048], 32 * 2_049).is_ok());
    assert_eq!(read(&[b'a'; 2_048], 32 * 2_049 - 1), Err(Refusal { number: 2, place: 0 }));
}

#[test]
fn r3_bytes() {
    assert!(read(b"\x7F", 64).is_ok());
    assert_eq!(refused(b"\x80"), (3, 0));
    assert_eq!(refused(b"a\x80\xFF"), (3, 1));
    assert_eq!(refused(b"**)\xFF"), (3, 3));
    assert_eq!(refused(b"\\\xFF"), (3, 1));
}

#[test]
fn r4_escapes() {
    all(&[
        (r"\", (4, 0)),
        (r"a\", (4, 1)),
        (r"\\\", (4, 2)),
        (r"[\", (4, 1)),
        (r"\_", (4, 0)),
        (r"a\_", (4, 1)),
        (r"\00", (4, 0)),
        (r"\01", (4, 0)),
        (r"\09", (4, 0)),
        (r"[\00]", (4, 1)),
        (r"\c", (4, 0)),
        (r"\c1", (4, 0)),
        (r"\c_", (4, 0)),
        (r"[\c]", (4, 1)),
        (r"\x", (4, 0)),
        (r"\x4", (4, 0)),
        (r"\x4g", (4, 0)),
        (r"\xg4", (4, 0)),
        (r"[\x4]", (4, 1)),
        (r"[\B]", (4, 1)),
        (r"[\k]", (4, 1)),
        (r"[\1]", (4, 1)),
        (r"[\9]", (4, 1)),
        (r"[a-\q]", (4, 3)),
        (r"[\d-\q]", (4, 4)),
        (r"[z-\q]", (4, 3)),
    ]);
    for letter in b"aeghijlmopqyzACEFGHIJKLMNOPQRTUVXYZ" {
        assert_eq!(refused(&[b'\\', *letter]), (4, 0), "{}", *letter as char);
        assert_eq!(refused(&[b'[', b'\\', *letter, b']']), (4, 1), "{}", *letter as char);
    }
}

#[test]
fn r5_not_supported() {
    all(&[
        (r"\1", (5, 0)),
        (r"(a)\1", (5, 3)),
        (r"\9", (5, 0)),
        (r"\10", (5, 0)),
        (r"\k", (5, 0)),
        (r"a\k<a>", (5, 1)),
        (r"\u", (5, 0)),
        (r"\u0041", (5, 0)),
        (r"[\u]", (5, 1)),
        (r"[\u0041]", (5, 1)),
        (r"[a-\u]", (5, 3)),
        ("(?=", (5, 0)),
        ("(?=a)", (5, 0)),
        ("a(?!a)", (5, 1)),
        ("(?<=a)", (5, 0)),
        ("(?<!a)", (5, 0)),
        ("(?<a>a)", (5, 0)),
        ("(?<", (5, 0)),
    ]);
}

#[test]
fn r6_nothing_to_repeat() {
    all(&[
        ("*", (6, 0)),
        ("+", (6, 0)),
        ("?", (6, 0)),
        ("{", (6, 0)),
        ("{1}", (6, 0)),
        ("a|*", (6, 2)),
        ("(*", (6, 1)),
        ("(+)", (6, 1)),
        ("({2})", (6, 1)),
        ("(?:*)", (6, 3)),
        ("^*", (6, 1)),
        ("$+", (6, 1)),
        (r"\b?", (6, 2)),
        (r"\B{1}", (6, 2)),
        ("^{", (6, 1)),
        ("a**", (6, 2)),
        ("a*+", (6, 2)),
        ("a+*", (6, 2)),
        ("a*??", (6, 3)),
        ("a???", (6, 3)),
        ("a{1}{2}", (6, 4)),
        ("a{1}??", (6, 5)),
        ("a*{", (6, 2)),
        ("(?", (6, 1)),
        ("(?)", (6, 1)),
        ("(?a)", (6, 1)),
        ("(??)", (6, 1)),
        ("(?*)", (6, 1)),
        ("a(?>a)", (6, 2)),
    ]);
}

#[test]
fn r7_r8_r9_counts() {
    all(&[
        ("a{", (7, 1)),
        ("a{}", (7, 1)),
        ("a{,}", (7, 1)),
        ("a{,5}", (7, 1)),
        ("a{x}", (7, 1)),
        ("a{1", (7, 1)),
        ("a{1,", (7, 1)),
        ("a{1,2", (7, 1)),
        ("a{1,2,}", (7, 1)),
        ("a{1 }", (7, 1)),
        ("a{ 1}", (7, 1)),
        ("a{1,2x}", (7, 1)),
        ("a{-1}", (7, 1)),
        ("a{1001", (7, 1)),
        ("a{2,1", (7, 1)),
        ("(a){", (7, 3)),
        ("[a]{", (7, 3)),
        (".{", (7, 1)),
        (r"\n{", (7, 2)),
        ("a{1001}", (8, 1)),
        ("a{1001,}", (8, 1)),
        ("a{1001,1}", (8, 1)),
        ("a{1,1001}", (8, 1)),
        ("a{2000,1}", (8, 1)),
        ("a{99999999999999999999}", (8, 1)),
        ("a{4294967297}", (8, 1)),
        ("a{1,18446744073709551617}", (8, 1)),
        ("a{2,1}", (9, 1)),
        ("ab{1000,999}", (9, 2)),
        ("a{1,0}", (9, 1)),
        ("a{010,9}", (9, 1)),
    ]);
    read_all(&[
        "a{1000}?",
        "a{0,1000}",
        "a{1000,}",
        "a{1000,1000}",
        "a{0001}",
        "a{00000000001000}",
    ]);
    assert_eq!(tree("a{002,0003}"), tree("a{2,3}"));
}

#[test]
fn r10_classes() {
    all(&[
        ("[", (10, 1)),
        ("[^", (10, 2)),
        ("[a", (10, 2)),
        ("[a-", (10, 3)),
        ("[a-b", (10, 4)),
        ("[z-a", (10, 1)),
        ("[z-a]", (10, 1)),
        ("x[bz-a]", (10, 3)),
        ("[^z-a]", (10, 2)),
        ("[a--]", (10, 1)),
        (r"[\d-a]", (10, 1)),
        (r"[\d-a", (10, 1)),
        (r"[\d-", (10, 4)),
        (r"[a-\d]", (10, 1)),
        (r"[-\d-a]", (10, 2)),
        (r"[\d-\d]", (10, 1)),
        (r"[--\d]", (10, 1)),
        (r"[\x7a-a]", (10, 1)),
        (r"[a-\b]", (10, 1)),
        ("([", (10, 2)),
        ("(a[", (10, 3)),
        (r"[\]", (10, 3)),
    ]);
    read_all(&[
        "[]",
        "[^]",
        "[-]",
        "[--]",
        "[---]",
        "[--a]",
        "[-a]",
        "[a-]",
        "[^-]",
        "[a-b-c]",
        r"[\d-]",
        r"[-\d]",
        "[a-b--z]",
        "[a-a]",
        "[[]",
        "[(){}*+?.$|^]",
        r"[\]]",
        r"[\b]",
        r"[\-]",
        "[a-b-]",
        r"[\0-\x7f]",
        r"[\cA-\cZ]",
    ]);
}

#[test]
fn r11_r12_brackets() {
    all(&[
        (")", (11, 0)),
        ("a)", (11, 1)),
        ("(a))", (11, 3)),
        ("(", (11, 1)),
        ("(a", (11, 2)),
        ("((a)", (11, 4)),
        ("(?:", (11, 3)),
        ("(?:a|", (11, 5)),
        ("]", (12, 0)),
        ("}", (12, 0)),
        ("a]", (12, 1)),
        ("a}", (12, 1)),
        ("a{1}}", (12, 4)),
        ("[]]", (12, 2)),
        ("[^]]", (12, 3)),
        ("(])", (12, 1)),
        ("a*}", (12, 2)),
        ("^]", (12, 1)),
    ]);
}

#[test]
fn r13_depth() {
    let nested =
        |open: &str, n: usize, inside: &str| [&open.repeat(n), inside, &")".repeat(n)].concat();
    read_all(&[&nested("(?:", 32, "a"), &nested("(?:", 32, ""), &nested("(?:", 32, "[(]")]);
    assert_eq!(refused(nested("(?:", 33, "a").as_bytes()), (13, 96));
    // Both kinds count; side by side they do not.
    assert_eq!(refused(nested("(?:", 31, "((").as_bytes()), (13, 94));
    read_all(&[&nested("(?:", 31, "(a)(b)"), &"(?:)".repeat(100)]);
    let at_33 = |behind: &str| refused([&"(?:".repeat(32), behind].concat().as_bytes());
    assert_eq!(at_33("(a"), (13, 96));
    assert_eq!(at_33("(?:a"), (13, 96));
    assert_eq!(at_33("(?x"), (13, 96));
    assert_eq!(at_33("(?"), (13, 96));
    assert_eq!(at_33("("), (13, 96));
    assert_eq!(at_33("(?="), (5, 96));
    assert_eq!(at_33("(?!"), (5, 96));
    assert_eq!(at_33("(?<"), (5, 96));
    assert_eq!(at_33("a"), (11, 97));
    // The 32nd group on level 33.
    let groups = ["()".repeat(31), "(?:".repeat(32), "(".to_string()].concat();
    assert_eq!(refused(groups.as_bytes()), (13, 158));
    let groups = ["(".repeat(31), "(?:(".to_string()].concat();
    assert_eq!(refused(groups.as_bytes()), (13, 34));
}

#[test]
fn r14_groups() {
    read_all(&[&"()".repeat(31), &["()".repeat(31), "(?:a)".repeat(9)].concat()]);
    assert_eq!(reading(&"()".repeat(31)).groups, 31);
    assert_eq!(refused("()".repeat(32).as_bytes()), (14, 62));
    assert_eq!(refused("(".repeat(32).as_bytes()), (14, 31));
    let after_31 =
        |behind: &str| refused(["()".repeat(31), behind.to_string()].concat().as_bytes());
    assert_eq!(after_31("a("), (14, 63));
    assert_eq!(after_31("(?"), (6, 63));
    assert_eq!(after_31("(?x)"), (6, 63));
    assert_eq!(after_31("(?="), (5, 62));
    assert_eq!(after_31("(?:("), (14, 65));
    assert_eq!(after_31("(*"), (14, 62));
    assert_eq!(after_31(r"\(("), (14, 64));
}

#[test]
fn r15_rows() {
    assert_eq!(program("a{508}").n(), 1_024);
    assert_eq!(refused(b"a{508}a"), (15, 0));
    assert_eq!(refused(b"a{509}"), (15, 0));
    assert_eq!(program("(?:){1000}").n(), 1_008);
    assert_eq!(refused(b"(?:(?:a{1000}){1000}){1000}"), (15, 0));
    let huge = ["(?:".repeat(32), "a".to_string(), "){1000}".repeat(32)].concat();
    assert_eq!(refused(huge.as_bytes()), (15, 0));
    let nothing =
        ["(?:".repeat(31), "a".to_string(), "){1000}".repeat(30), "){0}".to_string()].concat();
    assert_eq!(program(&nothing).n(), 8);
    // 15 goes before 16, and after everything in the reading.
    assert_eq!(compile(b"a{509}", ROOM, 0), Err(Refusal { number: 15, place: 0 }));
    assert_eq!(refused(b"a{509})"), (11, 6));
}

#[test]
fn r16_code() {
    assert!(compile(b"", ROOM, 108).is_ok());
    assert_eq!(compile(b"", ROOM, 107), Err(Refusal { number: 16, place: 0 }));
    assert!(compile(b"a*", ROOM, 168).is_ok());
    assert_eq!(compile(b"a*", ROOM, 167), Err(Refusal { number: 16, place: 0 }));
}

#[test]
fn tidied_refusals_are_the_plain_ones_but_16() {
    // `a{1}` has 10 rows, tidied 9.
    assert_eq!(compile(b"a{1}", ROOM, 120), Err(Refusal { number: 16, place: 0 }));
    assert!(compile_tidied(b"a{1}", ROOM, 120).is_ok());
    assert_eq!(compile_tidied(b"a{1}", ROOM, 119), Err(Refusal { number: 16, place: 0 }));
    // 15 by the plain n.
    assert_eq!(
        compile_tidied(b"(?:){1000}(?:){1000}", ROOM, ROOM),
        Err(Refusal { number: 15, place: 0 })
    );
    assert_eq!(compile_tidied(b"a**", ROOM, ROOM), Err(Refusal { number: 6, place: 2 }));
}

#[test]
fn the_first_place_wins() {
    all(&[
        (r"\q)", (4, 0)),
        (r")\q", (11, 0)),
        ("a{2,1}**", (9, 1)),
        ("[z-a](", (10, 1)),
        ("(a{", (7, 2)),
        ("(]", (12, 1)),
        ("([z-a", (10, 2)),
        ("(?=*", (5, 0)),
        ("(?x", (6, 1)),
        ("*(", (6, 0)),
        ("(*", (6, 1)),
    ]);
}
