//! Rows and code words, by hand.

mod common;
use common::*;
use reference::compile::{compile_tidied, write};
use reference::rows::{check, Row, Row::*};
use reference::sets::{one, ALL};

/// The rows of a pattern without prefix, Open 0, Close 0 and Accept.
fn inside(pattern: &str) -> Vec<Row> {
    let rows = program(pattern).rows().to_vec();
    let n = rows.len();
    assert_eq!(rows[..6], [Fork(5, 1), Begin, Reset(1, 0), Consume(ALL), End(0), Open(0)]);
    assert_eq!(rows[n - 2..], [Close(0), Accept]);
    rows[6..n - 2].to_vec()
}

fn a() -> Row {
    Consume(one(b'a'))
}

fn b() -> Row {
    Consume(one(b'b'))
}

#[test]
fn the_outlines_example() {
    let rows = [
        Fork(5, 1),
        Begin,
        Reset(1, 0),
        Consume(ALL),
        End(0),
        Open(0),
        Fork(7, 11),
        Begin,
        Reset(1, 0),
        a(),
        End(6),
        Close(0),
        Accept,
    ];
    assert_eq!(program("a*").rows(), rows);
    const F: u32 = 0xFFFF_FFFF;
    #[rustfmt::skip]
    let words = [
        13, 0, 0, 0, 0, 0, 0, 0, 0, 0, 0, 0,
        4, 5, 1, 0, 0, 0, 0, 0, 0, 0, 0, 0,
        8, 0, 0, 0, 0, 0, 0, 0, 0, 0, 0, 0,
        7, 1, 0, 0, 0, 0, 0, 0, 0, 0, 0, 0,
        2, 0, 0, 0, F, F, F, F, F, F, F, F,
        9, 0, 0, 0, 0, 0, 0, 0, 0, 0, 0, 0,
        5, 0, 0, 0, 0, 0, 0, 0, 0, 0, 0, 0,
        4, 7, 11, 0, 0, 0, 0, 0, 0, 0, 0, 0,
        8, 0, 0, 0, 0, 0, 0, 0, 0, 0, 0, 0,
        7, 1, 0, 0, 0, 0, 0, 0, 0, 0, 0, 0,
        2, 0, 0, 0, 0, 0, 0, 2, 0, 0, 0, 0,
        9, 6, 0, 0, 0, 0, 0, 0, 0, 0, 0, 0,
        6, 0, 0, 0, 0, 0, 0, 0, 0, 0, 0, 0,
        1, 0, 0, 0, 0, 0, 0, 0, 0, 0, 0, 0,
    ];
    assert_eq!(program("a*").words(), words);
}

#[test]
fn parts() {
    assert_eq!(inside(""), []);
    assert_eq!(inside("ab"), [a(), b()]);
    assert_eq!(inside(r"^$\b\B"), [Assert(0), Assert(1), Assert(2), Assert(3)]);
    assert_eq!(inside("(a)"), [Open(1), a(), Close(1)]);
    assert_eq!(inside("a|b"), [Fork(7, 9), a(), Jump(10), b()]);
    assert_eq!(
        inside("a|b|ab"),
        [Fork(7, 9), a(), Jump(14), Fork(10, 12), b(), Jump(14), a(), b()]
    );
    // Flat: the jumps lead to the end of the whole.
    assert_eq!(inside("(?:a|b)|ab"), inside("a|b|ab"));
    assert_eq!(inside("|"), [Fork(7, 8), Jump(8)]);
    assert_eq!(inside("(?:|)b"), [Fork(7, 8), Jump(8), b()]);
}

#[test]
fn quantifiers() {
    let none = Reset(1, 0);
    assert_eq!(inside("a*?"), [Fork(11, 7), Begin, none, a(), End(6)]);
    assert_eq!(inside("a+"), [none, a(), Fork(9, 13), Begin, none, a(), End(8)]);
    assert_eq!(inside("a?"), [Fork(7, 11), Begin, none, a(), End(11)]);
    assert_eq!(inside("a??"), [Fork(11, 7), Begin, none, a(), End(11)]);
    assert_eq!(inside("a{0}"), []);
    assert_eq!(inside("a{2}"), [none, a(), none, a()]);
    assert_eq!(inside("a{2}?"), inside("a{2}"));
    let two_turns = [
        none,
        a(),
        Fork(9, 18),
        Begin,
        none,
        a(),
        End(13),
        Fork(14, 18),
        Begin,
        none,
        a(),
        End(18),
    ];
    assert_eq!(inside("a{1,3}"), two_turns);
    assert_eq!(inside("(?:)*"), [Fork(7, 10), Begin, none, End(6)]);
    assert_eq!(
        inside("(a)((b)(?:a))*"),
        [
            Open(1),
            a(),
            Close(1),
            Fork(10, 19),
            Begin,
            Reset(2, 3),
            Open(2),
            Open(3),
            b(),
            Close(3),
            a(),
            Close(2),
            End(9),
        ]
    );
    // Reset's range counts the groups written inside r, also under {0}.
    assert_eq!(inside("(?:(a){0}b){1}"), [Reset(1, 1), b()]);
    assert_eq!(inside("(?:a*){2}").len(), 2 * (1 + 5));
}

#[test]
fn header_and_later_words() {
    let program = program("(a)|(b)");
    assert_eq!(program.words()[..12], [16, 2, 0, 0, 0, 0, 0, 0, 0, 0, 0, 0]);
    let mut code = vec![77; 12 * 17 + 3];
    write(&program, &mut code);
    assert_eq!(code[..12 * 17], program.words());
    assert_eq!(code[12 * 17..], [77; 3]);
    // Tidied: g stays.
    let tidied = compile_tidied(b"(?:a|a)(b){0}", ROOM, ROOM).unwrap();
    assert_eq!((tidied.n(), tidied.groups()), (9, 1));
}

#[test]
fn compiled_code_passes() {
    for pattern in ["", "a*", "(a|b)+?", r"^(?:(a)|\b[^]){2,3}$", "[]"] {
        assert_eq!(check(&program(pattern).words()), Some(program(pattern)));
    }
}
