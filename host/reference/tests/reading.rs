//! Trees: what a pattern may hold, flat sequences and alternations, sets.

mod common;
use common::*;
use reference::node::Node;
use reference::sets::{self, members, Set};

fn set(bytes: impl IntoIterator<Item = u8>) -> Node {
    let all = bytes.into_iter().fold(sets::NONE, |set, byte| sets::union(&set, &sets::one(byte)));
    Node::Set(all)
}

fn literal(byte: u8) -> Node {
    set([byte])
}

fn seq(items: Vec<Node>) -> Node {
    Node::Seq(items)
}

fn alt(items: Vec<Node>) -> Node {
    Node::Alt(items)
}

fn group(number: u32, inner: Node) -> Node {
    Node::Group(number, Box::new(inner))
}

fn many(min: u32, max: Option<u32>, lazy: bool, inner: Node) -> Node {
    Node::Many { min, max, lazy, inner: Box::new(inner) }
}

#[test]
fn words_of_a_set() {
    // Bit b mod 32 of word b div 32.
    let expected: Set = [0, 0, 0, 2, 0, 0, 0, 0];
    assert_eq!(sets::one(0x61), expected);
    assert_eq!(sets::one(0x00), [1, 0, 0, 0, 0, 0, 0, 0]);
    assert_eq!(sets::one(0xFF), [0, 0, 0, 0, 0, 0, 0, 0x8000_0000]);
    assert_eq!(sets::range(0x1F, 0x20), [0x8000_0000, 1, 0, 0, 0, 0, 0, 0]);
    assert_eq!(sets::digits(), [0, 0x03FF_0000, 0, 0, 0, 0, 0, 0]);
    assert_eq!(sets::word_bytes(), [0, 0x03FF_0000, 0x87FF_FFFE, 0x07FF_FFFE, 0, 0, 0, 0]);
    assert_eq!(sets::spaces(), [0x3E00, 1, 0, 0, 0, 1, 0, 0]);
    assert_eq!(sets::dot(), [!0x2400, !0, !0, !0, !0, !0, !0, !0]);
    assert_eq!(sets::complement(&sets::NONE), sets::ALL);
    for byte in 0..=255 {
        assert_eq!(members(&sets::one(byte)), [byte]);
    }
}

#[test]
fn flat() {
    let (a, b, c) = (literal(b'a'), literal(b'b'), literal(b'c'));
    assert_eq!(tree(""), Node::Empty);
    assert_eq!(tree("(?:)"), Node::Empty);
    assert_eq!(tree("(?:(?:a))"), a);
    assert_eq!(tree("abc"), seq(vec![a.clone(), b.clone(), c.clone()]));
    assert_eq!(tree("a(?:b(?:c))"), tree("abc"));
    assert_eq!(tree("(?:ab)c"), tree("abc"));
    assert_eq!(tree("a|b|c"), alt(vec![a.clone(), b.clone(), c.clone()]));
    assert_eq!(tree("(?:a|b)|c"), tree("a|b|c"));
    assert_eq!(tree("a|(?:b|(?:c))"), tree("a|b|c"));
    assert_eq!(tree("a(?:b|c)"), seq(vec![a.clone(), alt(vec![b.clone(), c.clone()])]));
    // `(?:)` in a sequence is an empty item, not dropped by flattening.
    assert_eq!(tree("a(?:)b"), seq(vec![a.clone(), Node::Empty, b.clone()]));
    assert_eq!(tree("a(?:)"), seq(vec![a.clone(), Node::Empty]));
    assert_eq!(tree("(?:)(?:)"), seq(vec![Node::Empty, Node::Empty]));
    assert_eq!(tree("a(?:(?:)(?:))"), seq(vec![a.clone(), Node::Empty, Node::Empty]));
    assert_eq!(tree("|"), alt(vec![Node::Empty, Node::Empty]));
    assert_eq!(tree("a||"), alt(vec![a.clone(), Node::Empty, Node::Empty]));
    assert_eq!(tree("(?:|)|a"), alt(vec![Node::Empty, Node::Empty, a.clone()]));
    assert_eq!(tree("(?:ab|c)*"), many(0, None, false, alt(vec![seq(vec![a, b]), c])));
}

#[test]
fn quantifiers() {
    let a = || literal(b'a');
    assert_eq!(tree("a*"), many(0, None, false, a()));
    assert_eq!(tree("a+"), many(1, None, false, a()));
    assert_eq!(tree("a?"), many(0, Some(1), false, a()));
    assert_eq!(tree("a{3}"), many(3, Some(3), false, a()));
    assert_eq!(tree("a{3,}"), many(3, None, false, a()));
    assert_eq!(tree("a{3,5}"), many(3, Some(5), false, a()));
    assert_eq!(tree("a*?"), many(0, None, true, a()));
    assert_eq!(tree("a+?"), many(1, None, true, a()));
    assert_eq!(tree("a??"), many(0, Some(1), true, a()));
    assert_eq!(tree("a{3}?"), many(3, Some(3), true, a()));
    assert_eq!(tree("a{3,}?"), many(3, None, true, a()));
    assert_eq!(tree("a{3,5}?"), many(3, Some(5), true, a()));
    assert_eq!(tree("a{0,}"), tree("a*"));
    assert_eq!(tree("a{1,}"), tree("a+"));
    assert_eq!(tree("a{0,1}"), tree("a?"));
    assert_eq!(tree("a{0}"), many(0, Some(0), false, a()));
    assert_eq!(tree("ab*"), seq(vec![a(), many(0, None, false, literal(b'b'))]));
    // Whether an item may be quantified is a fact of its bytes.
    assert_eq!(tree("(?:^)*"), many(0, None, false, Node::Assert(0)));
    assert_eq!(tree("(?:a*)*"), many(0, None, false, many(0, None, false, a())));
    assert_eq!(tree("(?:a*)?"), many(0, Some(1), false, many(0, None, false, a())));
}

#[test]
fn groups() {
    let (a, b) = (literal(b'a'), literal(b'b'));
    assert_eq!(tree("(a)"), group(1, a.clone()));
    assert_eq!(tree("()"), group(1, Node::Empty));
    assert_eq!(tree("((a)|b)"), group(1, alt(vec![group(2, a.clone()), b.clone()])));
    assert_eq!(tree("(?:(a))(b)"), seq(vec![group(1, a.clone()), group(2, b)]));
    assert_eq!(reading("(a){0}(b)").groups, 2);
    assert_eq!(tree("(a){0}"), many(0, Some(0), false, group(1, a)));
    assert_eq!(tree("x((a)(b))*").groups(), Some((1, 3)));
    assert_eq!(tree("x").groups(), None);
}

#[test]
fn assertions() {
    assert_eq!(tree("^"), Node::Assert(0));
    assert_eq!(tree("$"), Node::Assert(1));
    assert_eq!(tree(r"\b"), Node::Assert(2));
    assert_eq!(tree(r"\B"), Node::Assert(3));
    assert_eq!(tree("^^"), seq(vec![Node::Assert(0), Node::Assert(0)]));
}

#[test]
fn escapes() {
    assert_eq!(tree("."), set((0..=255).filter(|byte| ![0x0A, 0x0D].contains(byte))));
    assert_eq!(tree(r"\d"), set(b'0'..=b'9'));
    assert_eq!(tree(r"\D"), set((0..=255).filter(|byte: &u8| !byte.is_ascii_digit())));
    let is_word = |byte: &u8| byte.is_ascii_alphanumeric() || *byte == b'_';
    assert_eq!(tree(r"\w"), set((0..=255).filter(is_word)));
    assert_eq!(tree(r"\W"), set((0..=255).filter(|byte| !is_word(byte))));
    let is_space = |byte: &u8| (0x09..=0x0D).contains(byte) || [0x20, 0xA0].contains(byte);
    assert_eq!(tree(r"\s"), set((0..=255).filter(is_space)));
    assert_eq!(tree(r"\S"), set((0..=255).filter(|byte| !is_space(byte))));
    assert_eq!(tree(r"\f\n\r\t\v"), seq([0x0C, 0x0A, 0x0D, 0x09, 0x0B].map(literal).to_vec()));
    assert_eq!(tree(r"\cA\ca\cZ\cz\cJ"), seq([1, 1, 26, 26, 10].map(literal).to_vec()));
    assert_eq!(
        tree(r"\x00\x7f\x7F\xfF\x61"),
        seq([0, 0x7F, 0x7F, 0xFF, 0x61].map(literal).to_vec())
    );
    assert_eq!(tree(r"\0"), literal(0));
    assert_eq!(tree(r"\0a"), seq(vec![literal(0), literal(b'a')]));
    assert_eq!(tree(r"\0*"), many(0, None, false, literal(0)));
    assert_eq!(tree(r"\x411"), seq(vec![literal(0x41), literal(b'1')]));
    for byte in (0..0x80).filter(|byte| !is_word(byte)) {
        let escape = String::from_utf8(vec![b'\\', byte]).unwrap();
        assert_eq!(tree(&escape), literal(byte));
        assert_eq!(tree(&format!("[{escape}]")), literal(byte));
    }
    for byte in (0..0x80).filter(|byte| !b"^$\\.*+?()[]{}|".contains(byte)) {
        assert_eq!(tree(&String::from_utf8(vec![byte]).unwrap()), literal(byte));
    }
}

#[test]
fn classes() {
    assert_eq!(tree("[]"), set([]));
    assert_eq!(tree("[^]"), set(0..=255));
    assert_eq!(tree("[abc]"), set(*b"abc"));
    assert_eq!(tree("[^abc]"), set((0..=255).filter(|byte| !b"abc".contains(byte))));
    assert_eq!(tree("[a-c]"), set(b'a'..=b'c'));
    assert_eq!(tree("[a-a]"), literal(b'a'));
    assert_eq!(tree("[ab-d]"), set(*b"abcd"));
    assert_eq!(tree("[-]"), literal(b'-'));
    assert_eq!(tree("[--]"), literal(b'-'));
    assert_eq!(tree("[---]"), literal(b'-'));
    assert_eq!(tree("[-a]"), set(*b"-a"));
    assert_eq!(tree("[a-]"), set(*b"-a"));
    assert_eq!(tree("[--a]"), set(0x2D..=0x61));
    assert_eq!(tree("[+--]"), set(*b"+,-"));
    assert_eq!(tree("[a-b-c]"), set(*b"ab-c"));
    assert_eq!(tree("[a-b--z]"), set(0x2D..=0x7A));
    assert_eq!(tree("[a-b-c-d]"), set(*b"ab-cd"));
    assert_eq!(tree("[^-c]"), set((0..=255).filter(|byte| !b"-c".contains(byte))));
    assert_eq!(tree("[a^]"), set(*b"a^"));
    assert_eq!(tree("[^^]"), set((0..=255).filter(|&byte| byte != b'^')));
    assert_eq!(tree("[.*+?(){}|$[]"), set(*b".*+?(){}|$["));
    assert_eq!(tree(r"[\b]"), literal(8));
    assert_eq!(tree(r"[\b-\n]"), set(8..=10));
    assert_eq!(tree(r"[\d-]"), set(*b"0123456789-"));
    assert_eq!(tree(r"[-\d]"), set(*b"0123456789-"));
    assert_eq!(tree(r"[\d\D]"), set(0..=255));
    assert_eq!(tree(r"[^\d\D]"), set([]));
    assert_eq!(tree(r"[\]-a]"), set(0x5D..=0x61));
    assert_eq!(tree(r"[a\-z]"), set(*b"a-z"));
    assert_eq!(tree(r"[\0-\xff]"), set(0..=255));
    assert_eq!(tree("[\0\n]"), set([0, 10]));
    assert_eq!(tree("[]a"), seq(vec![set([]), literal(b'a')]));
}
