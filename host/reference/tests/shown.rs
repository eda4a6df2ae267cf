//! Request 3 on the reference alone: vectors, and that what is shown reads
//! back as the same tree and is shown again as the same bytes.

mod common;
use common::{reading, tree, ROOM};
use reference::generate::*;
use reference::node::Node;
use reference::reader::{read, DEPTH_LIMIT, PATTERN_LIMIT};
use reference::sets::Set;
use reference::show::{depth, set_text, text};
use reference::tidier::tidy;

#[test]
fn vectors() {
    for (pattern, shown) in [
        ("a|ab", "a|ab"),
        ("(?:(a)|b)*", "(?:(a)|b)*"),
        ("a(b*)c", "a(b*)c"),
        ("(?:a?b??)*", "(?:a?b??)*"),
        ("(?:a*)*?(ab|b)", "(?:a*)*?(ab|b)"),
        ("", ""),
        ("a||b", "a||b"),
        ("(?:)a", "(?:)a"),
        ("(?:ab)c", "abc"),
        ("(?:^)*", "(?:^)*"),
        ("(?:a|b)|c", "a|b|c"),
        ("a{2,2}b{3,}c{0,1}d{1,}e{0,}f{1}g{4,5}?", "a{2}b{3,}c?d+e*f{1}g{4,5}?"),
        ("[\\w.-]", "[\\w\\-.]"),
        ("[^,\\s]", "[^\\s,]"),
        ("[\\s\\S]", "[^]"),
        ("[]", "[]"),
        ("\\0[1]", "\\x001"),
        ("[a-c]", "[a-c]"),
        ("[ab]", "[ab]"),
        ("\\x41\\x7f\\cJ\\.", "A\\x7F\\n\\."),
        ("[^\\n\\r]", "."),
        ("[A-Za-z0-9_]", "\\w"),
    ] {
        assert_eq!(text(&tree(pattern)), shown, "{pattern}");
    }
}

/// Shared beginnings nest: 33 letters are 32 deep and 193 bytes long.
#[test]
fn nested_beginnings() {
    let letters = |n: usize| -> String {
        let all: Vec<char> = ('A'..='Z').chain('a'..='z').take(n).collect();
        let words: Vec<String> = (1..=n).map(|k| all[..k].iter().collect()).collect();
        words.join("|")
    };
    let shown = tidy(tree(&letters(33)));
    assert_eq!((depth(&shown), text(&shown).len()), (32, 193));
    assert_eq!(depth(&tidy(tree(&letters(34)))), 33);
}

/// 512 bytes 01 are 2,048 bytes shown.
#[test]
fn longest() {
    let raw = |n: usize| Node::sequence(vec![tree("\\x01"); n]);
    assert_eq!(text(&raw(512)).len(), PATTERN_LIMIT);
    assert_eq!(text(&raw(513)).len(), PATTERN_LIMIT + 4);
}

fn there_and_back(node: &Node) {
    let shown = text(node);
    if shown.len() > PATTERN_LIMIT || depth(node) > DEPTH_LIMIT {
        return;
    }
    let again = reading(&shown).tree;
    assert_eq!(&again, node, "{shown}");
    assert_eq!(text(&again), shown);
}

#[test]
fn random_patterns() {
    let mut random = Random::new(3);
    for _ in 0..20_000 {
        if let Ok(reading) = read(&pattern(&mut random), ROOM) {
            there_and_back(&reading.tree);
            there_and_back(&tidy(reading.tree));
        }
    }
}

#[test]
fn random_sets() {
    let mut random = Random::new(26);
    for _ in 0..5_000 {
        let mut set: Set = std::array::from_fn(|_| random.next() as u32);
        if random.percent(50) {
            let mask: Set = std::array::from_fn(|_| (random.next() & random.next()) as u32);
            set = std::array::from_fn(|word| set[word] & mask[word]);
        }
        assert_eq!(tree(&set_text(&set)), Node::Set(set));
    }
}
