//! The tidier's laws: each where it fits, where it does not, and their order.

mod common;
use common::*;
use reference::node::Node;
use reference::tidier::{apply, find, tidy};

/// Tidying the one pattern gives the tree of the other, and is then at an end.
fn tidied(pattern: &str, expected: &str) {
    let tidied = tidy(tree(pattern));
    assert_eq!(tidied, tree(expected), "{pattern} -> {expected}");
    assert_eq!(find(&tidied), None);
}

/// No law fits anywhere.
fn stays(pattern: &str) {
    assert_eq!(find(&tree(pattern)), None, "{pattern}");
}

/// The law makes this of the whole, in one step.
fn by(law: u32, pattern: &str, expected: &str) {
    assert_eq!(apply(law, &tree(pattern)), Some(tree(expected)), "T{law} {pattern}");
}

/// The law does not fit the whole.
fn not_by(law: u32, pattern: &str) {
    assert_eq!(apply(law, &tree(pattern)), None, "T{law} {pattern}");
}

#[test]
fn t1() {
    by(1, "a(?:)b", "ab");
    by(1, "a(?:)", "a");
    by(1, "(?:)(?:)", "");
    by(1, "(a)(?:)(b)", "(a)(b)");
    not_by(1, "ab");
    not_by(1, "");
    not_by(1, "a|");
    stays("a()b");
}

#[test]
fn t2() {
    by(2, "a{1}", "a");
    by(2, "a{1}?", "a");
    by(2, "a{1,1}", "a");
    by(2, "a{0}", "");
    by(2, "a{0}?", "");
    by(2, "(?:a|b*){0,0}", "");
    not_by(2, "(a){1}");
    not_by(2, "(a){0}");
    not_by(2, "a{0,1}");
    not_by(2, "a{2}");
    not_by(2, "a{1,}");
    stays("(?:a(b)){1}");
    // Joined to the parts around it.
    tidied("(?:a|b){1}|c", "a|b|c");
    tidied("a(?:bc){1}d", "abcd");
}

#[test]
fn t3() {
    for quantifier in ["*", "+", "?", "*?", "{5}", "{2,7}?", "{3,}"] {
        by(3, &format!("(?:){quantifier}"), "");
    }
    not_by(3, "()*");
    tidied("(?:(?:)*)+a", "a");
}

#[test]
fn t4() {
    for assertion in ["^", "$", r"\b", r"\B"] {
        for quantifier in ["*", "?", "*?", "??", "{0,7}"] {
            by(4, &format!("(?:{assertion}){quantifier}"), "");
        }
        for quantifier in ["+", "+?", "{1,7}", "{2}", "{3,}?"] {
            by(4, &format!("(?:{assertion}){quantifier}"), assertion);
        }
    }
    not_by(4, "(^)*");
    not_by(4, "a*");
    stays("(?:^|$)*");
}

#[test]
fn t5() {
    by(5, "(?:a*)*", "a*");
    by(5, "(?:a*?)*", "a*");
    by(5, "(?:a*?)*?", "a*?");
    by(5, "(?:a{0,}){00,}", "a*");
    by(5, "(?:(?:ab|c)*)*", "(?:ab|c)*");
    not_by(5, "(?:a*)*?");
    not_by(5, "(?:a+)*");
    not_by(5, "(?:a*)+");
    not_by(5, "(?:(a)*)*");
    not_by(5, "(a*)*");
    not_by(5, "a*");
    stays("(?:a*)*?");
    tidied("(?:(?:a*?)*)*?", "(?:a*)*?");
    tidied("(?:(?:(?:a*)*)*)*", "a*");
}

#[test]
fn t6() {
    by(6, "a|b|a", "a|b");
    by(6, "a|a", "a");
    by(6, "|", "");
    by(6, "(c)|ab|ab", "(c)|ab");
    not_by(6, "a|b");
    not_by(6, "(a)|(a)");
    // Laziness is part of a quantifier; the spelling is not.
    not_by(6, "a{2}|a{2}?");
    by(6, "a*|a{0,}", "a*");
    by(6, "[ab]|[a-b]", "[ab]");
    tidied("a|b|a|b|c|a", "a|b|c");
    tidied("x(?:a|a)y", "xay");
    tidied("|a||b|", "|a|b");
}

#[test]
fn t7() {
    by(7, "[]|a", "a");
    by(7, "a|[]", "a");
    by(7, "(a)|[]|b", "(a)|b");
    by(7, "a[]b", "[]");
    by(7, r"a[^\0-\xff]", "[]");
    not_by(7, "(a)[]");
    not_by(7, "[](?:b(a))");
    not_by(7, "[]");
    not_by(7, "a|b[]");
    not_by(7, "a[]*");
    // A flat sequence is one part: its group-free rest is none.
    stays("(a)b[]");
    stays("(?:b[])(a)");
    tidied("(?:b[]){1}(a)", "[](a)");
    stays("[]*");
    stays("[]+");
    stays("([])");
    tidied("[]|[]", "[]");
    tidied("a|b[]c|d", "a|d");
    tidied("a(?:[]|b[])", "[]");
}

#[test]
fn t8() {
    by(8, "a|ab", "a(?:|b)");
    by(8, "ab|ac", "a(?:b|c)");
    by(8, "ab|a|c", "a(?:b|)|c");
    by(8, "x|ab|ac|ad|y", "x|a(?:b|c|d)|y");
    by(8, "ab|ac|b|ca|cb|cc", "a(?:b|c)|b|ca|cb|cc");
    by(8, "ab|ac|ad|ae", "a(?:b|c|d|e)");
    by(8, "a(b)|a(c)", "a(?:(b)|(c))");
    by(8, "[ab]c|[a-b]d", "[ab](?:c|d)");
    by(8, "ab|a(?:c|d)", "a(?:b|c|d)");
    by(8, "a*|ab|ac*", "a*|a(?:b|c*)");
    not_by(8, "ab|c|ad");
    not_by(8, "a*b|a*c");
    not_by(8, "a?|ab");
    not_by(8, "(a)b|(a)c");
    not_by(8, "^a|^b");
    not_by(8, "|");
    not_by(8, "(?:ab)*|ab");
    tidied("ab|ac|b|ca|cb|cc", "a(?:b|c)|b|c(?:a|b|c)");
    tidied("a|ab|abc", "a(?:|b(?:|c))");
    tidied("abc|abd|ae", "a(?:b(?:c|d)|e)");
    tidied("ab|a(?:b|c)", "a(?:b|c)");
    tidied("x(?:ab|ac)y", "xa(?:b|c)y");
    tidied("[](a)|[](b)", "[](?:(a)|(b))");
    // The leftmost run first, though a later one is longer: T6 then takes
    // away the beginning of the later one.
    tidied("ab|ac|x|a(?:b|c)|ad|ae", "a(?:b|c)|x|a(?:d|e)");
}

#[test]
fn t9() {
    by(9, "(?:a?)?", "a?");
    by(9, "(?:a??)??", "a??");
    by(9, "(?:a{0,1}){0,1}", "a?");
    not_by(9, "(?:a?)??");
    not_by(9, "(?:a??)?");
    not_by(9, "(?:(a)?)?");
    not_by(9, "(a?)?");
    not_by(9, "(?:a?)*");
    stays("(?:a?)??");
    stays("(?:a??)?");
    tidied("(?:(?:a?)?)?", "a?");
}

#[test]
fn t10() {
    by(10, "(?:a*)+", "a*");
    by(10, "(?:a{0,}){1,}", "a*");
    by(10, "(?:(?:ab|c)*)+", "(?:ab|c)*");
    for pattern in ["(?:a*?)+", "(?:a*)+?", "(?:a*?)+?", "(?:a+)+", "(?:a*){2,}", "(?:(a)*)+"] {
        not_by(10, pattern);
        stays(pattern);
    }
    not_by(10, "(?:a*)*");
    not_by(10, "(?:a*){1,2}");
    not_by(10, "(?:a*){1}");
    not_by(10, "(?:a{0,5})+");
    not_by(10, "(a*)+");
    not_by(10, "a+");
    tidied("(?:(?:a*)+)*", "a*");
    tidied("(?:(?:a*)+)+", "a*");
    tidied("(?:(?:a*)*)+", "a*");
}

#[test]
fn the_first_place_found() {
    let first = |pattern: &str| find(&tree(pattern)).map(|found| (found.part, found.law));
    // Each part after the parts inside it, left to right.
    assert_eq!(first("a{1}(?:)b{0}"), Some((vec![0], 2)));
    assert_eq!(first("c(?:)(?:b{0}|d)"), Some((vec![2, 0], 2)));
    assert_eq!(first("(x(?:a{1})*)"), Some((vec![0, 1, 0], 2)));
    // The lowest law first.
    assert_eq!(first("(?:){1}"), Some((vec![], 2)));
    assert_eq!(first("[](?:)a"), Some((vec![], 1)));
    assert_eq!(first("[]|[]"), Some((vec![], 6)));
    assert_eq!(first("a|ab|[]"), Some((vec![], 7)));
    assert_eq!(first("ab"), None);
}

#[test]
fn no_law_for_these() {
    for pattern in
        ["", "a", "(a)", "a|b", "a?", "a??", "a+", "(a*)*", "(?:a|)", "(?:|a)", "[]", "^", "(^)*"]
    {
        stays(pattern);
    }
    assert_eq!(tree("(?:a|)"), Node::Alt(vec![tree("a"), Node::Empty]));
}

#[test]
fn deep_sharing() {
    // a|ab|abb|... nests once for each: deeper than 32.
    let words: Vec<String> = (0..55).map(|n| format!("a{}", "b".repeat(n))).collect();
    let tidied = tidy(tree(&words.join("|")));
    let mut node = &tidied;
    let mut depth = 0;
    while let Node::Seq(items) = node {
        assert_eq!(items.len(), 2);
        let rests = match &items[1] {
            Node::Alt(rests) => rests,
            _ => panic!(),
        };
        assert_eq!((rests.len(), &rests[0]), (2, &Node::Empty));
        node = &rests[1];
        depth += 1;
    }
    assert_eq!((depth, node), (54, &tree("b")));
}
