//! Request 3: a tree written back as pattern bytes, "with the fewest
//! parentheses the grammar needs and one fixed spelling for each byte set and
//! quantifier". The spelling is the one in docs/TABLE.md.

use crate::node::Node;
use crate::sets::{self, Set};

/// The text of a tree.
pub fn text(tree: &Node) -> String {
    match tree {
        Node::Empty => String::new(),
        Node::Set(set) => set_text(set),
        Node::Assert(number) => ["^", "$", "\\b", "\\B"][*number as usize].into(),
        Node::Group(_, inner) => format!("({})", text(inner)),
        Node::Seq(items) => items.iter().map(item).collect(),
        Node::Alt(alternatives) => alternatives.iter().map(text).collect::<Vec<_>>().join("|"),
        Node::Many { min, max, lazy, inner } => {
            let body = match inner.as_ref() {
                Node::Set(_) | Node::Group(..) => text(inner),
                other => plain(other),
            };
            format!("{body}{}{}", counts(*min, *max), if *lazy { "?" } else { "" })
        }
    }
}

/// How deep the parentheses of that text are.
pub fn depth(tree: &Node) -> usize {
    let mut open: usize = 0;
    let mut deepest = 0;
    let bytes = text(tree).into_bytes();
    let mut at = 0;
    let mut in_class = false;
    while at < bytes.len() {
        match bytes[at] {
            b'\\' => at += 1,
            b'[' if !in_class => in_class = true,
            b']' if in_class => in_class = false,
            b'(' if !in_class => {
                open += 1;
                deepest = deepest.max(open);
            }
            b')' if !in_class => open -= 1,
            _ => {}
        }
        at += 1;
    }
    deepest
}

/// A part as an item of a sequence.
fn item(part: &Node) -> String {
    match part {
        Node::Empty | Node::Alt(_) => plain(part),
        other => text(other),
    }
}

/// A part in parentheses that leave no node.
fn plain(part: &Node) -> String {
    format!("(?:{})", text(part))
}

fn counts(min: u32, max: Option<u32>) -> String {
    match (min, max) {
        (0, None) => "*".into(),
        (1, None) => "+".into(),
        (0, Some(1)) => "?".into(),
        (n, Some(m)) if n == m => format!("{{{n}}}"),
        (n, None) => format!("{{{n},}}"),
        (n, Some(m)) => format!("{{{n},{m}}}"),
    }
}

/// The one spelling of a byte set.
pub fn set_text(set: &Set) -> String {
    let escapes = [
        (sets::digits(), "\\d"),
        (sets::complement(&sets::digits()), "\\D"),
        (sets::word_bytes(), "\\w"),
        (sets::complement(&sets::word_bytes()), "\\W"),
        (sets::spaces(), "\\s"),
        (sets::complement(&sets::spaces()), "\\S"),
    ];
    if *set == sets::dot() {
        return ".".into();
    }
    if let Some((_, name)) = escapes.iter().find(|(known, _)| known == set) {
        return (*name).into();
    }
    if let [byte] = sets::members(set)[..] {
        return byte_text(byte, b"^$\\.*+?()[]{}|");
    }
    let lacked = sets::complement(set);
    let classes = [
        format!("[{}]", runs(set)),
        format!("[^{}]", runs(&lacked)),
        format!("[{}]", named(set)),
        format!("[^{}]", named(&lacked)),
    ];
    // `min_by_key` gives the first of the shortest.
    classes.into_iter().min_by_key(String::len).unwrap()
}

/// The names of what is contained, and the runs of the rest.
fn named(set: &Set) -> String {
    let contains = |part: &Set| sets::union(set, part) == *set;
    let mut rest = *set;
    let mut out = String::new();
    let mut take = |part: Set, name: &str| {
        out += name;
        for (word, gone) in rest.iter_mut().zip(part) {
            *word &= !gone;
        }
    };
    if contains(&sets::word_bytes()) {
        take(sets::word_bytes(), "\\w");
    } else if contains(&sets::digits()) {
        take(sets::digits(), "\\d");
    }
    if contains(&sets::spaces()) {
        take(sets::spaces(), "\\s");
    }
    out + &runs(&rest)
}

/// The runs of a set in rising order.
fn runs(set: &Set) -> String {
    let special = b"\\]^-";
    let mut out = String::new();
    let mut next = 0u16;
    while next < 256 {
        let first = next;
        while next < 256 && sets::has(set, next as u8) {
            next += 1;
        }
        let spell = |byte: u16| byte_text(byte as u8, special);
        match next - first {
            0 => next += 1,
            1 => out += &spell(first),
            2 => out += &(spell(first) + &spell(first + 1)),
            _ => out += &format!("{}-{}", spell(first), spell(next - 1)),
        }
    }
    out
}

/// A byte, behind `\` if it is one of the special ones.
fn byte_text(byte: u8, special: &[u8]) -> String {
    match byte {
        0x09..=0x0D => format!("\\{}", b"tnvfr"[usize::from(byte - 0x09)] as char),
        0x20..=0x7E if special.contains(&byte) => format!("\\{}", byte as char),
        0x20..=0x7E => (byte as char).into(),
        _ => format!("\\x{byte:02X}"),
    }
}
