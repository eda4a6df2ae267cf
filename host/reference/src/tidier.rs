//! The tidier's laws, T1 to T10.
//!
//! "Each part comes after the parts inside it, left to right, its lowest law
//! first, and from the beginning again until none fits: the search for a law
//! ends at the first place found."

use crate::node::Node;
use crate::sets::{self, Set};

/// The number of laws.
pub const LAWS: u32 = 10;

/// What a law makes of a tree's part: where, which law, and what comes there.
#[derive(Clone, Debug, PartialEq, Eq)]
pub struct Found {
    /// The way from the whole to the part: child after child.
    pub part: Vec<usize>,
    /// 1 to 10.
    pub law: u32,
    /// What the part becomes.
    pub becomes: Node,
}

/// The tree that is left when no law fits any more.
pub fn tidy(tree: Node) -> Node {
    let mut tree = tree;
    while let Some(found) = find(&tree) {
        tree = replace(tree, &found.part, found.becomes);
    }
    tree
}

/// The first place where a law fits, and its lowest law.
pub fn find(tree: &Node) -> Option<Found> {
    let mut found = None;
    'search: for (part, node) in parts(tree) {
        for law in 1..=LAWS {
            if let Some(becomes) = apply(law, node) {
                found = Some(Found { part, law, becomes });
                break 'search;
            }
        }
    }
    found
}

/// All parts of the tree, each after the parts inside it, left to right.
pub fn parts(tree: &Node) -> Vec<(Vec<usize>, &Node)> {
    fn collect<'n>(node: &'n Node, way: &mut Vec<usize>, all: &mut Vec<(Vec<usize>, &'n Node)>) {
        for (index, child) in node.children().iter().enumerate() {
            way.push(index);
            collect(child, way, all);
            way.pop();
        }
        all.push((way.clone(), node));
    }
    let mut all = Vec::new();
    collect(tree, &mut Vec::new(), &mut all);
    all
}

/// The tree with one part replaced; sequences and alternations stay flat.
fn replace(tree: Node, part: &[usize], new: Node) -> Node {
    let (index, rest) = match part.split_first() {
        Some(first_and_rest) => first_and_rest,
        None => return new,
    };
    match tree {
        Node::Group(number, inner) => Node::Group(number, Box::new(replace(*inner, rest, new))),
        Node::Many { min, max, lazy, inner } => {
            Node::many(min, max, lazy, replace(*inner, rest, new))
        }
        Node::Seq(items) => Node::sequence(replace_item(items, *index, rest, new)),
        Node::Alt(items) => Node::alternation(replace_item(items, *index, rest, new)),
        leaf => leaf,
    }
}

/// The items with one of them replaced, in it or as a whole.
fn replace_item(mut items: Vec<Node>, index: usize, rest: &[usize], new: Node) -> Vec<Node> {
    if let Some(item) = items.get_mut(index) {
        let old = std::mem::replace(item, Node::Empty);
        *item = replace(old, rest, new);
    }
    items
}

/// What this law makes of this part, if it fits.
pub fn apply(law: u32, node: &Node) -> Option<Node> {
    match law {
        1 => t1(node),
        2 => t2(node),
        3 => t3(node),
        4 => t4(node),
        5 => t5(node),
        6 => t6(node),
        7 => t7(node),
        8 => t8(node),
        9 => t9(node),
        10 => t10(node),
        _ => None,
    }
}

/// T1: "empty items leave a sequence."
fn t1(node: &Node) -> Option<Node> {
    match node {
        Node::Seq(items) if items.contains(&Node::Empty) => {
            let left = items.iter().filter(|item| **item != Node::Empty).cloned();
            Some(Node::sequence(left.collect()))
        }
        _ => None,
    }
}

/// T2: "r{1} is r; r{0} is empty", of either laziness, for r without a group.
fn t2(node: &Node) -> Option<Node> {
    if let Some((_, r)) = quantified(node, (1, Some(1))) {
        return Some(r.clone());
    }
    quantified(node, (0, Some(0))).map(|_| Node::Empty)
}

/// T3: "a quantified empty is empty."
fn t3(node: &Node) -> Option<Node> {
    match node {
        Node::Many { inner, .. } if **inner == Node::Empty => Some(Node::Empty),
        _ => None,
    }
}

/// T4: "an assertion with min 0 is empty, with min 1 or more is itself."
fn t4(node: &Node) -> Option<Node> {
    match node {
        Node::Many { min, inner, .. } => match **inner {
            Node::Assert(_) if *min == 0 => Some(Node::Empty),
            Node::Assert(number) => Some(Node::Assert(number)),
            _ => None,
        },
        _ => None,
    }
}

/// The laziness and the inside of a part quantified with these counts, for an
/// inside without a group.
fn quantified(node: &Node, counts: (u32, Option<u32>)) -> Option<(bool, &Node)> {
    match node {
        Node::Many { min, max, lazy, inner } if (*min, *max) == counts && inner.is_group_free() => {
            Some((*lazy, inner))
        }
        _ => None,
    }
}

/// The counts of `*`.
const STAR: (u32, Option<u32>) = (0, None);

/// T5: "`(?:r*)*` and `(?:r*?)*` are `r*`; `(?:r*?)*?` is `r*?`."
fn t5(node: &Node) -> Option<Node> {
    let (outer_lazy, inside) = quantified(node, STAR)?;
    let (inner_lazy, r) = quantified(inside, STAR)?;
    let fits = !outer_lazy || inner_lazy;
    fits.then(|| Node::many(0, None, outer_lazy, r.clone()))
}

/// The alternatives of an alternation.
fn alternatives(node: &Node) -> Option<&[Node]> {
    match node {
        Node::Alt(alternatives) => Some(alternatives),
        _ => None,
    }
}

/// T6: "an alternative equal to an earlier one goes." Groups are numbered
/// apart, so that an equal alternative has none.
fn t6(node: &Node) -> Option<Node> {
    let alternatives = alternatives(node)?;
    let equals_earlier = |&index: &usize| {
        let (earlier, later) = alternatives.split_at(index);
        later.first().map_or(false, |this| this.is_group_free() && earlier.contains(this))
    };
    let goes = (0..alternatives.len()).find(equals_earlier)?;
    Some(Node::alternation(without(alternatives, goes)))
}

/// T7: "an empty set goes from an alternation with another alternative; a
/// group-free sequence holding it becomes it."
fn t7(node: &Node) -> Option<Node> {
    let empty_set = Node::Set(sets::NONE);
    match node {
        Node::Alt(alternatives) if alternatives.len() > 1 => {
            let goes = alternatives.iter().position(|alternative| *alternative == empty_set)?;
            Some(Node::alternation(without(alternatives, goes)))
        }
        Node::Seq(items) if items.contains(&empty_set) && node.is_group_free() => Some(empty_set),
        _ => None,
    }
}

/// T8: "the leftmost longest run of two or more adjacent alternatives whose
/// first item is the same byte set, unquantified, shares it."
fn t8(node: &Node) -> Option<Node> {
    let alternatives = alternatives(node)?;
    let firsts: Vec<Option<Set>> = alternatives.iter().map(first_set).collect();
    let begin = firsts.windows(2).position(|two| two[0].is_some() && two[0] == two[1])?;
    let shared = firsts[begin];
    let length = firsts[begin..].iter().take_while(|first| **first == shared).count();
    let end = begin + length;
    let rests = alternatives[begin..end].iter().map(rest).collect();
    let sharing = Node::sequence(vec![Node::Set(shared?), Node::alternation(rests)]);
    let mut changed = alternatives[..begin].to_vec();
    changed.push(sharing);
    changed.extend_from_slice(&alternatives[end..]);
    Some(Node::alternation(changed))
}

/// The byte set that is an alternative's first item, unquantified.
fn first_set(alternative: &Node) -> Option<Set> {
    match alternative {
        Node::Set(set) => Some(*set),
        Node::Seq(items) => items.first().and_then(first_set),
        _ => None,
    }
}

/// What is left of an alternative behind its first item.
fn rest(alternative: &Node) -> Node {
    match alternative {
        Node::Seq(items) => Node::sequence(items.iter().skip(1).cloned().collect()),
        _ => Node::Empty,
    }
}

/// T9: "`(?:r?)?` is `r?`; `(?:r??)??` is `r??`."
fn t9(node: &Node) -> Option<Node> {
    const OPTION: (u32, Option<u32>) = (0, Some(1));
    let (outer_lazy, inside) = quantified(node, OPTION)?;
    let (inner_lazy, _) = quantified(inside, OPTION)?;
    (outer_lazy == inner_lazy).then(|| inside.clone())
}

/// T10: "`(?:r*)+` is `r*`", both greedy as they are written there.
fn t10(node: &Node) -> Option<Node> {
    const PLUS: (u32, Option<u32>) = (1, None);
    let (outer_lazy, inside) = quantified(node, PLUS)?;
    let (inner_lazy, _) = quantified(inside, STAR)?;
    (!outer_lazy && !inner_lazy).then(|| inside.clone())
}

/// The parts without the one at this index.
fn without(parts: &[Node], index: usize) -> Vec<Node> {
    let mut left = parts.to_vec();
    left.remove(index);
    left
}
