//! ECMA-262 22.2.2, transcribed: a Matcher takes a State and a continuation
//! and answers the first State that the continuation accepts, or failure.
//! Nothing is remembered, so this is for short texts: it gives up, saying so,
//! when it has made too many calls or they are nested too deeply.

use super::{holds, register, Spans};
use crate::node::Node;
use crate::reader::Reading;
use crate::sets;
use std::cell::Cell;

/// The most calls of a Matcher in one run.
pub const CALL_LIMIT: u32 = 200_000;
/// The most calls of a Matcher inside one another.
pub const NESTING_LIMIT: u32 = 800;

/// The matcher was too long or too deep for this way of matching.
#[derive(Clone, Copy, Debug, PartialEq, Eq)]
pub struct GaveUp;

/// RegExpBuiltinExec with the sticky flag: the match at the start.
pub fn match_at(reading: &Reading, text: &[u8], start: usize) -> Result<Spans, GaveUp> {
    if start > text.len() {
        return Ok(None);
    }
    let calls = Calls { left: Cell::new(CALL_LIMIT), nested: Cell::new(0) };
    from(reading, text, start, &calls)
}

/// RegExpBuiltinExec without it: the match at the first place, from the start
/// on, that has one.
pub fn search(reading: &Reading, text: &[u8], start: usize) -> Result<Spans, GaveUp> {
    let calls = Calls { left: Cell::new(CALL_LIMIT), nested: Cell::new(0) };
    for index in start..=text.len() {
        let spans = from(reading, text, index, &calls)?;
        if spans.is_some() {
            return Ok(spans);
        }
    }
    Ok(None)
}

/// CompilePattern's closure: the matcher of the whole from this index, with
/// the continuation that accepts any State.
fn from(reading: &Reading, text: &[u8], index: usize, calls: &Calls) -> Result<Spans, GaveUp> {
    let captures = vec![None; reading.groups as usize + 1];
    let x = State { end_index: index, captures };
    let input = Input { text, calls };
    let found = input.matcher(&reading.tree, &x, &|y| Ok(Some(y.clone())))?;
    Ok(found.map(|state| state.spans(index)))
}

/// "A State is an ordered pair (endIndex, captures)."
#[derive(Clone)]
struct State {
    end_index: usize,
    /// For each group k, at index k, the range it captured or undefined.
    captures: Vec<Option<(usize, usize)>>,
}

impl State {
    /// The spans of the whole and of all groups.
    fn spans(&self, start: usize) -> Vec<i32> {
        let mut spans = vec![register(start), register(self.end_index)];
        for capture in self.captures.iter().skip(1) {
            match capture {
                Some((from, to)) => spans.extend([register(*from), register(*to)]),
                None => spans.extend([-1, -1]),
            }
        }
        spans
    }
}

/// A State, or failure.
type MatchResult = Result<Option<State>, GaveUp>;

/// "A MatcherContinuation is an Abstract Closure that takes one State argument
/// and returns a MatchResult."
type Continuation<'c> = &'c dyn Fn(&State) -> MatchResult;

/// How many calls are left, and how many are under way.
struct Calls {
    left: Cell<u32>,
    nested: Cell<u32>,
}

/// The text that is matched.
#[derive(Clone, Copy)]
struct Input<'a> {
    text: &'a [u8],
    calls: &'a Calls,
}

impl Input<'_> {
    /// CompileSubpattern's Matcher for a part, applied to x and c.
    fn matcher(&self, node: &Node, x: &State, c: Continuation) -> MatchResult {
        let (left, nested) = (self.calls.left.get(), self.calls.nested.get());
        if left == 0 || nested == NESTING_LIMIT {
            return Err(GaveUp);
        }
        self.calls.left.set(left - 1);
        self.calls.nested.set(nested + 1);
        let result = match node {
            // Alternative :: [empty]
            Node::Empty => c(x),
            Node::Set(set) => self.character_set_matcher(set, x, c),
            // Assertion: "If r is true, return c(x). Return failure."
            Node::Assert(number) => {
                if holds(*number, self.text, x.end_index) {
                    c(x)
                } else {
                    Ok(None)
                }
            }
            Node::Group(number, inner) => self.group(*number, inner, x, c),
            Node::Seq(items) => self.sequence(items, x, c),
            Node::Alt(alternatives) => self.alternation(alternatives, x, c),
            Node::Many { min, max, lazy, inner } => {
                let quantifier = Quantifier { inner, greedy: !lazy, groups: inner.groups() };
                self.repeat_matcher(&quantifier, *min, *max, x, c)
            }
        };
        self.calls.nested.set(nested);
        result
    }

    /// CharacterSetMatcher, not inverted, forward.
    fn character_set_matcher(&self, set: &sets::Set, x: &State, c: Continuation) -> MatchResult {
        match self.text.get(x.end_index) {
            Some(&byte) if sets::has(set, byte) => {
                let y = State { end_index: x.end_index + 1, captures: x.captures.clone() };
                c(&y)
            }
            _ => Ok(None),
        }
    }

    /// Disjunction :: Alternative | Disjunction. "Let r be m1(x, c). If r is
    /// not failure, return r. Return m2(x, c)."
    fn alternation(&self, alternatives: &[Node], x: &State, c: Continuation) -> MatchResult {
        for alternative in alternatives {
            let r = self.matcher(alternative, x, c)?;
            if r.is_some() {
                return Ok(r);
            }
        }
        Ok(None)
    }

    /// Alternative :: Alternative Term. "Let d be a new MatcherContinuation
    /// with parameters (y) that [...] returns m2(y, c). Return m1(x, d)."
    fn sequence(&self, items: &[Node], x: &State, c: Continuation) -> MatchResult {
        match items {
            [] => c(x),
            [last] => self.matcher(last, x, c),
            [first, rest @ ..] => self.matcher(first, x, &|y| self.sequence(rest, y, c)),
        }
    }

    /// Atom :: ( GroupSpecifier Disjunction ). Both ends of the group are
    /// written when its inside has matched.
    fn group(&self, number: u32, inner: &Node, x: &State, c: Continuation) -> MatchResult {
        let d = |y: &State| {
            let mut z = y.clone();
            if let Some(capture) = z.captures.get_mut(number as usize) {
                *capture = Some((x.end_index, y.end_index));
            }
            c(&z)
        };
        self.matcher(inner, x, &d)
    }

    /// RepeatMatcher ( m, min, max, greedy, x, c, parenIndex, parenCount ).
    fn repeat_matcher(
        &self,
        q: &Quantifier,
        min: u32,
        max: Option<u32>,
        x: &State,
        c: Continuation,
    ) -> MatchResult {
        // 1. If max = 0, return c(x).
        if max == Some(0) {
            return c(x);
        }
        // 2. Let d be a new MatcherContinuation with parameters (y)
        let d = |y: &State| {
            // b. If min = 0 and y's endIndex = x's endIndex, return failure.
            if min == 0 && y.end_index == x.end_index {
                return Ok(None);
            }
            // c. If min = 0, let min2 be 0; otherwise let min2 be min - 1.
            let min2 = min.saturating_sub(1);
            // d. If max = +∞, let max2 be +∞; otherwise let max2 be max - 1.
            let max2 = max.map(|max| max.saturating_sub(1));
            // e. Return RepeatMatcher(m, min2, max2, greedy, y, c, ...).
            self.repeat_matcher(q, min2, max2, y, c)
        };
        // 3. to 7. xr is x, but for each integer k in the inclusive interval
        // from parenIndex + 1 to parenIndex + parenCount cap[k] is undefined.
        let mut xr = x.clone();
        if let Some((lowest, highest)) = q.groups {
            for k in lowest..=highest {
                if let Some(capture) = xr.captures.get_mut(k as usize) {
                    *capture = None;
                }
            }
        }
        // 8. If min ≠ 0, return m(xr, d).
        if min != 0 {
            return self.matcher(q.inner, &xr, &d);
        }
        // 9. If greedy is false, then: z = c(x); if z is not failure, return
        // z; return m(xr, d).
        if !q.greedy {
            let z = c(x)?;
            return if z.is_some() { Ok(z) } else { self.matcher(q.inner, &xr, &d) };
        }
        // 10. to 12. Let z be m(xr, d). If z is not failure, return z. Return
        // c(x).
        let z = self.matcher(q.inner, &xr, &d)?;
        if z.is_some() {
            Ok(z)
        } else {
            c(x)
        }
    }
}

/// The part of RepeatMatcher's parameters that stay from turn to turn.
struct Quantifier<'n> {
    inner: &'n Node,
    greedy: bool,
    groups: Option<(u32, u32)>,
}
