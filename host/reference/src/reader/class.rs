//! "Class: `[]` matches nothing, `[^]` any byte. `\b` is 08 there. `-` where
//! an atom is due, or last, is itself; as an atom it may begin or end a range
//! (`[--a]`)."

use super::escape::{escape, Meaning, Where};
use crate::refusal::*;
use crate::sets::{self, Set};

/// The class whose `[` stands at `place`: its set and the place after its `]`.
pub fn class(bytes: &[u8], place: usize) -> Result<(Set, usize), Refusal> {
    let mut at = place + 1;
    let negated = bytes.get(at) == Some(&b'^');
    if negated {
        at += 1;
    }
    let mut set = sets::NONE;
    while bytes.get(at) != Some(&b']') {
        let (part, end) = atom_or_range(bytes, at)?;
        set = sets::union(&set, &part);
        at = end;
    }
    let set = if negated { sets::complement(&set) } else { set };
    Ok((set, at + 1))
}

/// A class atom, or two of them with `-` between: a range, which is judged
/// when both ends are read. A `-` before the `]` is last: itself, not a range.
fn atom_or_range(bytes: &[u8], place: usize) -> Result<(Set, usize), Refusal> {
    let (first, at) = atom(bytes, place)?;
    let is_range = bytes.get(at) == Some(&b'-') && bytes.get(at + 1) != Some(&b']');
    if !is_range {
        return Ok((first.set(), at));
    }
    let (last, end) = atom(bytes, at + 1)?;
    match (first, last) {
        (Meaning::Byte(first), Meaning::Byte(last)) if first <= last => {
            Ok((sets::range(first, last), end))
        }
        _ => refuse(BAD_CLASS, place),
    }
}

/// A class atom: an escape, or any byte that is not the class's `]`. Where
/// none is left, the class is unclosed: 10 at p.
fn atom(bytes: &[u8], at: usize) -> Result<(Meaning, usize), Refusal> {
    match bytes.get(at) {
        None => refuse(BAD_CLASS, bytes.len()),
        Some(b'\\') => escape(bytes, at, Where::InClass),
        Some(&byte) => Ok((Meaning::Byte(byte), at + 1)),
    }
}
