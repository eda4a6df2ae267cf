//! "Escapes: `\d \D \w \W \s \S` (space is 09 to 0D, 20 and A0), `\f \n \r \t \v`,
//! `\c` and a letter (letter mod 32), `\x` and two hex digits, `\0` before no
//! digit, and `\` before any byte that is no letter, digit or `_`."

use crate::refusal::*;
use crate::sets::{self, Set};

/// Where an escape stands.
#[derive(Clone, Copy, PartialEq, Eq)]
pub enum Where {
    OutsideClass,
    InClass,
}

/// What an escape or a class atom stands for: a byte can be the end of a
/// range, a set cannot.
pub enum Meaning {
    Byte(u8),
    Set(Set),
}

impl Meaning {
    /// The set it stands for.
    pub fn set(self) -> Set {
        match self {
            Meaning::Byte(byte) => sets::one(byte),
            Meaning::Set(set) => set,
        }
    }
}

/// The escape whose `\` stands at `place`, and the place after it. Every
/// refusal is at the `\`. The assertions `\b` and `\B` outside a class are not
/// asked for here.
pub fn escape(bytes: &[u8], place: usize, stands: Where) -> Result<(Meaning, usize), Refusal> {
    let letter = match bytes.get(place + 1) {
        Some(&letter) => letter,
        None => return refuse(UNKNOWN_ESCAPE, place),
    };
    let after = place + 2;
    let byte = |byte| Ok((Meaning::Byte(byte), after));
    let set = |set| Ok((Meaning::Set(set), after));
    match letter {
        b'd' => set(sets::digits()),
        b'D' => set(sets::complement(&sets::digits())),
        b'w' => set(sets::word_bytes()),
        b'W' => set(sets::complement(&sets::word_bytes())),
        b's' => set(sets::spaces()),
        b'S' => set(sets::complement(&sets::spaces())),
        b't' => byte(0x09),
        b'n' => byte(0x0A),
        b'v' => byte(0x0B),
        b'f' => byte(0x0C),
        b'r' => byte(0x0D),
        b'b' if stands == Where::InClass => byte(0x08),
        b'0' if !bytes.get(after).map_or(false, u8::is_ascii_digit) => byte(0x00),
        b'c' => match bytes.get(after) {
            Some(letter) if letter.is_ascii_alphabetic() => {
                Ok((Meaning::Byte(letter % 32), after + 1))
            }
            _ => refuse(UNKNOWN_ESCAPE, place),
        },
        b'x' => match (hex_digit(bytes, after), hex_digit(bytes, after + 1)) {
            (Some(high), Some(low)) => Ok((Meaning::Byte(16 * high + low), after + 2)),
            _ => refuse(UNKNOWN_ESCAPE, place),
        },
        b'u' => refuse(NOT_SUPPORTED, place),
        b'1'..=b'9' | b'k' if stands == Where::OutsideClass => refuse(NOT_SUPPORTED, place),
        other if other.is_ascii_alphanumeric() || other == b'_' => refuse(UNKNOWN_ESCAPE, place),
        itself => byte(itself),
    }
}

/// The value of the hex digit at this place, if one stands there.
fn hex_digit(bytes: &[u8], at: usize) -> Option<u8> {
    match *bytes.get(at)? {
        digit @ b'0'..=b'9' => Some(digit - b'0'),
        digit @ b'a'..=b'f' => Some(digit - b'a' + 10),
        digit @ b'A'..=b'F' => Some(digit - b'A' + 10),
        _ => None,
    }
}
