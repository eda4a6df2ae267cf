//! Patterns: valid ones, written along the outline's grammar, and damaged ones.

use super::Random;
use crate::reader::{DEPTH_LIMIT, GROUP_LIMIT, PATTERN_LIMIT};

/// A pattern that reads (though it may have more than 1,024 rows).
pub fn pattern(random: &mut Random) -> Vec<u8> {
    let room = match random.below(20) {
        0 => random.between(40, 150),
        1..=3 => random.between(15, 40),
        _ => random.between(1, 14),
    };
    let wide = random.percent(25);
    let mut writer = Writer { random, out: Vec::new(), groups: 0, room, wide, after_null: None };
    writer.alternatives(0);
    if writer.random.percent(2) {
        writer.deep();
    }
    let bytes = writer.out;
    if bytes.len() > PATTERN_LIMIT {
        return pattern(random);
    }
    bytes
}

/// A pattern with a few bytes inserted, replaced, left out or doubled, or with
/// too many parentheses around it; most of them are refused.
pub fn damaged_pattern(random: &mut Random) -> Vec<u8> {
    let mut bytes = pattern(random);
    for _ in 0..random.between(1, 3) {
        let at = random.below(bytes.len() + 1);
        let new = match random.below(40) {
            0 => random.byte(),
            1..=4 => random.below(0x80) as u8,
            5..=9 => random.byte_of(b"01239"),
            _ => random.byte_of(b"^$\\.*+?()[]{}|-,:=!<bBdkucxs_"),
        };
        match random.below(5) {
            0 | 1 => bytes.insert(at, new),
            2 if at < bytes.len() => bytes[at] = new,
            3 if at < bytes.len() => drop(bytes.remove(at)),
            4 => bytes.extend_from_within(at..),
            _ => bytes.truncate(at),
        }
    }
    if random.percent(4) {
        let open: &[u8] = if random.percent(50) { b"(?:" } else { b"(" };
        let levels = random.between(1, DEPTH_LIMIT + 2);
        bytes = [open.repeat(levels), bytes, vec![b')'; levels]].concat();
    }
    bytes.truncate(PATTERN_LIMIT + 1);
    bytes
}

/// Writes a pattern, part by part.
struct Writer<'r> {
    random: &'r mut Random,
    out: Vec<u8>,
    groups: u32,
    /// How many more atoms are welcome.
    room: usize,
    /// Literals of all kinds, or mostly `a` and `b`?
    wide: bool,
    /// The place behind a `\0`, where no digit may follow.
    after_null: Option<usize>,
}

impl Writer<'_> {
    /// Alternatives, some equal to an earlier one.
    fn alternatives(&mut self, depth: usize) {
        let count = match self.random.below(20) {
            0..=11 => 1,
            12..=16 => 2,
            17 | 18 => 3,
            _ => self.random.between(3, 7),
        };
        let first = self.out.len();
        let groups = self.groups;
        self.sequence(depth);
        for _ in 1..count {
            let earlier = self.out.get(first..).unwrap_or_default().to_vec();
            self.out.push(b'|');
            if self.groups == groups && self.random.percent(15) && earlier.len() < 60 {
                self.out.extend(earlier);
            } else {
                self.sequence(depth);
            }
        }
    }

    /// A sequence of none to a few items.
    fn sequence(&mut self, depth: usize) {
        let length = match self.random.below(10) {
            0 => 0,
            1..=4 => 1,
            5..=7 => 2,
            _ => self.random.between(3, 5),
        };
        for _ in 0..length {
            self.item(depth);
        }
    }

    /// An assertion, or an atom with or without a quantifier.
    fn item(&mut self, depth: usize) {
        if self.random.percent(8) {
            let assertion = self.random.pick(&["^", "$", r"\b", r"\B"]);
            self.out.extend(assertion.unwrap_or("^").as_bytes());
            return;
        }
        if self.random.percent(8) && depth < DEPTH_LIMIT && self.room > 0 {
            return self.twice_quantified(depth);
        }
        self.atom(depth);
        if self.random.percent(40) {
            self.quantifier();
        }
    }

    /// `(?:r*)*` and the like, which the laws T5, T9 and T10 look for; now and then
    /// before a group that shows how many turns were taken.
    fn twice_quantified(&mut self, depth: usize) {
        self.out.extend(b"(?:");
        self.atom(depth + 1);
        self.quantifier();
        self.out.push(b')');
        self.quantifier();
        if self.groups < GROUP_LIMIT && self.random.percent(40) {
            self.groups += 1;
            self.out.extend(b"(ab|b|a)");
        }
    }

    /// An atom.
    fn atom(&mut self, depth: usize) {
        self.room = self.room.saturating_sub(1);
        let may_nest = depth < DEPTH_LIMIT && self.room > 0;
        match self.random.below(20) {
            0..=3 if may_nest => self.parenthesis(depth, true),
            4..=7 if may_nest => self.parenthesis(depth, false),
            8 if may_nest => self.wrapped(depth),
            9 => self.out.push(b'.'),
            10 | 11 => self.class(),
            12 => self.escape(),
            _ => self.literal(),
        }
    }

    /// `(r)` or `(?:r)`.
    fn parenthesis(&mut self, depth: usize, group: bool) {
        if group && self.groups < GROUP_LIMIT {
            self.groups += 1;
            self.out.push(b'(');
        } else {
            self.out.extend(b"(?:");
        }
        self.alternatives(depth + 1);
        self.out.push(b')');
    }

    /// A single item in `(?:` and `)`, for quantifiers on quantifiers and on
    /// assertions.
    fn wrapped(&mut self, depth: usize) {
        self.out.extend(b"(?:");
        self.item(depth + 1);
        self.out.push(b')');
    }

    /// Parentheses around the whole, up to the limit.
    fn deep(&mut self) {
        let depth_now = self.out.iter().filter(|&&byte| byte == b'(').count();
        let more = self.random.below(DEPTH_LIMIT.saturating_sub(depth_now) + 1);
        let mut whole = Vec::new();
        for _ in 0..more {
            whole.extend(b"(?:");
        }
        whole.append(&mut self.out);
        whole.extend(std::iter::repeat(b')').take(more));
        self.out = whole;
    }

    /// A quantifier, of all spellings.
    fn quantifier(&mut self) {
        match self.random.below(10) {
            0..=2 => self.out.push(b'*'),
            3 => self.out.push(b'+'),
            4 | 5 => self.out.push(b'?'),
            form => {
                let most = match self.random.below(100) {
                    0 => 500,
                    1..=8 => 12,
                    _ => 3,
                };
                let min = self.random.below(most);
                let max = min + self.random.below(most);
                self.out.push(b'{');
                self.number(min);
                if form != 6 {
                    self.out.push(b',');
                }
                if form > 7 {
                    self.number(max);
                }
                self.out.push(b'}');
            }
        }
        if self.random.percent(30) {
            self.out.push(b'?');
        }
    }

    /// A number, with leading zeros now and then.
    fn number(&mut self, value: usize) {
        if self.random.percent(5) {
            let zeros = self.random.between(1, 5);
            self.out.extend(std::iter::repeat(b'0').take(zeros));
        }
        self.out.extend(value.to_string().as_bytes());
    }

    /// A literal: "none of `^ $ \ . * + ? ( ) [ ] { } |`".
    fn literal(&mut self) {
        let mut byte = self.random.byte_of(b"aaaaabbbbbcd_-");
        if self.wide && self.random.percent(40) {
            byte = self.random.below(0x80) as u8;
        }
        let syntax = b"^$\\.*+?()[]{}|".contains(&byte);
        let digit_after_null = self.after_null == Some(self.out.len()) && byte.is_ascii_digit();
        self.out.push(if syntax || digit_after_null { b'a' } else { byte });
    }

    /// An escape that means the same outside and inside a class.
    fn escape(&mut self) {
        match self.random.below(10) {
            0..=3 => {
                let set = self.random.byte_of(b"dDwWsS");
                self.out.extend([b'\\', set]);
            }
            4 => {
                let letter = self.random.byte_of(b"fnrtv");
                self.out.extend([b'\\', letter]);
            }
            5 => {
                let letter = self.random.byte_of(b"AZazJjmI");
                self.out.extend([b'\\', b'c', letter]);
            }
            6 | 7 => {
                let value = if self.random.percent(50) { self.random.byte() } else { b'a' };
                let hex = if self.random.percent(50) {
                    format!("\\x{value:02x}")
                } else {
                    format!("\\x{value:02X}")
                };
                self.out.extend(hex.as_bytes());
            }
            8 => {
                self.out.extend(b"\\0");
                self.after_null = Some(self.out.len());
            }
            _ => {
                let mut byte = self.random.byte_of(b"^$\\.*+?()[]{}|/-,: ");
                if self.wide && self.random.percent(30) {
                    let any = self.random.below(0x80) as u8;
                    if !any.is_ascii_alphanumeric() && any != b'_' {
                        byte = any;
                    }
                }
                self.out.extend([b'\\', byte]);
            }
        }
    }

    /// A class.
    fn class(&mut self) {
        self.out.push(b'[');
        if self.random.percent(25) {
            self.out.push(b'^');
        }
        let parts = self.random.pick(&[0, 1, 1, 2, 2, 3]).unwrap_or(1);
        match self.random.below(12) {
            0 => self.out.push(b'-'),
            1 => {
                let dashes = self.random.pick(&["--a", "---", "--\\x7f", "--0"]);
                self.out.extend(dashes.unwrap_or("--a").as_bytes());
            }
            _ => {}
        }
        for _ in 0..parts {
            self.class_part();
        }
        if self.random.percent(8) {
            self.out.push(b'-');
        }
        self.out.push(b']');
    }

    /// A byte, an escape or a range; none begins with `-`.
    fn class_part(&mut self) {
        match self.random.below(10) {
            0..=3 => {
                let byte = self.class_byte();
                self.out.push(byte);
            }
            4..=6 => self.range(),
            7 => self.out.extend(b"\\b"),
            _ => self.escape(),
        }
    }

    /// A range, its ends in order, each spelt in one of two ways.
    fn range(&mut self) {
        let (one, two) = if self.wide && self.random.percent(50) {
            (self.random.byte(), self.random.byte())
        } else {
            (self.random.byte_of(b"aabc0"), self.random.byte_of(b"abcz9"))
        };
        self.range_end(one.min(two));
        self.out.push(b'-');
        self.range_end(one.max(two));
    }

    /// A range's end: itself or by `\x`.
    fn range_end(&mut self, byte: u8) {
        let plain = byte < 0x80 && !b"^]\\-".contains(&byte);
        let digit_after_null = self.after_null == Some(self.out.len()) && byte.is_ascii_digit();
        if plain && !digit_after_null && self.random.percent(80) {
            self.out.push(byte);
        } else {
            self.out.extend(format!("\\x{byte:02x}").as_bytes());
        }
    }

    /// A byte that stands for itself in a class.
    fn class_byte(&mut self) -> u8 {
        let byte = if self.wide { self.random.below(0x80) as u8 } else { 0 };
        let digit_after_null = self.after_null == Some(self.out.len()) && byte.is_ascii_digit();
        if byte == 0 || b"^]\\-".contains(&byte) || digit_after_null {
            self.random.byte_of(b"abc.*[(^{$")
        } else {
            byte
        }
    }
}
