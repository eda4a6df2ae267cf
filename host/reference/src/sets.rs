//! "A byte set is eight 32-bit words, bit b mod 32 of word b div 32."

/// A set of bytes.
pub type Set = [u32; 8];

/// The set with no byte: `[]`.
pub const NONE: Set = [0; 8];

/// The set of all bytes: `[^]`.
pub const ALL: Set = [u32::MAX; 8];

/// Is this byte in the set?
pub fn has(set: &Set, byte: u8) -> bool {
    let word = set[usize::from(byte / 32)];
    (word >> (byte % 32)) & 1 == 1
}

/// The set of one byte.
pub fn one(byte: u8) -> Set {
    range(byte, byte)
}

/// All bytes from `first` to `last`, both ends included.
pub fn range(first: u8, last: u8) -> Set {
    let mut set = NONE;
    for byte in first..=last {
        set[usize::from(byte / 32)] |= 1 << (byte % 32);
    }
    set
}

/// The bytes in one or the other.
pub fn union(left: &Set, right: &Set) -> Set {
    std::array::from_fn(|word| left[word] | right[word])
}

/// The bytes that are not in the set.
pub fn complement(set: &Set) -> Set {
    set.map(|word| !word)
}

/// The members, in ascending order.
pub fn members(set: &Set) -> Vec<u8> {
    (0..=255).filter(|&byte| has(set, byte)).collect()
}

/// `\d`: the decimal digits.
pub fn digits() -> Set {
    range(b'0', b'9')
}

/// `\w`: "Word bytes: A-Z a-z 0-9 `_`."
pub fn word_bytes() -> Set {
    let letters = union(&range(b'A', b'Z'), &range(b'a', b'z'));
    union(&union(&letters, &digits()), &one(b'_'))
}

/// `\s`: "space is 09 to 0D, 20 and A0".
pub fn spaces() -> Set {
    union(&union(&range(0x09, 0x0D), &one(0x20)), &one(0xA0))
}

/// `.`: "all but 0A and 0D".
pub fn dot() -> Set {
    complement(&union(&one(0x0A), &one(0x0D)))
}
