//! Random numbers as they are written, and bytes that nearly are.

use super::Random;

/// A number: an optional minus, 1 to 15 digits, a point between two of them or none.
pub fn numeral(random: &mut Random) -> String {
    let count = random.between(1, 15);
    let mut digits: Vec<u8> = (0..count).map(|_| b'0' + random.below(10) as u8).collect();
    if count > 1 && random.percent(75) {
        digits.insert(random.between(1, count - 1), b'.');
    }
    let sign = if random.percent(50) { "-" } else { "" };
    sign.to_string() + &String::from_utf8_lossy(&digits)
}

/// Bytes that may be a number: one that was changed in a place or two, or made of its bytes.
pub fn damaged_numeral(random: &mut Random) -> Vec<u8> {
    const BYTES: &[u8] = b"0123456789--..+e /:";
    if random.percent(20) {
        return (0..random.below(18)).map(|_| random.byte_of(BYTES)).collect();
    }
    let mut bytes = numeral(random).into_bytes();
    for _ in 0..random.below(3) {
        let at = random.below(bytes.len() + 1);
        match random.below(3) {
            0 => bytes.insert(at, random.byte_of(BYTES)),
            _ if at == bytes.len() => bytes.push(random.byte_of(BYTES)),
            1 => bytes[at] = random.byte_of(BYTES),
            _ => drop(bytes.remove(at)),
        }
    }
    bytes
}
