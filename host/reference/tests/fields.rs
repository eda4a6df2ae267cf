//! Fields as numbers against Rust's own parser, and gates at their limits.

use reference::fields::{pass, pass_field, read_field, Gate, Reading};
use reference::generate::{numeral, Random};
use reference::refusal::{Refusal, NOT_A_LIMIT, NOT_A_NUMBER};

fn whole(text: &str) -> Result<Reading, Refusal> {
    read_field(text.as_bytes(), 0, text.len() as i32)
}

const NO_NUMBER: Result<Reading, Refusal> = Err(Refusal { number: NOT_A_NUMBER, place: 0 });

/// Computed by hand: signs, exponents and significands of 64-bit floats.
#[test]
fn bits_by_hand() {
    let bits = [
        ("-48.25", 0xC048_2000_0000_0000, 2),
        ("0.1", 0x3FB9_9999_9999_999A, 1),
        ("-0.00", 0x8000_0000_0000_0000, 2),
        ("007.50", 0x401E_0000_0000_0000, 2),
        ("999999999999999", 0x430C_6BF5_2633_FFF8, 0),
    ];
    for (text, bits, decimals) in bits {
        let reading = whole(text).unwrap();
        assert_eq!((reading.value.to_bits(), reading.decimals), (bits, decimals), "{text}");
    }
}

#[test]
fn a_million_numerals_as_rust_parses_them() {
    let mut random = Random::new(4);
    for _ in 0..1_000_000 {
        let text = numeral(&mut random);
        let reading = whole(&text).unwrap();
        let parsed: f64 = text.parse().unwrap();
        assert_eq!(reading.value.to_bits(), parsed.to_bits(), "{text}");
        let decimals = text.split('.').nth(1).map_or(0, str::len);
        assert_eq!(reading.decimals as usize, decimals, "{text}");
    }
}

#[test]
fn no_numbers() {
    let texts = [
        "",
        "-",
        ".",
        "1.",
        ".5",
        "-.5",
        "+1",
        "--1",
        "1-",
        "1e3",
        " 1",
        "1 ",
        "1.2.3",
        "1..2",
        "1,5",
        "nan",
        "inf",
        "1234567890123456",
        "12345678901234.56",
        "1.234567890123456",
        "123456789012345.6",
    ];
    for text in texts {
        assert_eq!(whole(text), NO_NUMBER, "{text}");
    }
    let spans = [
        (-1, -1),
        (-1, 3),
        (1, -1),
        (3, 2),
        (2, 2),
        (2, 7),
        (6, 7),
        (i32::MAX, i32::MAX),
        (i32::MIN, 5),
    ];
    for (start, end) in spans {
        assert_eq!(read_field(b"a-1.5b", start, end), NO_NUMBER, "{start} {end}");
    }
    assert_eq!(read_field(b"a-1.5b", 1, 5), Ok(Reading { value: -1.5, decimals: 1 }));
}

#[test]
fn gates() {
    let next = |x: f64| f64::from_bits(x.to_bits() + 1);
    assert_eq!(pass(Gate::AtMost(40.0), 40.0), Ok(true));
    assert_eq!(pass(Gate::AtMost(40.0), next(40.0)), Ok(false));
    assert_eq!(pass(Gate::AtLeast(next(40.0)), 40.0), Ok(false));
    assert_eq!(pass(Gate::Between(-0.0, 0.0), -0.0), Ok(true));
    assert_eq!(pass(Gate::Between(40.0, -40.0), 0.0), Ok(false));
    assert_eq!(pass(Gate::AtMost(f64::INFINITY), f64::NAN), Ok(false));
    let refused = Err(Refusal { number: NOT_A_LIMIT, place: 0 });
    for gate in [Gate::AtMost(f64::NAN), Gate::Between(0.0, f64::NAN), Gate::Between(f64::NAN, 0.0)]
    {
        assert_eq!(pass(gate, 0.0), refused);
        assert_eq!(pass_field(gate, b"1", 0, 1), refused);
        assert_eq!(pass_field(gate, b"1", 0, 2), Err(Refusal { number: NOT_A_NUMBER, place: 0 }));
    }
}
