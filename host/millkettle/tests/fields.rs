//! Fields as numbers against Rust's own parser and the reference, and gates at their limits.

mod common;
use common::*;
use millkettle::raw::{self, Passed, Read};
use millkettle::{Gate, Pattern, Reading};
use reference::fields;
use reference::generate::{damaged_numeral, numeral, text};

/// The numbers passed for a reading, by its bits.
fn bits(read: Read) -> (u32, u32, usize, u64) {
    (read.number, read.decimals, read.place, read.value.to_bits())
}

/// Reads a span and compares every number with the reference's.
fn read_alike(text: &[u8], start: i32, end: i32) -> bool {
    let expected = fields::read_field(text, start, end);
    let reply = match expected {
        Ok(reading) => (0, reading.decimals, 0, reading.value.to_bits()),
        Err(refusal) => (refusal.number, 0, refusal.place, 0),
    };
    let shown = text.escape_ascii();
    assert_eq!(bits(raw::read_field(text, start, end)), reply, "{shown} from {start} to {end}");
    expected.is_ok()
}

#[test]
fn a_million_numerals_as_rust_parses_them() {
    let count = if whole_run() { 1_000_000 } else { 1_000 };
    let mut random = Random::new(28);
    for _ in 0..count {
        let numeral = numeral(&mut random);
        let read = raw::read_field(numeral.as_bytes(), 0, numeral.len() as i32);
        let parsed: f64 = numeral.parse().unwrap();
        let decimals = numeral.split('.').nth(1).map_or(0, str::len) as u32;
        assert_eq!(bits(read), (0, decimals, 0, parsed.to_bits()), "{numeral}");
    }
}

#[test]
fn spans_of_any_bytes_as_the_reference_reads_them() {
    let mut taken = 0;
    rounds("fields", 4, 20_000, |random| {
        let mut line = text(random, b"L03 level dB");
        let at = line.len();
        line.extend(damaged_numeral(random));
        let end = line.len();
        line.extend(text(random, b" dB9."));
        taken += u32::from(read_alike(&line, at as i32, end as i32));
        let near = |random: &mut Random, place: usize| (place + random.below(3)) as i32 - 1;
        let (start, end) = (near(random, at), near(random, end));
        read_alike(&line, start, end);
        read_alike(&line, random.below(line.len() + 3) as i32 - 1, random.next() as i32);
    });
    assert!(!whole_run() || taken > 5_000);
}

/// Limits and values: zeros, infinities, the least and the greatest, and 40.0 with its neighbours.
fn values() -> Vec<f64> {
    let near = [0x4044_0000_0000_0000u64, 0x4043_FFFF_FFFF_FFFF, 0x4044_0000_0000_0001, 1, 0];
    let far = [f64::MAX, f64::INFINITY, 1.0];
    let positive: Vec<f64> = near.map(f64::from_bits).into_iter().chain(far).collect();
    positive.iter().flat_map(|&value| [value, -value]).chain([f64::NAN, -f64::NAN]).collect()
}

fn passed(answer: Result<bool, reference::refusal::Refusal>) -> Passed {
    match answer {
        Ok(passes) => Passed { number: 0, passes: u32::from(passes), place: 0 },
        Err(refusal) => Passed { number: refusal.number, passes: 0, place: refusal.place },
    }
}

#[test]
fn gates_as_the_reference_says() {
    let outcome =
        |answer: Result<bool, millkettle::FieldError>| answer.map_err(|error| error.number());
    let expected = |gate, value| fields::pass(gate, value).map_err(|refusal| refusal.number);
    for value in values() {
        let reading = Reading { value, decimals: 0 };
        for low in values() {
            let (most, least) =
                (Gate::AtMost(low).passes(reading), Gate::AtLeast(low).passes(reading));
            assert_eq!(
                outcome(most),
                expected(fields::Gate::AtMost(low), value),
                "{value} <= {low}"
            );
            assert_eq!(
                outcome(least),
                expected(fields::Gate::AtLeast(low), value),
                "{value} >= {low}"
            );
            for high in values() {
                let between = passed(fields::pass(fields::Gate::Between(low, high), value));
                assert_eq!(raw::pass(low, high, value), between, "{low} <= {value} <= {high}");
            }
        }
    }
}

#[test]
fn ends_are_included_and_reversed_limits_pass_nothing() {
    let at = |text: &str| Reading::of_span(text.as_bytes(), 0, text.len() as i32).unwrap();
    assert_eq!(Gate::AtMost(-40.0).passes(at("-40.0")), Ok(true));
    assert_eq!(Gate::AtMost(-40.0).passes(at("-39.9999999999999")), Ok(false));
    assert_eq!(Gate::Between(-0.0, 0.0).passes(at("-0")), Ok(true));
    assert_eq!(Gate::Between(1.0, -1.0).passes(at("0")), Ok(false));
    assert_eq!(Gate::Between(1.0, f64::NAN).passes(at("0")).unwrap_err().number(), 29);
}

#[test]
fn numbers_of_groups() {
    let pattern = Pattern::new(br"(L\d\d) (-?[\d.]+)( dB)?").unwrap();
    let found = pattern.search(b"06:15 L03 -48.25", 0).unwrap().unwrap();
    assert_eq!(found.bytes(2), Some(&b"-48.25"[..]));
    assert_eq!(found.number(2), Ok(Reading { value: -48.25, decimals: 2 }));
    for group in [0, 1, 3, 4] {
        assert_eq!(found.number(group).unwrap_err().number(), 28, "{group}");
    }
}
