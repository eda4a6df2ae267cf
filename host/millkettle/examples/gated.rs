//! gated PATTERN-FILE LIMIT: of each line of the input that the pattern is found in, its first two
//! groups, its third read as a number, and whether that is at most the limit.

use millkettle::{FieldError, Gate, Match, Pattern};
use std::error::Error;
use std::io::{stdin, BufRead};

/// A group's bytes as text.
fn shown<'t>(found: &Match<'t>, group: usize) -> std::borrow::Cow<'t, str> {
    String::from_utf8_lossy(found.bytes(group).unwrap_or_default())
}

/// The level with the decimals that it was written with, and what the gate says.
fn judged(found: &Match, gate: Gate) -> Result<String, FieldError> {
    let level = found.number(3)?;
    let says = if gate.passes(level)? { "passes" } else { "stopped" };
    Ok(format!("{:.*} {says}", level.decimals as usize, level.value))
}

fn main() -> Result<(), Box<dyn Error>> {
    let arguments: Vec<String> = std::env::args().skip(1).collect();
    let (pattern, limit) = match &arguments[..] {
        [file, limit] => (std::fs::read(file)?, limit.parse()?),
        _ => return Err("gated PATTERN-FILE LIMIT".into()),
    };
    let pattern = Pattern::new(pattern.strip_suffix(b"\n").unwrap_or(&pattern))?;
    for line in stdin().lock().split(b'\n') {
        let line = line?;
        if let Some(found) = pattern.search(&line, 0)? {
            let judged = judged(&found, Gate::AtMost(limit));
            let judged = judged.unwrap_or_else(|refused| refused.to_string());
            println!("{} {} {judged}", shown(&found, 1), shown(&found, 2));
        }
    }
    Ok(())
}
