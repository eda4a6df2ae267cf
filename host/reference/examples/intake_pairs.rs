//! Random inputs of the intake program, and what the reference says it writes:
//! `intake_pairs FOLDER COUNT` leaves N.in and N.out for N below COUNT.

use reference::generate::{damaged_pattern, long_text, pattern, text, Random};
use reference::intake::output;
use std::path::Path;
use std::{env, fs, io};

/// A pattern line and some text lines, now and then a long one, the last with or without LF.
fn input(random: &mut Random) -> Vec<u8> {
    let pattern = if random.percent(15) { damaged_pattern(random) } else { pattern(random) };
    let mut input = pattern.clone();
    for _ in 0..random.below(12) {
        input.push(b'\n');
        let text = if random.percent(5) {
            long_text(random, &pattern, 6_000)
        } else {
            text(random, &pattern)
        };
        input.extend(text);
    }
    if random.percent(70) {
        input.push(b'\n');
    }
    input
}

fn main() -> io::Result<()> {
    let words: Vec<String> = env::args().collect();
    let (folder, count) = (Path::new(&words[1]), words[2].parse().expect("a number"));
    let mut random = Random::new(7);
    for number in 0..count {
        let input = input(&mut random);
        fs::write(folder.join(format!("{number}.in")), &input)?;
        fs::write(folder.join(format!("{number}.out")), output(&input))?;
    }
    Ok(())
}
