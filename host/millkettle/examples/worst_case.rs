//! Every match where each looks to the text's end: the sum of the counts grows with the square.

use millkettle::Pattern;
use std::time::Instant;

fn main() -> Result<(), Box<dyn std::error::Error>> {
    let pattern = Pattern::new(b"a(?:.*b)?")?;
    println!("| bytes | matches | rows executed | milliseconds |");
    println!("|---|---|---|---|");
    for length in [80, 1_000, 2_000, 4_000, 8_000] {
        let text = vec![b'a'; length];
        let start = Instant::now();
        let all = pattern.search_all(&text, 0)?;
        let took = start.elapsed().as_secs_f64() * 1e3;
        println!("| {length} | {} | {} | {took:.0} |", all.matches.len(), all.rows_executed);
    }
    Ok(())
}
