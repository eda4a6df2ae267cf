//! Lines as a storm log has them, and patterns that one would put to it.

use reference::generate::Random;

/// A pattern, what it stands for, and whether it is searched for or matched at the start.
pub struct Question {
    pub kind: &'static str,
    pub pattern: &'static str,
    pub search: bool,
}

const fn search(kind: &'static str, pattern: &'static str) -> Question {
    Question { kind, pattern, search: true }
}

const fn at_start(kind: &'static str, pattern: &'static str) -> Question {
    Question { kind, pattern, search: false }
}

/// The patterns.
pub const QUESTIONS: [Question; 11] = [
    search("three fields", r"link=(\w+) time=(\d+:\d+) level=(-?\d+(?:\.\d+)?)"),
    search("one word", r"overflow"),
    search("names", r"(?:weir|sluice|culvert|outfall) (\w+) (?:open|shut|blocked)"),
    search("level of ten and more", r"level=(?:[1-9]\d|\d{3,})\.\d+"),
    search("lazy, quoted", r#"note="(.*?)" rain=(\d+)"#),
    search("words in capitals", r"\b[A-Z][a-z]+(?: [A-Z][a-z]+)+\b"),
    search("repeated readings", r"(?:(\d+)\.(\d+);){3,}"),
    search("tokens, the last one's kind", r"(?:(?:(\d+)|([a-z]+)|(\w+))[ .;:=]+)+"),
    search("never there", r"\bflood (?:warning|alarm)\b"),
    at_start("date and time, at the start", r"(\d{4})-(\d{2})-(\d{2}) (\d{2}):(\d{2})"),
    at_start("whole line", r"^(\S+) (\S+) (?:.*) level=(\S+)(?: .*)?$"),
];

const STATES: [&str; 3] = ["open", "shut", "blocked"];
const WORKS: [&str; 5] = ["weir", "sluice", "culvert", "outfall", "pump"];
const WORDS: [&str; 12] = [
    "rain", "since", "Upper", "Mill", "Lane", "gauge", "silted", "read", "twice", "no", "overflow",
    "drift",
];

/// The reading that a line is for: link, time and level. One in eight lacks its level.
fn reading(random: &mut Random) -> String {
    let (link, hour, minute) = (random.below(4000), random.below(24), random.below(60));
    if random.percent(12) {
        return format!("link=K{}b time={:02}:{:02} level=?", link, hour, minute);
    }
    let sign = if random.percent(20) { "-" } else { "" };
    let (whole, part) = (random.below(14), random.below(100));
    format!("link=K{}b time={:02}:{:02} level={}{}.{:02}", link, hour, minute, sign, whole, part)
}

/// A remark of so many words or readings.
fn remark(random: &mut Random, length: usize) -> String {
    let mut remark = String::new();
    while remark.len() < length {
        match random.below(8) {
            0 => {
                let (work, state) = (random.pick(&WORKS), random.pick(&STATES));
                remark += &format!("{} N{} {} ", work.unwrap(), random.below(90), state.unwrap());
            }
            1 => remark += &format!("{}.{};", random.below(30), random.below(10)),
            2 => remark += &format!("note=\"{}\" ", random.pick(&WORDS).unwrap()),
            3 => remark += &format!("rain={} ", random.below(60)),
            _ => remark += &format!("{} ", random.pick(&WORDS).unwrap()),
        }
    }
    remark
}

/// A line of 40 to 400 bytes.
fn line(random: &mut Random) -> Vec<u8> {
    let length = random.between(40, 400);
    let day = format!(
        "2026-11-{:02} {:02}:{:02} ",
        random.below(30) + 1,
        random.below(24),
        random.below(60)
    );
    let middle = remark(random, length / 3);
    let mut line = format!("{}{}{} ", day, middle, reading(random));
    line += &remark(random, length.saturating_sub(line.len()));
    let mut bytes = line.into_bytes();
    bytes.truncate(length);
    bytes
}

/// So many lines; the same seed gives the same.
pub fn lines(count: usize, seed: u64) -> Vec<Vec<u8>> {
    let mut random = Random::new(seed);
    (0..count).map(|_| line(&mut random)).collect()
}
